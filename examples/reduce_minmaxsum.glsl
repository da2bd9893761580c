#version 460
layout(local_size_x = 256, local_size_y = 1, local_size_z = 1) in;
layout(set = 0, binding = 0, std430) buffer I {
    layout(offset = 0) readonly int[] x;
} v18;
shared int[256] ssum;
shared ivec2[256] smm;
layout(set = 0, binding = 1, std430) buffer O {
    layout(offset = 0) int total;
    layout(offset = 4) int lo;
    layout(offset = 8) int hi;
    layout(offset = 12) uint xored;
    layout(offset = 16) uint ands;
    layout(offset = 20) uint ors;
} v103;
void main() {
    uint t = 0u;
    int v = 0;
    uint s = 0u;
    uint v11 = gl_LocalInvocationIndex;
    t = v11;
    uint v25 = gl_GlobalInvocationID.x;
    int v28 = v18.x[v25];
    v = v28;
    uint v33 = t;
    int v34 = v;
    ssum[v33] = v34;
    uint v41 = t;
    int v42 = v;
    smm[v41] = ivec2(v42, v42);
    memoryBarrierShared();
    barrier();
    s = 128u;
    bool again = false;
    for (;;) {
        if (again) {
            uint v95 = s;
            s = v95 >> 1u;
        }
        again = true;
        uint v55 = s;
        if (v55 > 0u) {
            uint v58 = t;
            uint v59 = s;
            if (v58 < v59) {
                uint v63 = t;
                uint v64 = t;
                uint v65 = s;
                uint v66 = v64 + v65;
                int v68 = ssum[v66];
                int v70 = ssum[v63];
                ssum[v63] = v70 + v68;
                uint v73 = t;
                uint v74 = t;
                int v76 = smm[v74].x;
                uint v77 = t;
                uint v78 = s;
                uint v79 = v77 + v78;
                int v81 = smm[v79].x;
                uint v83 = t;
                int v86 = smm[v83].y;
                uint v87 = t;
                uint v88 = s;
                uint v89 = v87 + v88;
                int v91 = smm[v89].y;
                smm[v73] = ivec2(min(v76, v81), max(v86, v91));
            }
            memoryBarrierShared();
            memoryBarrierShared();
            barrier();
            continue;
        } else {
            break;
        }
    }
    uint v97 = t;
    if (v97 == 0u) {
        int v106 = ssum[0];
        int v107 = atomicAdd(v103.total, v106);
        int v111 = smm[0].x;
        int v112 = atomicMin(v103.lo, v111);
        int v116 = smm[0].y;
        int v117 = atomicMax(v103.hi, v116);
    }
    int v121 = v;
    uint v123 = atomicXor(v103.xored, uint(v121));
    int v126 = v;
    uint v130 = atomicAnd(v103.ands, uint(v126) | 7u);
    int v133 = v;
    uint v137 = atomicOr(v103.ors, uint(v133) & 61680u);
    return;
}
