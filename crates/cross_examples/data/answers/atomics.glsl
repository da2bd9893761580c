#version 460
layout(local_size_x = 64, local_size_y = 1, local_size_z = 1) in;
layout(set = 0, binding = 0, std430) buffer v3 {
    layout(offset = 0) uint[] m0;
} v5;
layout(set = 0, binding = 1, std430) buffer v63 {
    layout(offset = 0) int[] m0;
} v65;
void main() {
    uint v100 = atomicAdd(v5.m0[0u], 0u);
    atomicExchange(v5.m0[0u], 1u);
    uint v102 = atomicExchange(v5.m0[0u], 1u);
    uint v103 = atomicAdd(v5.m0[0u], 1u);
    uint v104 = atomicAdd(v5.m0[0u], 4294967295u);
    uint v105 = atomicAdd(v5.m0[0u], 0u - 3u);
    uint v106 = atomicMin(v5.m0[0u], 1u);
    uint v107 = atomicMax(v5.m0[0u], 1u);
    uint v108 = atomicAnd(v5.m0[0u], 1u);
    uint v109 = atomicOr(v5.m0[0u], 1u);
    uint v110 = atomicXor(v5.m0[0u], 1u);
    uint v111 = atomicCompSwap(v5.m0[0u], 3u, 1u);
    int v112 = atomicAdd(v65.m0[0u], 0);
    int v113 = atomicAdd(v65.m0[0u], 1);
    int v114 = atomicAdd(v65.m0[0u], 0xFFFFFFFF);
    int v115 = atomicAdd(v65.m0[0u], 0 - 2);
    int v116 = atomicMin(v65.m0[0u], 2);
    int v117 = atomicMax(v65.m0[0u], 2);
    memoryBarrierBuffer();
    memoryBarrierShared();
    memoryBarrierShared();
    memoryBarrierBuffer();
    memoryBarrierShared();
    barrier();
    barrier();
    return;
}
