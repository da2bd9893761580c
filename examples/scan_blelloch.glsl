#version 460
layout(local_size_x = 64, local_size_x_id = 0, local_size_y = 1, local_size_z = 1) in;
const uint v14 = gl_WorkGroupSize.x;
const uint v16 = v14 * 2u;
const uint v29 = gl_WorkGroupSize.x;
const uint v30 = v29 * 2u;
shared uint[v30] temp;
layout(set = 0, binding = 0, std430) buffer D {
    layout(offset = 0) uint[] d;
} v39;
layout(set = 0, binding = 1, std430) buffer T {
    layout(offset = 0) writeonly uint[] totals;
} v114;
void main() {
    uint n = 0u;
    uint t = 0u;
    uint base = 0u;
    uint offset = 0u;
    uint k = 0u;
    uint ai = 0u;
    uint bi = 0u;
    uint k_2 = 0u;
    uint ai_2 = 0u;
    uint bi_2 = 0u;
    uint v = 0u;
    n = v16;
    uint v22 = gl_LocalInvocationID.x;
    t = v22;
    uint v26 = gl_WorkGroupID.x;
    uint v27 = n;
    base = v26 * v27;
    uint v34 = t;
    uint v35 = 2u * v34;
    uint v42 = base;
    uint v43 = t;
    uint v45 = v42 + 2u * v43;
    uint v48 = v39.d[v45];
    temp[v35] = v48;
    uint v51 = t;
    uint v53 = 2u * v51 + 1u;
    uint v54 = base;
    uint v55 = t;
    uint v58 = v54 + 2u * v55 + 1u;
    uint v60 = v39.d[v58];
    temp[v53] = v60;
    offset = 1u;
    uint v64 = n;
    k = v64 >> 1u;
    bool again = false;
    for (;;) {
        if (again) {
            uint v105 = k;
            k = v105 >> 1u;
        }
        again = true;
        uint v72 = k;
        if (v72 > 0u) {
            memoryBarrierShared();
            barrier();
            uint v76 = t;
            uint v77 = k;
            if (v76 < v77) {
                uint v82 = offset;
                uint v83 = t;
                ai = v82 * (2u * v83 + 1u) - 1u;
                uint v89 = offset;
                uint v90 = t;
                bi = v89 * (2u * v90 + 2u) - 1u;
                uint v95 = bi;
                uint v96 = ai;
                uint v98 = temp[v96];
                uint v100 = temp[v95];
                temp[v95] = v100 + v98;
            }
            uint v103 = offset;
            offset = v103 * 2u;
            continue;
        } else {
            break;
        }
    }
    uint v107 = t;
    if (v107 == 0u) {
        uint v116 = gl_WorkGroupID.x;
        uint v117 = n;
        uint v118 = v117 - 1u;
        uint v120 = temp[v118];
        v114.totals[v116] = v120;
        uint v122 = n;
        uint v123 = v122 - 1u;
        temp[v123] = 0u;
    }
    k_2 = 1u;
    bool again_2 = false;
    for (;;) {
        if (again_2) {
            uint v170 = k_2;
            k_2 = v170 * 2u;
        }
        again_2 = true;
        uint v131 = k_2;
        uint v132 = n;
        if (v131 < v132) {
            uint v134 = offset;
            offset = v134 >> 1u;
            memoryBarrierShared();
            barrier();
            uint v136 = t;
            uint v137 = k_2;
            if (v136 < v137) {
                uint v142 = offset;
                uint v143 = t;
                ai_2 = v142 * (2u * v143 + 1u) - 1u;
                uint v149 = offset;
                uint v150 = t;
                bi_2 = v149 * (2u * v150 + 2u) - 1u;
                uint v156 = ai_2;
                uint v158 = temp[v156];
                v = v158;
                uint v159 = ai_2;
                uint v160 = bi_2;
                uint v162 = temp[v160];
                temp[v159] = v162;
                uint v164 = bi_2;
                uint v165 = v;
                uint v167 = temp[v164];
                temp[v164] = v167 + v165;
            }
            continue;
        } else {
            break;
        }
    }
    memoryBarrierShared();
    barrier();
    uint v172 = base;
    uint v173 = t;
    uint v175 = v172 + 2u * v173;
    uint v176 = t;
    uint v177 = 2u * v176;
    uint v179 = temp[v177];
    v39.d[v175] = v179;
    uint v181 = base;
    uint v182 = t;
    uint v185 = v181 + 2u * v182 + 1u;
    uint v186 = t;
    uint v188 = 2u * v186 + 1u;
    uint v190 = temp[v188];
    v39.d[v185] = v190;
    return;
}
