#version 460
layout(local_size_x = 8, local_size_y = 8, local_size_z = 1) in;
layout(constant_id = 2) const bool wrap = true;
layout(constant_id = 0) const uint W = 24u;
const int v23 = int(W) + 0;
const int v25 = int(W) + 0;
layout(constant_id = 1) const uint H = 16u;
const int v31 = int(H) + 0;
const int v33 = int(H) + 0;
const int v53 = int(W) + 0;
const int v61 = int(H) + 0;
layout(set = 0, binding = 0, std430) buffer I {
    layout(offset = 0) readonly uint[] cells;
} src;
const uvec2 v94 = uvec2(W, H);
layout(set = 0, binding = 1, std430) buffer O {
    layout(offset = 0) writeonly uint[] cells;
} dst;
uint at_vi2(inout ivec2 p) {
    bool v47;
    bool v55;
    bool v63;
    if (wrap) {
        int v21 = p.x;
        int v24 = v21 + v23;
        int v29 = p.y;
        int v32 = v29 + v31;
        p = ivec2(int((v24 < 0 ? 0u - uint(v24) : uint(v24)) % (v25 < 0 ? 0u - uint(v25) : uint(v25)) == 0u ? 0u : v24 < 0 == v25 < 0 ? v25 < 0 ? 0u - (v24 < 0 ? 0u - uint(v24) : uint(v24)) % (v25 < 0 ? 0u - uint(v25) : uint(v25)) : (v24 < 0 ? 0u - uint(v24) : uint(v24)) % (v25 < 0 ? 0u - uint(v25) : uint(v25)) : v25 < 0 ? (v24 < 0 ? 0u - uint(v24) : uint(v24)) % (v25 < 0 ? 0u - uint(v25) : uint(v25)) - (v25 < 0 ? 0u - uint(v25) : uint(v25)) : (v25 < 0 ? 0u - uint(v25) : uint(v25)) - (v24 < 0 ? 0u - uint(v24) : uint(v24)) % (v25 < 0 ? 0u - uint(v25) : uint(v25))), int((v32 < 0 ? 0u - uint(v32) : uint(v32)) % (v33 < 0 ? 0u - uint(v33) : uint(v33)) == 0u ? 0u : v32 < 0 == v33 < 0 ? v33 < 0 ? 0u - (v32 < 0 ? 0u - uint(v32) : uint(v32)) % (v33 < 0 ? 0u - uint(v33) : uint(v33)) : (v32 < 0 ? 0u - uint(v32) : uint(v32)) % (v33 < 0 ? 0u - uint(v33) : uint(v33)) : v33 < 0 ? (v32 < 0 ? 0u - uint(v32) : uint(v32)) % (v33 < 0 ? 0u - uint(v33) : uint(v33)) - (v33 < 0 ? 0u - uint(v33) : uint(v33)) : (v33 < 0 ? 0u - uint(v33) : uint(v33)) - (v32 < 0 ? 0u - uint(v32) : uint(v32)) % (v33 < 0 ? 0u - uint(v33) : uint(v33))));
    } else {
        int v38 = p.x;
        bool v40 = v38 < 0;
        if (!v40) {
            int v45 = p.y;
            bool v46 = v45 < 0;
            v47 = v46;
        } else {
            v47 = v40;
        }
        if (!v47) {
            int v52 = p.x;
            bool v54 = v52 >= v53;
            v55 = v54;
        } else {
            v55 = v47;
        }
        if (!v55) {
            int v60 = p.y;
            bool v62 = v60 >= v61;
            v63 = v62;
        } else {
            v63 = v55;
        }
        if (v63) {
            return 0u;
        }
    }
    int v72 = p.y;
    int v76 = p.x;
    uint v78 = uint(v72) * W + uint(v76);
    uint v81 = src.cells[v78];
    return v81 & 1u;
}
void main() {
    uvec2 g = uvec2(0u, 0u);
    uint n = 0u;
    int dy = 0;
    int dx = 0;
    ivec2 param = ivec2(0, 0);
    uint self = 0u;
    ivec2 param_2 = ivec2(0, 0);
    uint v157;
    bool v170;
    uvec3 v91 = gl_GlobalInvocationID;
    g = uvec2(v91.x, v91.y);
    uvec2 v93 = g;
    if (any(bvec2(v93.x >= v94.x, v93.y >= v94.y))) {
        return;
    }
    n = 0u;
    dy = 0xFFFFFFFF;
    bool again = false;
    for (;;) {
        if (again) {
            int v141 = dy;
            dy = v141 + 1;
        }
        again = true;
        int v110 = dy;
        if (v110 <= 1) {
            dx = 0xFFFFFFFF;
            bool again_2 = false;
            for (;;) {
                if (again_2) {
                    int v139 = dx;
                    dx = v139 + 1;
                }
                again_2 = true;
                int v119 = dx;
                if (v119 <= 1) {
                    int v121 = dx;
                    int v123 = dy;
                    if (v121 == 0 && v123 == 0) {
                        continue;
                    }
                    uvec2 v129 = g;
                    int v131 = dx;
                    int v132 = dy;
                    param = ivec2(v129) + ivec2(v131, v132);
                    uint v136 = at_vi2(param);
                    uint v137 = n;
                    n = v137 + v136;
                    continue;
                } else {
                    break;
                }
            }
            continue;
        } else {
            break;
        }
    }
    uvec2 v144 = g;
    param_2 = ivec2(v144);
    uint v147 = at_vi2(param_2);
    self = v147;
    uint v153 = g.y;
    uint v156 = g.x;
    v157 = v153 * W + v156;
    uint v158 = n;
    bool v160 = v158 == 3u;
    if (!v160) {
        uint v164 = n;
        uint v167 = self;
        bool v169 = v164 == 2u && v167 == 1u;
        v170 = v169;
    } else {
        v170 = v160;
    }
    dst.cells[v157] = v170 ? 1u : 0u;
    return;
}
