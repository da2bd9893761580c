#version 460
layout(local_size_x = 4, local_size_y = 1, local_size_z = 1) in;
layout(set = 0, binding = 0, std430) buffer G {
    layout(offset = 0) uint[][8] grid;
} v51;
layout(set = 0, binding = 1, std430) buffer P {
    layout(offset = 0) writeonly ivec4[] pose;
} v139;
void main() {
    uint id = 0u;
    ivec2 p = ivec2(0, 0);
    int dir = 0;
    int turns = 0;
    int step = 0;
    uint word = 0u;
    int sh = 0;
    uint cell = 0u;
    uint v15 = gl_GlobalInvocationID.x;
    id = v15;
    uint v21 = id;
    int v22 = int(v21);
    p = ivec2(4, 4 + int((v22 < 0 ? 0u - uint(v22) : uint(v22)) % (3 < 0 ? 0u - 3u : 3u) == 0u ? 0u : v22 < 0 == 3 < 0 ? 3 < 0 ? 0u - (v22 < 0 ? 0u - uint(v22) : uint(v22)) % (3 < 0 ? 0u - 3u : 3u) : (v22 < 0 ? 0u - uint(v22) : uint(v22)) % (3 < 0 ? 0u - 3u : 3u) : 3 < 0 ? (v22 < 0 ? 0u - uint(v22) : uint(v22)) % (3 < 0 ? 0u - 3u : 3u) - (3 < 0 ? 0u - 3u : 3u) : (3 < 0 ? 0u - 3u : 3u) - (v22 < 0 ? 0u - uint(v22) : uint(v22)) % (3 < 0 ? 0u - 3u : 3u)));
    uint v29 = id;
    dir = int(v29 & 3u);
    turns = 0;
    step = 0;
    bool again = false;
    for (;;) {
        if (again) {
            int v133 = step;
            step = v133 + 1;
        }
        again = true;
        int v41 = step;
        if (v41 < 200) {
            uint v52 = id;
            int v55 = p.y;
            uint v58 = v51.grid[v52][v55];
            word = v58;
            int v61 = p.x;
            sh = v61 * 4;
            uint v64 = word;
            int v65 = sh;
            cell = bitfieldExtract(v64, v65, 4);
            uint v67 = cell;
            switch (v67 % 4u) {
                default: {
                    int v90 = dir;
                    dir = v90 ^ 2;
                    break;
                }
                case 0u: {
                    int v75 = dir;
                    dir = v75 + 1 & 3;
                    int v79 = turns;
                    turns = v79 + 1;
                    break;
                }
                case 1u: {
                    int v82 = dir;
                    dir = v82 + 3 & 3;
                    int v85 = turns;
                    turns = v85 - 1;
                    break;
                }
                case 2u: {
                    break;
                }
            }
            uint v94 = id;
            int v96 = p.y;
            uint v97 = word;
            uint v98 = cell;
            int v101 = sh;
            v51.grid[v94][v96] = bitfieldInsert(v97, v98 + 1u & 3u, v101, 4);
            int v104 = dir;
            switch (v104) {
                case 0: {
                    int v111 = p.y;
                    p.y = v111 - 1;
                    break;
                }
                case 1: {
                    int v115 = p.x;
                    p.x = v115 + 1;
                    break;
                }
                case 2: {
                    int v119 = p.y;
                    p.y = v119 + 1;
                    break;
                }
                case 3: {
                    int v123 = p.x;
                    p.x = v123 - 1;
                    break;
                }
                default: {
                    break;
                }
            }
            ivec2 v127 = p;
            ivec2 v130 = v127 + ivec2(8, 8);
            ivec2 v131 = ivec2(8, 8);
            p = ivec2(int((v130.x < 0 ? 0u - uint(v130.x) : uint(v130.x)) % (v131.x < 0 ? 0u - uint(v131.x) : uint(v131.x)) == 0u ? 0u : v130.x < 0 == v131.x < 0 ? v131.x < 0 ? 0u - (v130.x < 0 ? 0u - uint(v130.x) : uint(v130.x)) % (v131.x < 0 ? 0u - uint(v131.x) : uint(v131.x)) : (v130.x < 0 ? 0u - uint(v130.x) : uint(v130.x)) % (v131.x < 0 ? 0u - uint(v131.x) : uint(v131.x)) : v131.x < 0 ? (v130.x < 0 ? 0u - uint(v130.x) : uint(v130.x)) % (v131.x < 0 ? 0u - uint(v131.x) : uint(v131.x)) - (v131.x < 0 ? 0u - uint(v131.x) : uint(v131.x)) : (v131.x < 0 ? 0u - uint(v131.x) : uint(v131.x)) - (v130.x < 0 ? 0u - uint(v130.x) : uint(v130.x)) % (v131.x < 0 ? 0u - uint(v131.x) : uint(v131.x))), int((v130.y < 0 ? 0u - uint(v130.y) : uint(v130.y)) % (v131.y < 0 ? 0u - uint(v131.y) : uint(v131.y)) == 0u ? 0u : v130.y < 0 == v131.y < 0 ? v131.y < 0 ? 0u - (v130.y < 0 ? 0u - uint(v130.y) : uint(v130.y)) % (v131.y < 0 ? 0u - uint(v131.y) : uint(v131.y)) : (v130.y < 0 ? 0u - uint(v130.y) : uint(v130.y)) % (v131.y < 0 ? 0u - uint(v131.y) : uint(v131.y)) : v131.y < 0 ? (v130.y < 0 ? 0u - uint(v130.y) : uint(v130.y)) % (v131.y < 0 ? 0u - uint(v131.y) : uint(v131.y)) - (v131.y < 0 ? 0u - uint(v131.y) : uint(v131.y)) : (v131.y < 0 ? 0u - uint(v131.y) : uint(v131.y)) - (v130.y < 0 ? 0u - uint(v130.y) : uint(v130.y)) % (v131.y < 0 ? 0u - uint(v131.y) : uint(v131.y))));
            continue;
        } else {
            break;
        }
    }
    uint v140 = id;
    ivec2 v141 = p;
    int v142 = dir;
    int v143 = turns;
    v139.pose[v140] = ivec4(v141.x, v141.y, v142, v143);
    return;
}
