#version 460
layout(local_size_x = 32, local_size_y = 1, local_size_z = 1) in;
const ivec2 v50 = ivec2(9949, 0);
const int[16] v99 = int[16](12867, 7596, 4013, 2037, 1022, 511, 255, 127, 63, 31, 15, 7, 3, 1, 0, 0);
layout(set = 0, binding = 0, std430) buffer O {
    layout(offset = 0) writeonly ivec4[] sc;
} v136;
void main() {
    int id = 0;
    int angle = 0;
    bool flip = false;
    ivec2 v = ivec2(0, 0);
    int z = 0;
    int i = 0;
    ivec2 sh = ivec2(0, 0);
    int[16] indexable = int[16](0, 0, 0, 0, 0, 0, 0, 0, 0, 0, 0, 0, 0, 0, 0, 0);
    int[16] indexable_2 = int[16](0, 0, 0, 0, 0, 0, 0, 0, 0, 0, 0, 0, 0, 0, 0, 0);
    int v141 = 0;
    int v137;
    ivec2 v138;
    int v139;
    uint v16 = gl_GlobalInvocationID.x;
    id = int(v16);
    int v19 = id;
    angle = (v19 - 32) * 800;
    flip = false;
    int v28 = angle;
    if (v28 > 25735) {
        int v34 = angle;
        angle = v34 - 51471;
        flip = true;
    } else {
        int v38 = angle;
        if (v38 < 0xFFFF9B79) {
            int v43 = angle;
            angle = v43 + 51471;
            flip = true;
        }
    }
    v = v50;
    int v52 = angle;
    z = v52;
    i = 0;
    bool again = false;
    for (;;) {
        if (again) {
            int v125 = i;
            i = v125 + 1;
        }
        again = true;
        int v59 = i;
        if (v59 < 16) {
            ivec2 v63 = v;
            int v64 = i;
            sh = v63 >> (uvec2(ivec2(v64, v64)) & 31u);
            int v67 = z;
            if (v67 >= 0) {
                int v72 = v.x;
                int v75 = sh.y;
                int v78 = v.y;
                int v80 = sh.x;
                v = ivec2(v72 - v75, v78 + v80);
                int v100 = i;
                indexable = v99;
                int v104 = indexable[v100];
                int v105 = z;
                z = v105 - v104;
            } else {
                int v109 = v.x;
                int v111 = sh.y;
                int v114 = v.y;
                int v116 = sh.x;
                v = ivec2(v109 + v111, v114 - v116);
                int v119 = i;
                indexable_2 = v99;
                int v122 = indexable_2[v119];
                int v123 = z;
                z = v123 + v122;
            }
            continue;
        } else {
            break;
        }
    }
    bool v127 = flip;
    if (v127) {
        ivec2 v130 = v;
        v = 0 - v130;
    }
    v137 = id;
    v138 = v;
    v139 = z;
    bool v140 = flip;
    if (v140) {
        int v144 = angle;
        v141 = ~v144;
    } else {
        int v147 = angle;
        v141 = v147;
    }
    int v148 = v141;
    v136.sc[v137] = ivec4(v138.x, v138.y, v139, v148);
    return;
}
