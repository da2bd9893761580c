#version 460
layout(local_size_x = 64, local_size_y = 1, local_size_z = 1) in;
layout(set = 0, binding = 0, std430) buffer v3 {
    layout(offset = 0) uint[] m0;
} v5;
void main() {
    uint i = 0u;
    i = 0u;
    bool again = false;
    for (;;) {
        if (again) {
            uint v45 = i;
            i = v45 + 1u;
        }
        again = true;
        uint v40 = i;
        if (v40 < 4u) {
            uint v42 = i;
            uint v43 = i;
            v5.m0[v42] = v43;
            continue;
        } else {
            break;
        }
    }
    return;
}
