#version 460
layout(local_size_x = 64, local_size_y = 1, local_size_z = 1) in;
layout(set = 0, binding = 0, std430) buffer v3 {
    layout(offset = 0) uint[] m0;
} v5;
void main() {
    uint v41;
    uint v42;
    uint v43;
    v41 = 0u;
    v42 = 1u;
    v43 = 0u;
    bool again = false;
    for (;;) {
        if (again) {
            v43 = v41;
            uint spare = v41;
            v41 = v42;
            v42 = spare;
        }
        again = true;
        if (true) {
            v5.m0[0u] = v41;
            v5.m0[0u] = v42;
            v5.m0[0u] = v43;
            continue;
        } else {
            break;
        }
    }
    return;
}
