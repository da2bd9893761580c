#version 460
layout(local_size_x = 64, local_size_y = 1, local_size_z = 1) in;
layout(set = 0, binding = 0, std430) buffer v3 {
    layout(offset = 0) uint[] m0;
} v5;
void main() {
    uint v40;
    bool again = false;
    for (;;) {
        if (again) {
        }
        again = true;
        v40 = v5.m0[0u];
        if (v40 < 4u) {
            v5.m0[0u] = v40 + 1u;
            continue;
        } else {
            break;
        }
    }
    return;
}
