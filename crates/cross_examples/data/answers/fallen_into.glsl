#version 460
layout(local_size_x = 64, local_size_y = 1, local_size_z = 1) in;
layout(set = 0, binding = 0, std430) buffer v3 {
    layout(offset = 0) uint[] m0;
} v5;
void main() {
    uint v55;
    uint v40 = v5.m0[0u];
    bool fell = false;
    switch (v40) {
        case 1u: {
            v55 = 1u;
            fell = true;
        }
        case 2u: {
            if (!fell) {
                v55 = 0u;
            }
            v5.m0[0u] = v55;
            break;
        }
        default: {
            break;
        }
    }
    return;
}
