#version 460
layout(local_size_x = 64, local_size_y = 1, local_size_z = 1) in;
layout(set = 0, binding = 0, std430) buffer v3 {
    layout(offset = 0) uint[] m0;
} v5;
void main() {
    bool again = false;
    bool leave = false;
    for (;;) {
        if (again) {
        }
        again = true;
        uint v40 = v5.m0[0u];
        switch (v40) {
            case 1u: {
                v5.m0[0u] = 1u;
            }
            case 2u: {
                v5.m0[1u] = 1u;
                break;
            }
            default: {
                break;
            }
            case 5u: {
                continue;
            }
            case 3u: {
                leave = true;
                break;
            }
        }
        if (leave) {
            break;
        }
        continue;
    }
    return;
}
