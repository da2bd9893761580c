#version 460
layout(local_size_x = 64, local_size_y = 1, local_size_z = 1) in;
void main() {
    uint v41;
    v41 = 0u;
    for (;;) {
        uint v43 = v41 + 1u;
        if (v43 < 4u) {
            v41 = v43;
            continue;
        } else {
            break;
        }
    }
    return;
}
