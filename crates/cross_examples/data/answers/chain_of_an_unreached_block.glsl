#version 460
layout(local_size_x = 64, local_size_y = 1, local_size_z = 1) in;
layout(set = 0, binding = 0, std430) buffer v3 {
    layout(offset = 0) uint[] m0;
} v5;
const uint v75 = 1u + 1u;
void main() {
    uint v41;
    v5.m0[v75] = v41;
    return;
}
