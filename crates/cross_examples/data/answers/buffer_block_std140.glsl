#version 460
layout(local_size_x = 64, local_size_y = 1, local_size_z = 1) in;
layout(set = 0, binding = 0, std140) buffer v3 {
    layout(offset = 0) uint[] m0;
} v5;
void main() {
    uint v18 = gl_GlobalInvocationID.x;
    uint v20 = v5.m0[v18];
    v5.m0[v18] = v20 + 1u;
    return;
}
