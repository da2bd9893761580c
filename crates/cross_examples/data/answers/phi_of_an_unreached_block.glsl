#version 460
layout(local_size_x = 64, local_size_y = 1, local_size_z = 1) in;
layout(set = 0, binding = 0, std430) buffer v3 {
    layout(offset = 0) uint[] m0;
} v5;
const uvec2 v74 = uvec2(0u, 1u);
void main() {
    uvec2 v40;
    v40 = v74;
    v5.m0[0u] = v40.y;
    return;
}
