#version 460
layout(local_size_x = 64, local_size_y = 1, local_size_z = 1) in;
layout(set = 0, binding = 0, std430) coherent restrict buffer v3 {
    layout(offset = 0) writeonly uint[] m0;
} v5;
layout(constant_id = 1) const bool v30 = true;
layout(constant_id = 2) const int bias = 0xFFFFFFF9;
layout(push_constant, std430) uniform v70 {
    layout(offset = 0) uint m0;
    layout(offset = 16) uvec3 m1;
} push;
layout(set = 1, binding = 2, std140) uniform v73 {
    layout(offset = 0) uint[2] m0;
    layout(offset = 32) uint m1;
} v75;
uint v43 = 5u;
void main() {
    uint v52 = push.m0;
    v5.m0[0u] = v30 ? v52 : 0u;
    uint v55 = v75.m0[1u];
    v5.m0[0u] = v55 + uint(bias);
    uint v57 = v43;
    v5.m0[0u] = v57;
    v5.m0[0u] = uint(v5.m0.length());
    return;
}
