#version 460
layout(local_size_x = 64, local_size_y = 1, local_size_z = 1) in;
layout(set = 0, binding = 0, std430) buffer v3 {
    layout(offset = 0) uvec3 m0;
    layout(offset = 12) uint m1;
    layout(offset = 32) uint m2;
    layout(offset = 48) uvec3[] m3;
} v5;
void main() {
    v5.m1 = 1u;
    return;
}
