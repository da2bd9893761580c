#version 460
layout(local_size_x = 64, local_size_y = 1, local_size_z = 1) in;
layout(set = 0, binding = 0, std430) buffer v3 {
    layout(offset = 0) uint[] m0;
} v5;
struct v73 {
    uvec2 m0;
    uint m1;
};
void main() {
    v73 v40;
    v5.m0[0u] = v40.m1;
    return;
}
