#version 460
layout(local_size_x = 1, local_size_y = 1, local_size_z = 1) in;
layout(set = 0, binding = 0, std430) buffer v7 {
    layout(offset = 0) uvec4[] m0;
} v11;
void main() {
    uint at;
    uint v17 = v11.m0[0u].x;
    uint v18 = v17 + 1u;
    at = v18;
    uint v21 = v11.m0[at].y;
    v11.m0[0u].x = v21;
    return;
}
