#version 460
layout(local_size_x = 64, local_size_y = 1, local_size_z = 1) in;
layout(set = 0, binding = 0, std430) buffer v3 {
    layout(offset = 0) uint[] m0;
} v5;
void main() {
    uint v20 = v5.m0[0u];
    uvec3 v40 = uvec3(v20, 1u, 0u);
    v5.m0[0u] = uvec3(v40.z, v40.x, 0u).y;
    v5.m0[0u] = (v40 + v40)[v20];
    uvec3 v45 = v40;
    v45[v20] = 1u;
    uvec3 v46 = v45;
    v46.z = 1u;
    v5.m0[0u] = (any(bvec3(v40.x < v46.x, v40.y < v46.y, v40.z < v46.z)) ? v40 : v46).x;
    return;
}
