#version 460
layout(local_size_x = 64, local_size_y = 1, local_size_z = 1) in;
layout(set = 0, binding = 0, std430) buffer v3 {
    layout(offset = 0) uint[] m0;
} v5;
void main() {
    uint v20 = v5.m0[0u];
    uint v21 = v5.m0[0u];
    uint v40 = v5.m0[0u];
    v5.m0[0u] = v20 - v21 - v40;
    v5.m0[0u] = v20 - (v21 - v40);
    v5.m0[0u] = v20 + (v21 + v40);
    v5.m0[0u] = (v20 + v21) * v40;
    v5.m0[0u] = v20 * (v21 + v40);
    v5.m0[0u] = v20 * v21 + v40;
    v5.m0[0u] = v20 + v21 * v40;
    v5.m0[0u] = v20 / v21 % v40;
    v5.m0[0u] = v20 / (v21 % v40);
    v5.m0[0u] = v20 << 1u >> 2u;
    v5.m0[0u] = v20 << (v21 + v40 & 31u);
    v5.m0[0u] = v20 & v21 ^ v40 | v20;
    v5.m0[0u] = v20 | v21 ^ v40 & v20;
    v5.m0[0u] = ((v20 | v21) ^ v40) & v20;
    v5.m0[0u] = v20 & (v21 | v40);
    v5.m0[0u] = ~~v20;
    v5.m0[0u] = ~(v20 + v21);
    v5.m0[0u] = ~v20 + v21;
    v5.m0[0u] = (~uvec3(v20, v21, v40)).x;
    v5.m0[0u] = !(v20 < v21) ? 1u : 0u;
    v5.m0[0u] = v20 < v21 && v21 == v40 || v20 != v40 ? 1u : 0u;
    v5.m0[0u] = (v20 < v21 || v21 == v40) && v20 != v40 ? 1u : 0u;
    v5.m0[0u] = v20 < v21 == v21 < v40 ? 1u : 0u;
    v5.m0[0u] = v20 < v21 != (v21 < v40 == true) ? 1u : 0u;
    v5.m0[0u] = (v20 < v21 ? v21 == v40 : true) ? 1u : 0u;
    v5.m0[0u] = v20 < v21 ? v21 < v40 ? v20 : v21 : v40;
    v5.m0[0u] = v20 < v21 ? v40 : v21 < v40 ? v20 : v21;
    v5.m0[0u] = (v20 < v21 ? v20 : v21) + v40;
    v5.m0[0u] = v40 + (v20 < v21 ? v20 : v21);
    return;
}
