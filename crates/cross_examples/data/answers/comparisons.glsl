#version 460
layout(local_size_x = 64, local_size_y = 1, local_size_z = 1) in;
layout(set = 0, binding = 0, std430) buffer v3 {
    layout(offset = 0) uint[] m0;
} v5;
layout(set = 0, binding = 1, std430) buffer v63 {
    layout(offset = 0) int[] m0;
} v65;
void main() {
    uint v20 = v5.m0[0u];
    int v40 = v65.m0[0u];
    v5.m0[0u] = v20 < uint(v40) ? 1u : 0u;
    v5.m0[0u] = v20 <= 1u ? 1u : 0u;
    v5.m0[0u] = v20 > 2u ? 1u : 0u;
    v5.m0[0u] = uint(v40) >= v20 ? 1u : 0u;
    v5.m0[0u] = v40 < int(v20) ? 1u : 0u;
    v5.m0[0u] = v40 <= 2 ? 1u : 0u;
    v5.m0[0u] = int(v20) > v40 ? 1u : 0u;
    v5.m0[0u] = v40 >= v40 ? 1u : 0u;
    v5.m0[0u] = v20 == uint(v40) ? 1u : 0u;
    v5.m0[0u] = v40 == 2 ? 1u : 0u;
    v5.m0[0u] = uint(v40) != v20 ? 1u : 0u;
    v5.m0[0u] = !true ? 1u : 0u;
    v5.m0[0u] = true && false ? 1u : 0u;
    v5.m0[0u] = true || false ? 1u : 0u;
    v5.m0[0u] = true == false ? 1u : 0u;
    v5.m0[0u] = true != false ? 1u : 0u;
    return;
}
