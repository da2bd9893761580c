#version 460
layout(local_size_x = 64, local_size_y = 1, local_size_z = 1) in;
layout(set = 0, binding = 0, std430) buffer v3 {
    layout(offset = 0) uint[] m0;
} v5;
layout(set = 0, binding = 1, std430) buffer v63 {
    layout(offset = 0) int[] m0;
} v65;
void main() {
    uint v20 = v5.m0[0u];
    int v40 = v65.m0[0u];
    v65.m0[0u] = int(v40 < 0 ? 0u - uint(v40) : uint(v40));
    v65.m0[0u] = sign(v40);
    v5.m0[0u] = min(v20, uint(v40));
    v65.m0[0u] = min(v40, int(v20));
    v65.m0[0u] = int(max(v20, uint(v40)));
    v5.m0[0u] = uint(max(int(v20), 0xFFFFFFF9));
    v5.m0[0u] = min(max(v20, 1u), 2u);
    v65.m0[0u] = min(max(v40, 2), int(v20));
    v5.m0[0u] = uint(findLSB(uint(v40)));
    v65.m0[0u] = findMSB(int(v20));
    v65.m0[0u] = findMSB(uint(v40));
    return;
}
