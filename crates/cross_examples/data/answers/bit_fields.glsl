#version 460
layout(local_size_x = 64, local_size_y = 1, local_size_z = 1) in;
layout(set = 0, binding = 0, std430) buffer v3 {
    layout(offset = 0) uint[] m0;
} v5;
layout(set = 0, binding = 1, std430) buffer v63 {
    layout(offset = 0) int[] m0;
} v65;
void main() {
    uint v20 = v5.m0[0u];
    int v40 = v65.m0[0u];
    v5.m0[0u] = bitfieldInsert(v20, 1u, 3, v40);
    v65.m0[0u] = bitfieldInsert(v40, 2, int(v20), 2);
    v5.m0[0u] = uint(bitfieldExtract(int(v20), 3, 2));
    v65.m0[0u] = bitfieldExtract(v40, 3, 2);
    v65.m0[0u] = int(bitfieldExtract(uint(v40), 3, 2));
    v5.m0[0u] = bitfieldReverse(v20);
    v5.m0[0u] = uint(bitCount(v20));
    v65.m0[0u] = bitCount(v20);
    return;
}
