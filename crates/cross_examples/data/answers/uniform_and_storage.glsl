#version 460
layout(local_size_x = 4, local_size_y = 1, local_size_z = 1) in;
layout(set = 0, binding = 0, std140) uniform Limits {
    layout(offset = 0) uint step;
    layout(offset = 16) uint[2] bias;
} limits;
layout(set = 0, binding = 1, std430) restrict buffer Sums {
    layout(offset = 0) coherent uint total;
    layout(offset = 4) readonly uint given;
    layout(offset = 8) uint[] items;
} sums;
void main() {
    uint v20 = gl_LocalInvocationIndex;
    uint v22 = limits.step;
    uint v24 = limits.bias[1u];
    uint v26 = sums.given;
    uint v28 = v22 + v24 + v26;
    sums.items[v20] = v28;
    uint v31 = atomicAdd(sums.total, v28);
    sums.items[v20] = uint(sums.items.length());
    return;
}
