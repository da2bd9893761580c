#version 460
layout(local_size_x = 64, local_size_y = 1, local_size_z = 1) in;
layout(set = 0, binding = 1, std430) buffer v63 {
    layout(offset = 0) int[] m0;
} v65;
void main() {
    int v40 = v65.m0[0u];
    v65.m0[0u] = int(v40 < 0 != 2 < 0 ? 0u - (v40 < 0 ? 0u - uint(v40) : uint(v40)) / (2 < 0 ? 0u - 2u : 2u) : (v40 < 0 ? 0u - uint(v40) : uint(v40)) / (2 < 0 ? 0u - 2u : 2u));
    v65.m0[0u] = int(v40 < 0 ? 0u - (v40 < 0 ? 0u - uint(v40) : uint(v40)) % (2 < 0 ? 0u - 2u : 2u) : (v40 < 0 ? 0u - uint(v40) : uint(v40)) % (2 < 0 ? 0u - 2u : 2u));
    v65.m0[0u] = int((v40 < 0 ? 0u - uint(v40) : uint(v40)) % (2 < 0 ? 0u - 2u : 2u) == 0u ? 0u : v40 < 0 == 2 < 0 ? 2 < 0 ? 0u - (v40 < 0 ? 0u - uint(v40) : uint(v40)) % (2 < 0 ? 0u - 2u : 2u) : (v40 < 0 ? 0u - uint(v40) : uint(v40)) % (2 < 0 ? 0u - 2u : 2u) : 2 < 0 ? (v40 < 0 ? 0u - uint(v40) : uint(v40)) % (2 < 0 ? 0u - 2u : 2u) - (2 < 0 ? 0u - 2u : 2u) : (2 < 0 ? 0u - 2u : 2u) - (v40 < 0 ? 0u - uint(v40) : uint(v40)) % (2 < 0 ? 0u - 2u : 2u));
    return;
}
