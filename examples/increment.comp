#version 460
// Adds one to each element of a buffer.
layout(local_size_x = 64) in;
layout(set = 0, binding = 0, std430) buffer Data {
    uint values[];
} data;

void main() {
    uint i = gl_GlobalInvocationID.x;
    data.values[i] = data.values[i] + 1u;
}
