#version 460
layout(local_size_x = 32, local_size_y = 1, local_size_z = 1) in;
layout(set = 0, binding = 0, std430) buffer Input {
    layout(offset = 0) readonly uint[] words;
} src;
layout(set = 0, binding = 1, std430) buffer Output {
    layout(offset = 0) writeonly uvec2[] digest;
} dst;
uint byteAt_u1(inout uint index) {
    uint v18 = index;
    uint v20 = v18 >> 2u;
    uint v23 = src.words[v20];
    uint v24 = index;
    return v23 >> ((v24 & 3u) * 8u & 31u) & 255u;
}
void main() {
    uint id = 0u;
    uint begin = 0u;
    uint end = 0u;
    uint h1 = 0u;
    uint h1a = 0u;
    uint k = 0u;
    uint b = 0u;
    uint param = 0u;
    uint v41 = gl_GlobalInvocationID.x;
    id = v41;
    uint v43 = id;
    begin = v43 * 7u;
    uint v47 = begin;
    uint v49 = id;
    end = min(v47 + 7u + v49 % 5u, uint(int(uint(src.words.length()))) * 4u);
    h1 = 2166136261u;
    h1a = 2166136261u;
    uint v63 = begin;
    k = v63;
    bool again = false;
    for (;;) {
        if (again) {
            uint v86 = k;
            k = v86 + 1u;
        }
        again = true;
        uint v69 = k;
        uint v70 = end;
        if (v69 < v70) {
            uint v75 = k;
            param = v75;
            uint v76 = byteAt_u1(param);
            b = v76;
            uint v77 = h1;
            uint v80 = b;
            h1 = v77 * 16777619u ^ v80;
            uint v82 = h1a;
            uint v83 = b;
            h1a = (v82 ^ v83) * 16777619u;
            continue;
        } else {
            break;
        }
    }
    uint v94 = id;
    uint v95 = h1;
    uint v96 = h1a;
    dst.digest[v94] = uvec2(v95, v96);
    return;
}
