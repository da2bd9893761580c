#version 460
layout(local_size_x = 4, local_size_y = 1, local_size_z = 1) in;
struct Item {
    uint key;
    uint sum;
};
layout(set = 0, binding = 0, std430) buffer Data {
    layout(offset = 0) Item[] items;
} n_input;
shared uint[4] temp;
struct Item_2 {
    uint key;
    uint sum;
};
void add_u1_u1(inout uint n_float, uint i_3) {
    uint v35 = n_float;
    n_float = v35 + i_3;
    return;
}
void main() {
    uint i = 0u;
    Item_2 x = Item_2(0u, 0u);
    uint sum = 0u;
    uint i_2 = 0u;
    uint param = 0u;
    uint v50 = gl_LocalInvocationIndex;
    i = v50;
    uint v51 = i;
    Item v53 = n_input.items[v51];
    x = Item_2(v53.key, v53.sum);
    uint v55 = i;
    uint v57 = x.key;
    temp[v55] = v57;
    memoryBarrierShared();
    barrier();
    sum = 0u;
    i_2 = 0u;
    bool again = false;
    for (;;) {
        if (again) {
            uint v74 = i_2;
            i_2 = v74 + 1u;
        }
        again = true;
        uint v65 = i_2;
        uint v66 = i;
        if (v65 <= v66) {
            uint v68 = sum;
            param = v68;
            uint v69 = i_2;
            uint v71 = temp[v69];
            add_u1_u1(param, v71);
            uint v73 = param;
            sum = v73;
            continue;
        } else {
            break;
        }
    }
    uint v76 = i;
    uint v77 = sum;
    n_input.items[v76].sum = v77;
    return;
}
