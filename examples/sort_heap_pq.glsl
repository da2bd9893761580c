#version 460
layout(local_size_x = 8, local_size_y = 1, local_size_z = 1) in;
struct Node {
    uint prio;
    uint tag;
};
int count = 0;
Node[32] heap = Node[32](Node(0u, 0u), Node(0u, 0u), Node(0u, 0u), Node(0u, 0u), Node(0u, 0u), Node(0u, 0u), Node(0u, 0u), Node(0u, 0u), Node(0u, 0u), Node(0u, 0u), Node(0u, 0u), Node(0u, 0u), Node(0u, 0u), Node(0u, 0u), Node(0u, 0u), Node(0u, 0u), Node(0u, 0u), Node(0u, 0u), Node(0u, 0u), Node(0u, 0u), Node(0u, 0u), Node(0u, 0u), Node(0u, 0u), Node(0u, 0u), Node(0u, 0u), Node(0u, 0u), Node(0u, 0u), Node(0u, 0u), Node(0u, 0u), Node(0u, 0u), Node(0u, 0u), Node(0u, 0u));
layout(set = 0, binding = 0, std430) buffer I {
    layout(offset = 0) readonly uint[] src;
} v204;
layout(set = 0, binding = 1, std430) buffer O {
    layout(offset = 0) writeonly uint[] dst;
} v256;
bool less_struct_Node_u1_u11_struct_Node_u1_u11(inout Node x, inout Node y) {
    bool v55;
    bool v56;
    uint v35 = x.prio;
    uint v37 = y.prio;
    bool v38 = v35 < v37;
    if (!v38) {
        uint v43 = x.prio;
        uint v45 = y.prio;
        bool v46 = v43 == v45;
        if (v46) {
            uint v51 = x.tag;
            uint v53 = y.tag;
            bool v54 = v51 < v53;
            v55 = v54;
        } else {
            v55 = v46;
        }
        v56 = v55;
    } else {
        v56 = v38;
    }
    return v56;
}
void swapNodes_i1_i1(inout int i_2, inout int j) {
    Node t = Node(0u, 0u);
    int v64 = i_2;
    Node v67 = heap[v64];
    t = v67;
    int v68 = i_2;
    int v69 = j;
    Node v71 = heap[v69];
    heap[v68] = v71;
    int v73 = j;
    Node v74 = t;
    heap[v73] = v74;
    return;
}
void push_struct_Node_u1_u11(inout Node n_2) {
    int i_3 = 0;
    int p = 0;
    Node param_5 = Node(0u, 0u);
    Node param_6 = Node(0u, 0u);
    int param_7 = 0;
    int param_8 = 0;
    int v77 = count;
    count = v77 + 1;
    i_3 = v77;
    int v79 = i_3;
    Node v80 = n_2;
    heap[v79] = v80;
    bool again_3 = false;
    for (;;) {
        if (again_3) {
        }
        again_3 = true;
        int v87 = i_3;
        if (v87 > 0) {
            int v90 = i_3;
            int v91 = v90 - 1;
            p = int(v91 < 0 != 2 < 0 ? 0u - (v91 < 0 ? 0u - uint(v91) : uint(v91)) / (2 < 0 ? 0u - 2u : 2u) : (v91 < 0 ? 0u - uint(v91) : uint(v91)) / (2 < 0 ? 0u - 2u : 2u));
            int v94 = i_3;
            int v95 = p;
            Node v98 = heap[v94];
            param_5 = v98;
            Node v101 = heap[v95];
            param_6 = v101;
            bool v102 = less_struct_Node_u1_u11_struct_Node_u1_u11(param_5, param_6);
            if (!v102) {
                break;
            }
            int v108 = i_3;
            param_7 = v108;
            int v110 = p;
            param_8 = v110;
            swapNodes_i1_i1(param_7, param_8);
            int v112 = p;
            i_3 = v112;
            continue;
        } else {
            break;
        }
    }
    return;
}
bool pop_struct_Node_u1_u11(inout Node n_3) {
    int i_4 = 0;
    int c = 0;
    Node param_9 = Node(0u, 0u);
    Node param_10 = Node(0u, 0u);
    Node param_11 = Node(0u, 0u);
    Node param_12 = Node(0u, 0u);
    int param_13 = 0;
    int param_14 = 0;
    bool v157;
    int v113 = count;
    if (v113 == 0) {
        return false;
    }
    Node v120 = heap[0];
    n_3 = v120;
    int v121 = count;
    int v122 = v121 - 1;
    count = v122;
    Node v124 = heap[v122];
    heap[0] = v124;
    i_4 = 0;
    bool again_4 = false;
    for (;;) {
        if (again_4) {
        }
        again_4 = true;
        int v132 = i_4;
        c = 2 * v132 + 1;
        int v135 = c;
        int v136 = count;
        if (v135 >= v136) {
            break;
        }
        int v141 = c;
        int v143 = count;
        bool v144 = v141 + 1 < v143;
        if (v144) {
            int v147 = c;
            int v148 = v147 + 1;
            int v149 = c;
            Node v152 = heap[v148];
            param_9 = v152;
            Node v155 = heap[v149];
            param_10 = v155;
            bool v156 = less_struct_Node_u1_u11_struct_Node_u1_u11(param_9, param_10);
            v157 = v156;
        } else {
            v157 = v144;
        }
        if (v157) {
            int v160 = c;
            c = v160 + 1;
        }
        int v162 = c;
        int v163 = i_4;
        Node v166 = heap[v162];
        param_11 = v166;
        Node v169 = heap[v163];
        param_12 = v169;
        bool v170 = less_struct_Node_u1_u11_struct_Node_u1_u11(param_11, param_12);
        if (!v170) {
            break;
        }
        int v176 = c;
        param_13 = v176;
        int v178 = i_4;
        param_14 = v178;
        swapNodes_i1_i1(param_13, param_14);
        int v180 = c;
        i_4 = v180;
        continue;
    }
    return true;
}
void main() {
    uint id = 0u;
    uint i = 0u;
    Node param = Node(0u, 0u);
    Node dropped = Node(0u, 0u);
    Node param_2 = Node(0u, 0u);
    Node param_3 = Node(0u, 0u);
    uint k = 0u;
    Node n = Node(0u, 0u);
    Node param_4 = Node(0u, 0u);
    count = 0;
    uint v191 = gl_GlobalInvocationID.x;
    id = v191;
    i = 0u;
    bool again = false;
    for (;;) {
        if (again) {
            uint v241 = i;
            i = v241 + 1u;
        }
        again = true;
        uint v198 = i;
        if (v198 < 24u) {
            uint v205 = id;
            uint v207 = i;
            uint v208 = v205 * 24u + v207;
            uint v211 = v204.src[v208];
            uint v214 = i;
            param = Node(v211 & 63u, v214);
            push_struct_Node_u1_u11(param);
            uint v218 = i;
            if (v218 % 5u == 4u) {
                bool v227 = pop_struct_Node_u1_u11(param_2);
                Node v228 = param_2;
                dropped = v228;
                if (v227) {
                    uint v232 = dropped.prio;
                    uint v235 = dropped.tag;
                    param_3 = Node(v232 + 32u, v235 + 100u);
                    push_struct_Node_u1_u11(param_3);
                }
            }
            continue;
        } else {
            break;
        }
    }
    k = 0u;
    bool again_2 = false;
    for (;;) {
        if (again_2) {
        }
        again_2 = true;
        bool v251 = pop_struct_Node_u1_u11(param_4);
        Node v252 = param_4;
        n = v252;
        if (v251) {
            uint v257 = id;
            uint v259 = k;
            uint v260 = v257 * 24u + v259;
            uint v262 = n.prio;
            uint v266 = n.tag;
            v256.dst[v260] = v262 * 1000u + v266;
            uint v269 = k;
            k = v269 + 1u;
            continue;
        } else {
            break;
        }
    }
    return;
}
