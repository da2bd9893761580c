#version 460
layout(local_size_x = 32, local_size_y = 1, local_size_z = 1) in;
struct Particle {
    ivec2 pos;
    ivec2 vel;
    uint life;
    uint flags;
};
struct Particle_2 {
    ivec2 pos;
    ivec2 vel;
    uint life;
    uint flags;
};
layout(set = 0, binding = 0, std430) buffer P {
    layout(offset = 0) Particle_2[] p;
} v25;
layout(set = 0, binding = 1, std140) uniform U {
    layout(offset = 0) ivec2 lo;
    layout(offset = 8) ivec2 hi;
    layout(offset = 16) ivec2 g;
    layout(offset = 24) uint steps;
    layout(offset = 28) uint bounce;
} v52;
layout(set = 0, binding = 2, std430) buffer S {
    layout(offset = 0) uint alive;
    layout(offset = 4) int momentum;
    layout(offset = 8) uint[4] deaths;
} v156;
void main() {
    uint id = 0u;
    Particle q = Particle(ivec2(0, 0), ivec2(0, 0), 0u, 0u);
    uint s = 0u;
    bvec2 under = bvec2(false, false);
    bvec2 over = bvec2(false, false);
    int a = 0;
    bool v125;
    uint v15 = gl_GlobalInvocationID.x;
    id = v15;
    uint v27 = id;
    Particle_2 v30 = v25.p[v27];
    q.pos = v30.pos;
    q.vel = v30.vel;
    q.life = v30.life;
    q.flags = v30.flags;
    s = 0u;
    bool again = false;
    for (;;) {
        if (again) {
            uint v173 = s;
            s = v173 + 1u;
        }
        again = true;
        uint v49 = s;
        uint v55 = v52.steps;
        if (v49 < v55) {
            uint v59 = q.life;
            if (v59 == 0u) {
                break;
            }
            ivec2 v66 = v52.g;
            ivec2 v68 = q.vel;
            q.vel = v68 + v66;
            ivec2 v72 = q.vel;
            ivec2 v77 = q.pos;
            q.pos = v77 + (v72 >> (uvec2(ivec2(4, 4)) & 31u));
            ivec2 v84 = q.pos;
            ivec2 v86 = v52.lo;
            under = bvec2(v84.x < v86.x, v84.y < v86.y);
            ivec2 v90 = q.pos;
            ivec2 v92 = v52.hi;
            over = bvec2(v90.x > v92.x, v90.y > v92.y);
            bvec2 v94 = under;
            bvec2 v96 = over;
            if (any(v94) || any(v96)) {
                uint v102 = v52.bounce;
                if (v102 != 0u) {
                    a = 0;
                    bool again_2 = false;
                    for (;;) {
                        if (again_2) {
                            int v136 = a;
                            a = v136 + 1;
                        }
                        again_2 = true;
                        int v113 = a;
                        if (v113 < 2) {
                            int v115 = a;
                            bool v118 = under[v115];
                            if (!v118) {
                                int v122 = a;
                                bool v124 = over[v122];
                                v125 = v124;
                            } else {
                                v125 = v118;
                            }
                            if (v125) {
                                int v128 = a;
                                int v129 = a;
                                int v131 = q.vel[v129];
                                int v133 = (0 - v131) * 3;
                                q.vel[v128] = int(v133 < 0 != 4 < 0 ? 0u - (v133 < 0 ? 0u - uint(v133) : uint(v133)) / (4 < 0 ? 0u - 4u : 4u) : (v133 < 0 ? 0u - uint(v133) : uint(v133)) / (4 < 0 ? 0u - 4u : 4u));
                            }
                            continue;
                        } else {
                            break;
                        }
                    }
                    ivec2 v139 = q.pos;
                    ivec2 v141 = v52.lo;
                    ivec2 v143 = v52.hi;
                    q.pos = ivec2(min(max(v139.x, v141.x), v143.x), min(max(v139.y, v141.y), v143.y));
                    uint v148 = q.flags;
                    q.flags = v148 + 1u;
                } else {
                    bool v158 = under.x;
                    bool v161 = over.y;
                    uint v164 = (v158 ? 1u : 0u) + (v161 ? 2u : 0u);
                    uint v167 = atomicAdd(v156.deaths[v164], 1u);
                    q.life = 0u;
                    continue;
                }
            }
            uint v171 = q.life;
            q.life = v171 - 1u;
            continue;
        } else {
            break;
        }
    }
    uint v175 = id;
    Particle v176 = q;
    v25.p[v175].pos = v176.pos;
    v25.p[v175].vel = v176.vel;
    v25.p[v175].life = v176.life;
    v25.p[v175].flags = v176.flags;
    uint v188 = q.life;
    if (v188 > 0u) {
        uint v193 = atomicAdd(v156.alive, 1u);
    }
    int v197 = q.vel.x;
    int v199 = q.vel.y;
    int v201 = atomicAdd(v156.momentum, v197 + v199);
    return;
}
