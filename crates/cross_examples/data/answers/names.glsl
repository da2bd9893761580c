#version 460
layout(local_size_x = 64, local_size_y = 1, local_size_z = 1) in;
void main() {
    uint n_4_x = 0u;
    uint n_vec4 = 0u;
    uint n_gl = 0u;
    uint n_main = 0u;
    uint _lengths = 0u;
    uint aaaaaaaaaaaaaaaaaaaaaaaaaaaaaaaaaaaaaaaaaaaaaaaaaaaaaaaaaaaaaaa = 0u;
    uint v106 = 0u;
    uint i = 0u;
    uint i_2 = 0u;
    uint i_2_2 = 0u;
    uint x_y = 0u;
    uint n_uint = 0u;
    uint n_memoryBarrierOf = 0u;
    uint Uint = 0u;
    n_4_x = 1u;
    n_vec4 = 1u;
    n_gl = 1u;
    n_main = 1u;
    _lengths = 1u;
    aaaaaaaaaaaaaaaaaaaaaaaaaaaaaaaaaaaaaaaaaaaaaaaaaaaaaaaaaaaaaaa = 1u;
    v106 = 1u;
    i = 1u;
    i_2 = 1u;
    i_2_2 = 1u;
    x_y = 1u;
    n_uint = 1u;
    n_memoryBarrierOf = 1u;
    Uint = 1u;
    return;
}
