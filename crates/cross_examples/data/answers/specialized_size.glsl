#version 460
layout(local_size_x = 64, local_size_x_id = 3, local_size_y = 1, local_size_z = 1) in;
shared uint[gl_WorkGroupSize.x] v30;
void main() {
    uint v18 = gl_GlobalInvocationID.x;
    v30[v18] = v18;
    return;
}
