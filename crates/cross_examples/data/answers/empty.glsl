#version 460
layout(local_size_x = 64, local_size_y = 1, local_size_z = 1) in;
void main() {
    return;
}
