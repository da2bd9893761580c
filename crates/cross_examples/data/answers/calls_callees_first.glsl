#version 460
layout(local_size_x = 64, local_size_y = 1, local_size_z = 1) in;
void v103() {
    return;
}
void v105() {
    return;
}
void v102() {
    v105();
    v103();
    v103();
    return;
}
void v104() {
    v105();
    return;
}
void main() {
    v104();
    v102();
    return;
}
