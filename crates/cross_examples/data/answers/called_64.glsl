#version 460
layout(local_size_x = 64, local_size_y = 1, local_size_z = 1) in;
void v163() {
    return;
}
void v162() {
    v163();
    return;
}
void v161() {
    v162();
    return;
}
void v160() {
    v161();
    return;
}
void v159() {
    v160();
    return;
}
void v158() {
    v159();
    return;
}
void v157() {
    v158();
    return;
}
void v156() {
    v157();
    return;
}
void v155() {
    v156();
    return;
}
void v154() {
    v155();
    return;
}
void v153() {
    v154();
    return;
}
void v152() {
    v153();
    return;
}
void v151() {
    v152();
    return;
}
void v150() {
    v151();
    return;
}
void v149() {
    v150();
    return;
}
void v148() {
    v149();
    return;
}
void v147() {
    v148();
    return;
}
void v146() {
    v147();
    return;
}
void v145() {
    v146();
    return;
}
void v144() {
    v145();
    return;
}
void v143() {
    v144();
    return;
}
void v142() {
    v143();
    return;
}
void v141() {
    v142();
    return;
}
void v140() {
    v141();
    return;
}
void v139() {
    v140();
    return;
}
void v138() {
    v139();
    return;
}
void v137() {
    v138();
    return;
}
void v136() {
    v137();
    return;
}
void v135() {
    v136();
    return;
}
void v134() {
    v135();
    return;
}
void v133() {
    v134();
    return;
}
void v132() {
    v133();
    return;
}
void v131() {
    v132();
    return;
}
void v130() {
    v131();
    return;
}
void v129() {
    v130();
    return;
}
void v128() {
    v129();
    return;
}
void v127() {
    v128();
    return;
}
void v126() {
    v127();
    return;
}
void v125() {
    v126();
    return;
}
void v124() {
    v125();
    return;
}
void v123() {
    v124();
    return;
}
void v122() {
    v123();
    return;
}
void v121() {
    v122();
    return;
}
void v120() {
    v121();
    return;
}
void v119() {
    v120();
    return;
}
void v118() {
    v119();
    return;
}
void v117() {
    v118();
    return;
}
void v116() {
    v117();
    return;
}
void v115() {
    v116();
    return;
}
void v114() {
    v115();
    return;
}
void v113() {
    v114();
    return;
}
void v112() {
    v113();
    return;
}
void v111() {
    v112();
    return;
}
void v110() {
    v111();
    return;
}
void v109() {
    v110();
    return;
}
void v108() {
    v109();
    return;
}
void v107() {
    v108();
    return;
}
void v106() {
    v107();
    return;
}
void v105() {
    v106();
    return;
}
void v104() {
    v105();
    return;
}
void v103() {
    v104();
    return;
}
void v102() {
    v103();
    return;
}
void v101() {
    v102();
    return;
}
void main() {
    v101();
    return;
}
