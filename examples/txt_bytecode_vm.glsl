#version 460
layout(local_size_x = 8, local_size_y = 1, local_size_z = 1) in;
layout(set = 0, binding = 0, std430) buffer C {
    layout(offset = 0) readonly uint[] code;
} v54;
layout(set = 0, binding = 1, std430) buffer O {
    layout(offset = 0) ivec4[] result;
} v265;
void main() {
    int[4] v301 = int[4](0, 0, 0, 0);
    int[16] v305 = int[16](0, 0, 0, 0, 0, 0, 0, 0, 0, 0, 0, 0, 0, 0, 0, 0);
    uint[4] v307 = uint[4](0u, 0u, 0u, 0u);
    int v250;
    int v478;
    int v484;
    int v482;
    uint v480;
    int v479;
    int v334;
    uint v336;
    int v415;
    int v487;
    uint v514;
    int v486;
    int v516;
    int v515;
    uint v513;
    bool v508;
    int v498;
    bool v491;
    int v497;
    uint v249 = gl_GlobalInvocationID.x;
    v250 = int(v249);
    switch (0u) {
        default: {
            v478 = 0;
            bool again = false;
            for (;;) {
                if (again) {
                    v301[v478] = 0;
                    int v320 = v478 + 1;
                    v478 = v320;
                }
                again = true;
                if (v478 < 4) {
                    continue;
                } else {
                    break;
                }
            }
            v484 = 0;
            v482 = 0;
            v480 = 0u;
            v479 = 0;
            bool again_2 = false;
            bool leave = false;
            for (;;) {
                if (again_2) {
                    int v472 = v479 + 1;
                    v484 = v516;
                    v482 = v515;
                    v480 = v513;
                    v479 = v472;
                }
                again_2 = true;
                if (v479 < 400) {
                    uint v329 = v54.code[v480];
                    v334 = int(v329) >> 8u;
                    v336 = v480 + 1u;
                    bool fell = false;
                    switch (v329 & 255u) {
                        default: {
                            v508 = false;
                            v498 = 0xFFFFFFFD;
                            v491 = true;
                            leave = true;
                            break;
                        }
                        case 0u: {
                            int v341 = v482 + 1;
                            v305[v482] = v334;
                            v516 = v484;
                            v515 = v341;
                            v513 = v336;
                            continue;
                        }
                        case 8u: {
                            int v346 = v482 + 1;
                            v305[v482] = v250;
                            v516 = v484;
                            v515 = v346;
                            v513 = v336;
                            continue;
                        }
                        case 1u: {
                            int v351 = v482 - 2;
                            int v353 = v482 - 1;
                            int v355 = v305[v353];
                            int v357 = v305[v351];
                            v305[v351] = v357 + v355;
                            v514 = v336;
                            v486 = v353;
                            break;
                        }
                        case 2u: {
                            int v364 = v482 - 2;
                            int v366 = v482 - 1;
                            int v368 = v305[v366];
                            int v370 = v305[v364];
                            v305[v364] = v370 - v368;
                            v514 = v336;
                            v486 = v366;
                            break;
                        }
                        case 3u: {
                            int v377 = v482 - 2;
                            int v379 = v482 - 1;
                            int v381 = v305[v379];
                            int v383 = v305[v377];
                            v305[v377] = v383 * v381;
                            v514 = v336;
                            v486 = v379;
                            break;
                        }
                        case 4u: {
                            int v391 = v482 - 1;
                            int v393 = v305[v391];
                            v305[v482] = v393;
                            int v396 = v482 + 1;
                            v514 = v336;
                            v486 = v396;
                            break;
                        }
                        case 5u: {
                            int v399 = v482 - 1;
                            int v401 = v305[v399];
                            int v405 = v482 - 2;
                            int v407 = v305[v405];
                            v305[v399] = v407;
                            v305[v405] = v401;
                            v514 = v336;
                            v486 = v482;
                            break;
                        }
                        case 6u: {
                            v415 = v482 - 1;
                            int v417 = v305[v415];
                            if (v417 != 0) {
                                v514 = v336;
                                v486 = v415;
                                break;
                            }
                            v487 = v415;
                            fell = true;
                        }
                        case 7u: {
                            if (!fell) {
                                v487 = v482;
                            }
                            uint v423 = uint(v334);
                            v514 = v423;
                            v486 = v487;
                            break;
                        }
                        case 9u: {
                            int v426 = v334 & 3;
                            int v428 = v482 - 1;
                            int v430 = v305[v428];
                            v301[v426] = v430;
                            v514 = v336;
                            v486 = v428;
                            break;
                        }
                        case 10u: {
                            int v434 = v482 + 1;
                            int v436 = v334 & 3;
                            int v438 = v301[v436];
                            v305[v482] = v438;
                            v514 = v336;
                            v486 = v434;
                            break;
                        }
                        case 11u: {
                            if (v484 == 4) {
                                v508 = false;
                                v498 = 0xFFFFFFFF;
                                v491 = true;
                                leave = true;
                                break;
                            }
                            int v446 = v484 + 1;
                            v307[v484] = v336;
                            uint v450 = uint(v334);
                            v516 = v446;
                            v515 = v482;
                            v513 = v450;
                            continue;
                        }
                        case 12u: {
                            if (v484 == 0) {
                                v508 = false;
                                v498 = 0xFFFFFFFE;
                                v491 = true;
                                leave = true;
                                break;
                            }
                            int v457 = v484 - 1;
                            uint v459 = v307[v457];
                            v516 = v457;
                            v515 = v482;
                            v513 = v459;
                            continue;
                        }
                        case 13u: {
                            int v462 = v482 - 1;
                            int v464 = v305[v462];
                            v508 = true;
                            v498 = v464;
                            v491 = true;
                            leave = true;
                            break;
                        }
                    }
                    if (leave) {
                        break;
                    }
                    if (v486 > 14) {
                        v508 = false;
                        v498 = 0xFFFFFFFC;
                        v491 = true;
                        break;
                    }
                    v516 = v484;
                    v515 = v486;
                    v513 = v514;
                    continue;
                } else {
                    v508 = false;
                    v498 = 0;
                    v491 = false;
                    break;
                }
            }
            if (v491) {
                v497 = v498;
                break;
            }
            v497 = 0xFFFFFFFB;
            break;
        }
    }
    v265.result[v250] = ivec4(v497, v479, v508 ? 1 : 0, v250);
    return;
}
