// Copies of half a million bytes, byte by byte, TIMES times, forwards and backwards.
#include "kernel.h"

#ifndef TIMES
#define TIMES 10
#endif

#define LENGTH 500000

static volatile u8 from[LENGTH], to[LENGTH];

KERNEL {
    for (int i = 0; i < LENGTH; i++) {
        from[i] = (u8)(i * 7 + 3);
    }
    for (int time = 0; time < TIMES; time++) {
        for (int i = 0; i < LENGTH; i++) {
            to[i] = from[i];
        }
        for (int i = LENGTH - 1; i >= 0; i--) {
            from[i] = to[i];
        }
    }
    for (int i = 0; i < LENGTH; i++) {
        check(to[i] == (u8)(i * 7 + 3));
    }
}
