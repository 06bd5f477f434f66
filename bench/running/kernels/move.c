// Copies of half a million bytes as `copy.c` makes them, TIMES times, each by one instruction.
#include "kernel.h"

#ifndef TIMES
#define TIMES 1000
#endif

#define LENGTH 500000

static u8 from[LENGTH], to[LENGTH];

// keeps the compiler from knowing what memory holds
#define TOUCHED __asm__ volatile("" ::: "memory")

KERNEL {
    for (int i = 0; i < LENGTH; i++) {
        from[i] = (u8)(i * 7 + 3);
    }
    for (int time = 0; time < TIMES; time++) {
        __builtin_memcpy(to, from, LENGTH);
        TOUCHED;
        __builtin_memmove(from, to, LENGTH);
        TOUCHED;
    }
    for (int i = 0; i < LENGTH; i++) {
        check(to[i] == (u8)(i * 7 + 3));
    }
}
