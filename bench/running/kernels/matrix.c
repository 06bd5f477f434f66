// Products of matrices of SIDE times SIDE numbers of 64 bits: powers of a matrix of ones.
#include "kernel.h"

#ifndef SIDE
#define SIDE 192
#endif

#ifndef POWER
#define POWER 2
#endif

static u64 a[SIDE][SIDE], b[SIDE][SIDE], c[SIDE][SIDE];

static void multiply(void) {
    for (int i = 0; i < SIDE; i++) {
        for (int j = 0; j < SIDE; j++) {
            u64 sum = 0;
            for (int k = 0; k < SIDE; k++) {
                sum += a[i][k] * b[k][j];
            }
            c[i][j] = sum;
        }
    }
}

KERNEL {
    for (int i = 0; i < SIDE; i++) {
        for (int j = 0; j < SIDE; j++) {
            a[i][j] = 1;
            b[i][j] = 1;
        }
    }
    u64 entry = 1;
    for (int n = 1; n < POWER; n++) {
        multiply();
        entry *= SIDE;
        for (int i = 0; i < SIDE; i++) {
            for (int j = 0; j < SIDE; j++) {
                check(c[i][j] == entry);
                a[i][j] = c[i][j];
            }
        }
    }
}
