// Heapsort of COUNT numbers of a linear congruence.
#include "kernel.h"

#ifndef COUNT
#define COUNT 100000
#endif

static u32 items[COUNT];

static void sift(u32 from, u32 end) {
    u32 item = items[from];
    for (u32 child = 2 * from + 1; child < end; child = 2 * from + 1) {
        if (child + 1 < end && items[child] < items[child + 1]) {
            child++;
        }
        if (items[child] <= item) {
            break;
        }
        items[from] = items[child];
        from = child;
    }
    items[from] = item;
}

KERNEL {
    u32 seed = 1, before = 0, after = 0;
    for (u32 i = 0; i < COUNT; i++) {
        seed = seed * 1664525 + 1013904223;
        items[i] = seed;
        before += seed;
    }
    for (u32 i = COUNT / 2; i > 0; i--) {
        sift(i - 1, COUNT);
    }
    for (u32 end = COUNT - 1; end > 0; end--) {
        u32 top = items[0];
        items[0] = items[end];
        items[end] = top;
        sift(0, end);
    }
    for (u32 i = 0; i < COUNT; i++) {
        after += items[i];
        check(i == 0 || items[i - 1] <= items[i]);
    }
    check(before == after);
}
