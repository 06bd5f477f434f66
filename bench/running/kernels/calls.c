// A chain of calls: Fibonacci's numbers by the definition.
#include "kernel.h"

#ifndef NUMBER
#define NUMBER 32
#endif

static __attribute__((noinline)) u32 fibonacci(u32 n) {
    return n < 2 ? n : fibonacci(n - 1) + fibonacci(n - 2);
}

static u32 value;

KERNEL {
    u32 number = NUMBER;
    __asm__("" : "+r"(number));
    value = fibonacci(number);
    u32 a = 0, b = 1;
    for (u32 i = 0; i < number; i++) {
        u32 next = a + b;
        a = b;
        b = next;
    }
    check(value == a);
}
