// An interpreter of byte code: counts by a small program, whose instructions are told apart by a switch,
// TIMES times round. Its arithmetic goes through a table of functions.
#include "kernel.h"

#ifndef TIMES
#define TIMES 120000
#endif

enum { PUSH, LOAD, STORE, APPLY, JUMP_IF, HALT };

// a = TIMES; b = 1; do { b = b * 31 + a; b = b ^ (b >> 7); a = a - 1 } while (a)
static const u8 program[] = {
    PUSH, 0, STORE, 0, PUSH, 1, STORE, 1,
    LOAD, 1, PUSH, 2, APPLY, 2, LOAD, 0, APPLY, 0, STORE, 1,
    LOAD, 1, LOAD, 1, PUSH, 3, APPLY, 4, APPLY, 3, STORE, 1,
    LOAD, 0, PUSH, 1, APPLY, 1, STORE, 0,
    LOAD, 0, JUMP_IF, 8,
    HALT, 0,
};

static const u32 numbers[] = {TIMES, 1, 31, 7};

typedef u32 operation(u32, u32);

static u32 add(u32 x, u32 y) { return x + y; }
static u32 sub(u32 x, u32 y) { return x - y; }
static u32 mul(u32 x, u32 y) { return x * y; }
static u32 xor(u32 x, u32 y) { return x ^ y; }
static u32 shift(u32 x, u32 y) { return x >> y; }

static operation *volatile operations[] = {add, sub, mul, xor, shift};

static u32 variables[2];

__attribute__((noinline)) static u32 interpret(const u8 *code) {
    u32 stack[8];
    u32 top = 0;
    u32 place = 0;
    for (;;) {
        u8 n = code[place + 1];
        switch (code[place]) {
        case PUSH:
            stack[top++] = numbers[n];
            break;
        case LOAD:
            stack[top++] = variables[n];
            break;
        case STORE:
            variables[n] = stack[--top];
            break;
        case APPLY:
            top--;
            stack[top - 1] = operations[n](stack[top - 1], stack[top]);
            break;
        case JUMP_IF:
            if (stack[--top]) {
                place = n;
                continue;
            }
            break;
        case HALT:
            return variables[1];
        default:
            __builtin_trap();
        }
        place += 2;
    }
}

// the same in C
static u32 counted(void) {
    u32 b = 1;
    for (u32 a = TIMES; a != 0; a--) {
        b = b * 31 + a;
        b ^= b >> 7;
    }
    return b;
}

KERNEL {
    check(interpret(program) == counted());
}
