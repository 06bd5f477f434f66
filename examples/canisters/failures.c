// A canister whose methods fail, each in another way: by the trap that it is named after, or, as `silent` does, without an
// answer. What is volatile the compiler does not look through.
#include "canister.h"

static void take_number(uint32_t number) {}

static volatile int32_t zero = 0, minus_one = -1, result;
static uint8_t *volatile far_place = (uint8_t *)0x10000000;
// A pointer to a function is a place in the table, and the first place is empty.
static void (*volatile past_table)(void) = (void (*)(void))1000;
static void (*volatile no_function)(void) = NULL;
static void (*volatile other_type)(void) = (void (*)(void))take_number;

static void go_deeper(void) {
    if (zero == 0) go_deeper();
    result = 0;
}

UPDATE(unreachable) void unreachable(void) { __builtin_trap(); }

UPDATE(division_by_zero) void division_by_zero(void) { result = 100 / zero; }

UPDATE(integer_overflow) void integer_overflow(void) { result = INT32_MIN / minus_one; }

UPDATE(memory_out_of_bounds) void memory_out_of_bounds(void) { *far_place = 1; }

UPDATE(table_out_of_bounds) void table_out_of_bounds(void) { past_table(); }

UPDATE(uninitialised_element) void uninitialised_element(void) { no_function(); }

UPDATE(signature_mismatch) void signature_mismatch(void) { other_type(); }

UPDATE(call_depth) void call_depth(void) { go_deeper(); }

UPDATE(instruction_limit) void instruction_limit(void) {
    for (;;) continue;
}

UPDATE(system_call) void system_call(void) {
    msg_reply();
    msg_reply();
}

UPDATE(silent) void silent(void) {}
