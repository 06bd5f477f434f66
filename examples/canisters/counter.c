// A counter: `set : (nat64) -> ()`, `increment : () -> (nat64)`, `get : () -> (nat64) query`.
#include "canister.h"

static uint64_t counter;

UPDATE(set) void set(void) {
    counter = read_number();
    reply_nothing();
}

UPDATE(increment) void increment(void) {
    counter += 1;
    reply_number(counter);
}

QUERY(get) void get(void) { reply_number(counter); }
