// Pays money out: `pay : (nat64) -> (nat64)` answers what it paid so far, `paid : () -> (nat64) query`.
#include "canister.h"

static uint64_t total;

UPDATE(pay) void pay(void) {
    total += read_number();
    reply_number(total);
}

QUERY(paid) void paid(void) { reply_number(total); }
