// Holds a lock while it waits for another canister. `work : () -> ()` takes the lock, calls the canister with the number
// 1, and lets go in the callback; `is_locked : () -> (nat64) query`. Here the callback traps, as one with a mistake
// would: all that it did is undone, its letting go too. The cleanup runs instead, and what it does stays.
#include "canister.h"

static const uint8_t OTHER[10] = {0, 0, 0, 0, 0, 0, 0, 1, 1, 1};
static const char METHOD[] = "get";
static uint64_t locked;

static void answered(uint32_t env) {
    locked = 0;
    TRAP("the answer is not what was expected");
}

static void clean_up(uint32_t env) { locked = 0; }

UPDATE(work) void work(void) {
    if (locked) {
        REJECT("at work");
        return;
    }
    locked = 1;
    call_new(OTHER, sizeof OTHER, METHOD, sizeof METHOD - 1, answered, 0, answered, 0);
    call_on_cleanup(clean_up, 0);
    if (call_perform() != 0) TRAP("no call could be made");
}

QUERY(is_locked) void is_locked(void) { reply_number(locked); }
