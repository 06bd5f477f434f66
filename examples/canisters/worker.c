// Works under a lock: `work : () -> (nat64)` asks a counter twice, and traps where it was counted up in between;
// `is_locked : () -> (nat64) query`. The mistake: all that the callback did is undone then, its letting go too, so the lock
// is held for ever. Mended: a cleanup lets go.
#include "peer.h"

static uint64_t locked;

ENTRY(init) void init(void) { read_peer(); }

static void clean_up(uint32_t env) { locked = 0; }

static void refused(uint32_t env) {
    locked = 0;
    REJECT("no counter");
}

static void ask(void (*then)(uint32_t), uint32_t env) {
    CALL_PEER("get", then, env, refused, 0);
    add_nothing();
#ifdef MENDED
    call_on_cleanup(clean_up, 0);
#endif
    if (call_perform() != 0) TRAP("no call could be made");
}

static void second(uint32_t seen) {
    locked = 0;
    if (read_number() != seen) TRAP("counted meanwhile");
    reply_number(seen);
}

static void first(uint32_t env) { ask(second, read_number()); }

UPDATE(work) void work(void) {
    if (locked) {
        REJECT("at work");
        return;
    }
    locked = 1;
    ask(first, 0);
}

QUERY(is_locked) void is_locked(void) { reply_number(locked); }
