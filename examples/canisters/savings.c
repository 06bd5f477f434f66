// Savings with a bonus that another canister tells: `deposit : (nat64) -> (nat64)` adds to the total, `add_bonus : () -> (nat64)`
// asks the canister with the number 1 how much to add and adds that in the callback, `total : () -> (nat64) query`. All three
// answer the total. The mistake: the callback adds to what the total was before the call went out, so a deposit that comes
// between the two is lost. Mended: it adds to what the total is then.
#include "canister.h"

static const uint8_t OTHER[10] = {0, 0, 0, 0, 0, 0, 0, 1, 1, 1};
static const char METHOD[] = "get";
static uint64_t saved;

static void told(uint32_t seen) {
#ifdef MENDED
    saved += read_number();
#else
    saved = seen + read_number();
#endif
    reply_number(saved);
}

static void refused(uint32_t seen) { REJECT("no bonus"); }

UPDATE(add_bonus) void add_bonus(void) {
    call_new(OTHER, sizeof OTHER, METHOD, sizeof METHOD - 1, told, saved, refused, 0);
    if (call_perform() != 0) TRAP("no call could be made");
}

UPDATE(deposit) void deposit(void) {
    saved += read_number();
    reply_number(saved);
}

QUERY(total) void total(void) { reply_number(saved); }
