// Buys from another canister with the cycles that it is told to attach. `buy : (nat64) -> (nat64)` answers how many
// cycles came back. The seller is the canister with the number 1.
#include "canister.h"

static const uint8_t SELLER[10] = {0, 0, 0, 0, 0, 0, 0, 1, 1, 1};
static const char METHOD[] = "buy";

static void bought(uint32_t env) { reply_number(msg_cycles_refunded()); }

static void refused(uint32_t env) { REJECT("nothing was sold"); }

UPDATE(buy) void buy(void) {
    call_new(SELLER, sizeof SELLER, METHOD, sizeof METHOD - 1, bought, 0, refused, 0);
    call_cycles_add(read_number());
    if (call_perform() != 0) REJECT("no call could be made");
}
