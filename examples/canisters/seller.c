// Sells tickets at 300 cycles. `buy : () -> (nat64)` keeps the price of what was attached, and answers how many
// tickets are sold by then. What it does not keep goes back to the buyer.
#include "canister.h"

static const uint64_t PRICE = 300;
static uint64_t sold;

UPDATE(buy) void buy(void) {
    if (msg_cycles_available() < PRICE) {
        REJECT("a ticket is 300 cycles");
        return;
    }
    msg_cycles_accept(PRICE);
    sold += 1;
    reply_number(sold);
}
