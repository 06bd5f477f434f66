// Money that another canister pays out: `deposit : (nat64) -> (nat64)`, `withdraw : (nat64) -> (nat64)`, `balance : () -> (nat64) query`.
// All three answer what is left. The mistake: what is left is looked at before the other canister is asked, and made smaller
// in the callback, so two withdrawals that are under way at once are both paid. Mended: it is made smaller at once, and
// given back where the other canister does not pay.
#include "peer.h"

static uint64_t saved;

ENTRY(init) void init(void) { read_peer(); }

static void paid(uint32_t amount) {
#ifndef MENDED
    saved -= amount;
#endif
    reply_number(saved);
}

static void refused(uint32_t amount) {
#ifdef MENDED
    saved += amount;
#endif
    REJECT("the bank does not pay");
}

UPDATE(deposit) void deposit(void) {
    saved += read_number();
    reply_number(saved);
}

UPDATE(withdraw) void withdraw(void) {
    uint64_t amount = read_number();
    if (saved < amount) {
        REJECT("insufficient funds");
        return;
    }
#ifdef MENDED
    saved -= amount;
#endif
    CALL_PEER("pay", paid, amount, refused, amount);
    add_number(amount);
    if (call_perform() != 0) TRAP("no call could be made");
}

QUERY(balance) void balance(void) { reply_number(saved); }
