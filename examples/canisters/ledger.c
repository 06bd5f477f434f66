// A ledger of two accounts, 0 and 1. `transfer : (from : nat64, to : nat64, amount : nat64) -> (nat64)` answers
// what the sender has left; `balance : (nat64) -> (nat64) query`. Balances live in memory, which an upgrade makes
// anew, so they are written to stable memory before it and read back after it.
#include "canister.h"

static uint64_t balances[2];

static uint64_t account(uint64_t number) {
    if (number > 1) TRAP("no such account");
    return number;
}

ENTRY(init) void init(void) {
    stable_grow(1);
    balances[0] = 1000;
}

ENTRY(pre_upgrade) void pre_upgrade(void) { stable_write(0, balances, sizeof balances); }

ENTRY(post_upgrade) void post_upgrade(void) { stable_read(balances, 0, sizeof balances); }

UPDATE(transfer) void transfer(void) {
    uint64_t order[3];
    read_numbers(order, 3);
    uint64_t from = account(order[0]), to = account(order[1]), amount = order[2];
    balances[to] += amount;
    // a trap undoes the line above as well
    if (balances[from] < amount) TRAP("insufficient funds");
    balances[from] -= amount;
    reply_number(balances[from]);
}

QUERY(balance) void balance(void) { reply_number(balances[account(read_number())]); }
