// As vault.c, mended, but it pays one withdrawal at a time, and upgrades keep what it has. The mistake: they do not keep the
// amount that is under way, so it is lost where the bank does not pay and an upgrade came first. Mended: they keep it too.
#include "peer.h"

enum { SAVED = 0, UNDER_WAY = 8 };

static uint64_t saved;
static uint64_t under_way;

ENTRY(init) void init(void) {
    read_peer();
    stable_grow(1);
}

ENTRY(pre_upgrade) void pre_upgrade(void) {
    stable_write(SAVED, &saved, sizeof saved);
#ifdef MENDED
    stable_write(UNDER_WAY, &under_way, sizeof under_way);
#endif
}

ENTRY(post_upgrade) void post_upgrade(void) {
    read_peer();
    stable_read(&saved, SAVED, sizeof saved);
#ifdef MENDED
    stable_read(&under_way, UNDER_WAY, sizeof under_way);
#endif
}

static void paid(uint32_t env) {
    under_way = 0;
    reply_number(saved);
}

static void refused(uint32_t env) {
    saved += under_way;
    under_way = 0;
    REJECT("the bank does not pay");
}

UPDATE(deposit) void deposit(void) {
    saved += read_number();
    reply_number(saved);
}

UPDATE(withdraw) void withdraw(void) {
    uint64_t amount = read_number();
    if (under_way != 0) {
        REJECT("a withdrawal is under way");
        return;
    }
    if (saved < amount) {
        REJECT("insufficient funds");
        return;
    }
    saved -= amount;
    under_way = amount;
    CALL_PEER("pay", paid, 0, refused, 0);
    add_number(amount);
    if (call_perform() != 0) TRAP("no call could be made");
}

QUERY(balance) void balance(void) { reply_number(saved); }
