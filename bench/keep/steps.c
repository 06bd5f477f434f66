// Two canisters of these search: `steps` of the first calls `count` of the second, once, and answers when that is answered.
#include "canister.h"

static const uint8_t PEER[10] = {0, 0, 0, 0, 0, 0, 0, 1, 1, 1};
static const char METHOD[] = "count";
static uint64_t done;

static void counted(uint32_t env) {
    done += 1;
    reply_number(done);
}

static void refused(uint32_t env) { REJECT("nothing was counted"); }

UPDATE(steps) void steps(void) {
    call_new(PEER, sizeof PEER, METHOD, sizeof METHOD - 1, counted, 0, refused, 0);
    if (call_perform() != 0) REJECT("no call could be made");
}

UPDATE(count) void count(void) {
    done += 1;
    reply_number(done);
}
