// A canister that calls the management canister, with cycles: `ask` takes how many (eight bytes, least first), the
// length of a method's name (a byte), the name, and the argument. It replies with the cycles that came back (eight
// bytes), the reject code (a byte, 0 where the call was replied to), and the reply or the reject's text.
#include "canister.h"

SYSTEM(msg_reject_code) uint32_t msg_reject_code(void);
SYSTEM(msg_reject_msg_size) uint32_t msg_reject_msg_size(void);
SYSTEM(msg_reject_msg_copy) void msg_reject_msg_copy(void *to, uint32_t offset, uint32_t size);

enum { CYCLES = 8, MOST = 4096 };

static uint8_t message[MOST];

static void tell(uint32_t size) {
    uint64_t cycles = msg_cycles_refunded();
    for (uint32_t k = 0; k < CYCLES; k++) message[k] = cycles >> (8 * k);
    message[CYCLES] = msg_reject_code();
    msg_reply_data_append(message, CYCLES + 1 + size);
    msg_reply();
}

static void replied(uint32_t env) {
    uint32_t size = msg_arg_data_size();
    msg_arg_data_copy(message + CYCLES + 1, 0, size);
    tell(size);
}

static void rejected(uint32_t env) {
    uint32_t size = msg_reject_msg_size();
    msg_reject_msg_copy(message + CYCLES + 1, 0, size);
    tell(size);
}

UPDATE(ask) void ask(void) {
    uint32_t size = msg_arg_data_size();
    if (size <= CYCLES || size > MOST) TRAP("argument not understood");
    msg_arg_data_copy(message, 0, size);
    uint64_t cycles = 0;
    for (uint32_t k = 0; k < CYCLES; k++) cycles |= (uint64_t)message[k] << (8 * k);
    uint32_t name = message[CYCLES], start = CYCLES + 1 + name;
    if (start > size) TRAP("argument not understood");
    // the management canister is the principal of no bytes
    call_new(message, 0, (const char *)message + CYCLES + 1, name, replied, 0, rejected, 0);
    call_data_append(message + start, size - start);
    call_cycles_add(cycles);
    call_perform();
}
