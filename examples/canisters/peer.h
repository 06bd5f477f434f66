// A canister that is handed another one when it is installed or upgraded: the argument is one principal.
#include "canister.h"

enum { PRINCIPAL = 0x68, MOST_BYTES = 29, BEFORE = 9 };

static uint8_t peer[MOST_BYTES];
static uint32_t peer_size;

// Reads the argument: "DIDL", no table, one type, the flag of a principal, its length and its bytes. Traps where it is
// anything else.
static void read_peer(void) {
    uint8_t message[BEFORE + MOST_BYTES];
    uint32_t size = msg_arg_data_size();
    if (size < BEFORE || size > sizeof message) TRAP("argument not understood");
    msg_arg_data_copy(message, 0, size);
    bool is_right = message[4] == 0 && message[5] == 1 && message[6] == PRINCIPAL && message[7] == 1 &&
                    message[8] == size - BEFORE;
    if (!is_right) TRAP("argument not understood");
    peer_size = size - BEFORE;
    for (uint32_t i = 0; i < peer_size; i++) peer[i] = message[BEFORE + i];
}

#define CALL_PEER(method, reply, reply_env, reject, reject_env) \
    call_new(peer, peer_size, method, sizeof(method) - 1, reply, reply_env, reject, reject_env)

static void add_number(uint64_t number) {
    uint8_t message[HEADER + 9] = {'D', 'I', 'D', 'L', 0, 1, NAT64};
    for (uint32_t k = 0; k < 8; k++) message[HEADER + 1 + k] = number >> (8 * k);
    call_data_append(message, sizeof message);
}

static void add_nothing(void) {
    static const uint8_t message[HEADER] = {'D', 'I', 'D', 'L', 0, 0};
    call_data_append(message, sizeof message);
}
