// A canister that says what it does, and then traps, each method in another way. Its init traps where it is given 1.
// Built as examples/canisters/build does it, without the names of functions (-Wl,--strip-all).
#include "canister.h"

SYSTEM(debug_print) void debug_print(const void *text, uint32_t size);
SYSTEM(canister_self_size) uint32_t canister_self_size(void);
SYSTEM(canister_self_copy) void canister_self_copy(void *to, uint32_t offset, uint32_t size);

#define SAY(text) debug_print(text, sizeof(text) - 1)

static volatile int32_t zero = 0, result;
static uint8_t letters[65536];

ENTRY(init) void init(void) {
    SAY("init");
    for (uint32_t i = 0; i < sizeof letters; i++) letters[i] = 'a';
    if (read_number() == 1) __builtin_trap();
}

UPDATE(nothing) void nothing(void) { reply_nothing(); }

__attribute__((noinline)) static void divide(void) {
    SAY("a line\nand bytes: \\ \xff \xc2\x85 \xe2\x80\xa8 \xc3\xa9");
    result = 100 / zero;
}

UPDATE(method) void method(void) { divide(); }

QUERY(asked) void asked(void) {
    SAY("asked");
    divide();
}

// No text is out of the memory.
UPDATE(past_the_end) void past_the_end(void) {
    debug_print((void *)0x10000000, 4);
    __builtin_trap();
}

UPDATE(twice) void twice(void) {
    msg_reply();
    msg_reply();
}

static void go_deeper(void) {
    if (zero == 0) go_deeper();
    result = 0;
}

UPDATE(deep) void deep(void) {
    SAY("deep");
    go_deeper();
}

UPDATE(forever) void forever(void) {
    SAY("forever");
    for (;;) result = 1;
}

UPDATE(long_text) void long_text(void) {
    debug_print(letters, 4099);
    __builtin_trap();
}

// 49 MB in 750 texts, and then 100 short ones.
UPDATE(much) void much(void) {
    for (int i = 0; i < 750; i++) debug_print(letters, sizeof letters);
    for (int i = 0; i < 100; i++) {
        char text[] = "text 00";
        text[5] = '0' + i / 10;
        text[6] = '0' + i % 10;
        debug_print(text, 7);
    }
    __builtin_trap();
}

static void on_reply(uint32_t number) {
    SAY("callback");
    if (zero == 0) __builtin_trap();
    result = number;
}

static void on_reject(uint32_t number) { result = number; }

static void on_cleanup(uint32_t number) {
    SAY("cleanup");
    result = number / zero;
}

UPDATE(callback) void callback(void) {
    uint8_t self[29];
    uint32_t size = canister_self_size();
    canister_self_copy(self, 0, size);
    call_new(self, size, "nothing", 7, on_reply, 7, on_reject, 7);
    call_on_cleanup(on_cleanup, 7);
    static const uint8_t message[HEADER] = {'D', 'I', 'D', 'L', 0, 0};
    call_data_append(message, sizeof message);
    call_perform();
}
