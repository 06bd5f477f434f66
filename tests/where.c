// A canister that traps in each way that a backtrace tells apart. `wasm-objdump -d` of what clang makes of it gives the
// offsets that `wm_run_tests::runs::backtraces` expects:
//   clang --target=wasm32 -O1 -nostdlib -Wl,--no-entry -o where.wasm where.c
__attribute__((import_module("ic0"), import_name("trap"))) void ic_trap(const char *text, unsigned size);
__attribute__((import_module("ic0"), import_name("msg_reply"))) void msg_reply(void);

#define UPDATE(name) __attribute__((export_name("canister_update " #name))) void update_##name(void)
#define APART __attribute__((noinline)) static

static volatile unsigned place = 0xFFFFFFF0u;
static volatile int depth = 600;

APART int load(unsigned at) { return *(volatile int *)at; }
APART int middle(unsigned at) { return load(at) + 1; }
APART void stop(int code) { ic_trap("stopped", 7); }
APART int down(int n) { return n == 0 ? 0 : down(n - 1) + depth; }
static void (*volatile chosen)(int) = stop;
static void (*volatile reply)(void) = msg_reply;

// past the end of memory, three calls deep
UPDATE(load) { middle(place); }
// by the System API, called by a function that the table has
UPDATE(stop) { chosen(1); }
// by the System API, through the table
UPDATE(reply) { reply(); }
// by `unreachable`
UPDATE(none) { __builtin_trap(); }
// too many calls
UPDATE(deep) { down(depth); }
