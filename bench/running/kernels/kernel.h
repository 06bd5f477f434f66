// What the kernels share: each exports one function () -> () and traps where its result is not the
// one that is known.
typedef unsigned char u8;
typedef unsigned int u32;
typedef unsigned long long u64;

#define KERNEL __attribute__((export_name("canister_update run"))) void run(void)

static inline void check(int holds) {
    if (!holds) {
        __builtin_trap();
    }
}
