//! A canister that says what it does, and then traps, each method in another way, as talker.c does. Its init traps where it is
//! given 1. Built as examples/canisters/build does it, with the names of functions (-C strip=debuginfo).
#![no_std]
use core::panic::PanicInfo;
use core::ptr::read_volatile;

mod ic0 {
    #[link(wasm_import_module = "ic0")]
    extern "C" {
        pub fn msg_arg_data_copy(to: *mut u8, offset: u32, size: u32);
        pub fn msg_reply_data_append(from: *const u8, size: u32);
        pub fn msg_reply();
        pub fn debug_print(text: *const u8, size: u32);
        pub fn canister_self_size() -> u32;
        pub fn canister_self_copy(to: *mut u8, offset: u32, size: u32);
        pub fn call_new(
            callee: *const u8,
            callee_size: u32,
            method: *const u8,
            method_size: u32,
            on_reply: extern "C" fn(u32),
            reply_env: u32,
            on_reject: extern "C" fn(u32),
            reject_env: u32,
        );
        pub fn call_on_cleanup(cleanup: extern "C" fn(u32), env: u32);
        pub fn call_data_append(from: *const u8, size: u32);
        pub fn call_perform() -> u32;
    }
}

static ZERO: u32 = 0;

fn zero() -> u32 {
    unsafe { read_volatile(&ZERO) }
}

fn say(text: &str) {
    unsafe { ic0::debug_print(text.as_ptr(), text.len() as u32) }
}

#[panic_handler]
fn panic(_: &PanicInfo<'_>) -> ! {
    say("panic");
    core::arch::wasm32::unreachable()
}

#[inline(never)]
fn divide() -> u32 {
    say("divide");
    100 / zero()
}

#[export_name = "canister_init"]
pub fn init() {
    let mut number = [0];
    unsafe { ic0::msg_arg_data_copy(number.as_mut_ptr(), 7, 1) }
    say("init");
    assert!(number[0] != 1);
}

#[export_name = "canister_update nothing"]
pub fn nothing() {
    unsafe {
        ic0::msg_reply_data_append(b"DIDL\0\0".as_ptr(), 6);
        ic0::msg_reply();
    }
}

#[export_name = "canister_update method"]
pub fn method() {
    divide();
}

#[export_name = "canister_query asked"]
pub fn asked() {
    say("asked");
    divide();
}

#[inline(never)]
fn go_deeper() {
    if zero() == 0 {
        go_deeper();
    }
    zero();
}

#[export_name = "canister_update deep"]
pub fn deep() {
    say("deep");
    go_deeper();
}

#[export_name = "canister_update forever"]
pub fn forever() {
    say("forever");
    while zero() == 0 {}
}

extern "C" fn on_reply(_: u32) {
    say("callback");
    divide();
}

extern "C" fn on_reject(_: u32) {}

extern "C" fn on_cleanup(_: u32) {
    say("cleanup");
    divide();
}

#[export_name = "canister_update callback"]
pub fn callback() {
    let mut this = [0; 29];
    unsafe {
        let size = ic0::canister_self_size();
        ic0::canister_self_copy(this.as_mut_ptr(), 0, size);
        ic0::call_new(this.as_ptr(), size, "nothing".as_ptr(), 7, on_reply, 0, on_reject, 0);
        ic0::call_on_cleanup(on_cleanup, 0);
        ic0::call_data_append(b"DIDL\0\0".as_ptr(), 6);
        ic0::call_perform();
    }
}
