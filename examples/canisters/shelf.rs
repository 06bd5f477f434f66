//! Keeps numbers in a row: `put : (nat64) -> (nat64)` puts one at the end and answers its place, and `take : (nat64) -> (nat64)`
//! takes the one at a place out of the row. A panic is said, and then traps.
use std::cell::RefCell;

mod ic0 {
    #[link(wasm_import_module = "ic0")]
    extern "C" {
        pub fn msg_arg_data_size() -> u32;
        pub fn msg_arg_data_copy(to: *mut u8, offset: u32, size: u32);
        pub fn msg_reply_data_append(from: *const u8, size: u32);
        pub fn msg_reply();
        pub fn debug_print(text: *const u8, size: u32);
    }
}

thread_local! {
    static SHELF: RefCell<Vec<u64>> = RefCell::new(Vec::new());
}

fn say(text: &str) {
    unsafe { ic0::debug_print(text.as_ptr(), text.len() as u32) }
}

/// The argument as Candid: no types, one value, which is a nat64 (78), in eight bytes.
fn argument() -> u64 {
    let mut bytes = [0; 15];
    unsafe { ic0::msg_arg_data_copy(bytes.as_mut_ptr(), 0, ic0::msg_arg_data_size().min(15)) }
    assert!(bytes.starts_with(b"DIDL\x00\x01\x78"), "one nat64 is wanted");
    u64::from_le_bytes(bytes[7..].try_into().unwrap())
}

fn reply(number: u64) {
    let mut message = b"DIDL\x00\x01\x78".to_vec();
    message.extend(number.to_le_bytes());
    unsafe {
        ic0::msg_reply_data_append(message.as_ptr(), message.len() as u32);
        ic0::msg_reply();
    }
}

/// From here on a panic is said. It traps after that, as every panic does here.
fn tell_panics() {
    std::panic::set_hook(Box::new(|panic| say(&panic.to_string())));
}

#[export_name = "canister_init"]
pub fn init() {
    tell_panics();
}

#[export_name = "canister_post_upgrade"]
pub fn post_upgrade() {
    tell_panics();
}

fn put_last(shelf: &mut Vec<u64>, number: u64) -> usize {
    shelf.push(number);
    shelf.len() - 1
}

#[inline(never)]
fn take_out(shelf: &mut Vec<u64>, place: usize) -> u64 {
    say(&format!("{} on the shelf, the one at {place} is taken", shelf.len()));
    shelf.remove(place)
}

#[export_name = "canister_update put"]
pub fn put() {
    let number = argument();
    reply(SHELF.with(|shelf| put_last(&mut shelf.borrow_mut(), number)) as u64)
}

#[export_name = "canister_update take"]
pub fn take() {
    let place = argument() as usize;
    reply(SHELF.with(|shelf| take_out(&mut shelf.borrow_mut(), place)))
}
