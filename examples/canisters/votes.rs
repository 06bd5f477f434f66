//! Counts votes, one of each caller: `vote : (text) -> (nat64)` answers how many votes the text has now, and
//! `result : () -> (vec record { text; nat64 }) query` each text with its votes. A second vote of a caller is rejected.
use std::cell::RefCell;
use std::collections::BTreeMap;

mod ic0 {
    #[link(wasm_import_module = "ic0")]
    extern "C" {
        pub fn msg_arg_data_size() -> u32;
        pub fn msg_arg_data_copy(to: *mut u8, offset: u32, size: u32);
        pub fn msg_caller_size() -> u32;
        pub fn msg_caller_copy(to: *mut u8, offset: u32, size: u32);
        pub fn msg_reply_data_append(from: *const u8, size: u32);
        pub fn msg_reply();
        pub fn msg_reject(text: *const u8, size: u32);
        pub fn trap(text: *const u8, size: u32) -> !;
    }
}

thread_local! {
    // the text for which each caller voted
    static VOTES: RefCell<BTreeMap<Vec<u8>, String>> = RefCell::new(BTreeMap::new());
}

/// The argument of a method, or the bytes of its caller's principal.
fn bytes_of(size: unsafe extern "C" fn() -> u32, copy: unsafe extern "C" fn(*mut u8, u32, u32)) -> Vec<u8> {
    unsafe {
        let mut bytes = vec![0; size() as usize];
        copy(bytes.as_mut_ptr(), 0, bytes.len() as u32);
        bytes
    }
}

/// The argument as Candid: `DIDL`, a table without types, one value, which is a text (71), its size in a byte, the text.
fn text_argument() -> String {
    let bytes = bytes_of(ic0::msg_arg_data_size, ic0::msg_arg_data_copy);
    let text = match bytes.strip_prefix(b"DIDL\x00\x01\x71") {
        Some([size, text @ ..]) if *size < 128 && text.len() == *size as usize => text.to_vec(),
        _ => panic!("one text is wanted, of at most 127 bytes"),
    };
    String::from_utf8(text).expect("a text is UTF-8")
}

/// A size as Candid writes it: seven bits a byte, the lowest first, and a bit that says whether more follow.
fn size(mut number: usize) -> Vec<u8> {
    let mut bytes = Vec::new();
    while number >= 128 {
        bytes.push(number as u8 | 128);
        number >>= 7;
    }
    bytes.push(number as u8);
    bytes
}

fn reply(message: &[u8]) {
    unsafe {
        ic0::msg_reply_data_append(message.as_ptr(), message.len() as u32);
        ic0::msg_reply();
    }
}

fn reject(text: &str) {
    unsafe { ic0::msg_reject(text.as_ptr(), text.len() as u32) }
}

fn votes_for(votes: &BTreeMap<Vec<u8>, String>, text: &str) -> u64 {
    votes.values().filter(|voted| *voted == text).count() as u64
}

/// From here on a panic traps with its message.
fn tell_panics() {
    std::panic::set_hook(Box::new(|panic| {
        let text = panic.to_string();
        unsafe { ic0::trap(text.as_ptr(), text.len() as u32) }
    }));
}

#[export_name = "canister_init"]
pub fn init() {
    tell_panics();
}

#[export_name = "canister_post_upgrade"]
pub fn post_upgrade() {
    tell_panics();
}

#[export_name = "canister_update vote"]
pub fn vote() {
    let text = text_argument();
    let caller = bytes_of(ic0::msg_caller_size, ic0::msg_caller_copy);
    VOTES.with(|votes| {
        let mut votes = votes.borrow_mut();
        if votes.contains_key(&caller) {
            return reject("voted already");
        }
        votes.insert(caller, text.clone());
        // no types, one value, which is a nat64 (78), in eight bytes
        let mut message = b"DIDL\x00\x01\x78".to_vec();
        message.extend(votes_for(&votes, &text).to_le_bytes());
        reply(&message);
    })
}

#[export_name = "canister_query result"]
pub fn result() {
    VOTES.with(|votes| {
        let votes = votes.borrow();
        let mut texts: Vec<&String> = votes.values().collect();
        texts.sort();
        texts.dedup();
        // two types: a vec (6d) of type 1, which is a record (6c) of two fields, 0 : text and 1 : nat64; one value, of type 0
        let mut message = b"DIDL\x02\x6d\x01\x6c\x02\x00\x71\x01\x78\x01\x00".to_vec();
        message.extend(size(texts.len()));
        for text in texts {
            message.extend(size(text.len()));
            message.extend(text.bytes());
            message.extend(votes_for(&votes, text).to_le_bytes());
        }
        reply(&message);
    })
}
