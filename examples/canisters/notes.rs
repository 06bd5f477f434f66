//! Keeps notes in a map: `add` takes a text and answers its number, `list` answers all of them. Arguments and answers
//! are plain text here, without Candid. A panic traps with its message.
#![no_std]
// rustc before 1.68 wants this named; with it, `build` sets RUSTC_BOOTSTRAP
#![feature(default_alloc_error_handler)]

extern crate alloc;

use alloc::collections::BTreeMap;
use alloc::format;
use alloc::string::String;
use alloc::vec;
use alloc::vec::Vec;
use core::alloc::{GlobalAlloc, Layout};
use core::panic::PanicInfo;

mod ic0 {
    #[link(wasm_import_module = "ic0")]
    extern "C" {
        pub fn msg_arg_data_size() -> u32;
        pub fn msg_arg_data_copy(to: *mut u8, offset: u32, size: u32);
        pub fn msg_reply_data_append(from: *const u8, size: u32);
        pub fn msg_reply();
        pub fn trap(text: *const u8, size: u32) -> !;
    }
}

/// Hands out memory from the heap's end on, page by page, and takes none back.
struct Rising;

static mut NEXT: usize = 0;
static mut END: usize = 0;

unsafe impl GlobalAlloc for Rising {
    unsafe fn alloc(&self, layout: Layout) -> *mut u8 {
        let at = (NEXT + layout.align() - 1) & !(layout.align() - 1);
        let after = at + layout.size();
        if after > END {
            let pages = (after - END + 65_535) / 65_536;
            let old = core::arch::wasm32::memory_grow(0, pages);
            if old == usize::MAX {
                return core::ptr::null_mut();
            }
            if old * 65_536 != END {
                NEXT = old * 65_536;
                END = (old + pages) * 65_536;
                return self.alloc(layout);
            }
            END += pages * 65_536;
        }
        NEXT = after;
        at as *mut u8
    }

    unsafe fn dealloc(&self, _: *mut u8, _: Layout) {}
}

#[global_allocator]
static MEMORY: Rising = Rising;

#[panic_handler]
fn panic(info: &PanicInfo) -> ! {
    let text = format!("{info}");
    unsafe { ic0::trap(text.as_ptr(), text.len() as u32) }
}

static mut NOTES: Option<BTreeMap<u32, String>> = None;

fn notes() -> &'static mut BTreeMap<u32, String> {
    unsafe { NOTES.get_or_insert_with(BTreeMap::new) }
}

fn argument() -> Vec<u8> {
    unsafe {
        let mut bytes = vec![0; ic0::msg_arg_data_size() as usize];
        ic0::msg_arg_data_copy(bytes.as_mut_ptr(), 0, bytes.len() as u32);
        bytes
    }
}

fn reply(text: &str) {
    unsafe {
        ic0::msg_reply_data_append(text.as_ptr(), text.len() as u32);
        ic0::msg_reply();
    }
}

#[export_name = "canister_update add"]
pub fn add() {
    let note = String::from_utf8(argument()).expect("a note is a text");
    let number = notes().len() as u32;
    notes().insert(number, note);
    reply(&format!("{number}"));
}

#[export_name = "canister_query list"]
pub fn list() {
    let mut all = String::new();
    for (number, note) in notes() {
        all += &format!("{number}: {note}\n");
    }
    reply(&all);
}
