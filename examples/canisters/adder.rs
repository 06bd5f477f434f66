//! Adds up what it is given.
#![no_std]

#[link(wasm_import_module = "ic0")]
extern "C" {
    fn msg_arg_data_size() -> u32;
    fn msg_arg_data_copy(to: *mut u8, offset: u32, size: u32);
    fn msg_reply_data_append(from: *const u8, size: u32);
    fn msg_reply();
    fn trap(text: *const u8, size: u32) -> !;
}

static mut SUM: u64 = 0;

#[panic_handler]
fn panic(_: &core::panic::PanicInfo) -> ! {
    unsafe { trap(b"panic".as_ptr(), 5) }
}

#[export_name = "canister_update add"]
pub fn add() {
    let mut bytes = [0; 8];
    unsafe {
        if msg_arg_data_size() != 8 {
            trap(b"eight bytes are wanted".as_ptr(), 22);
        }
        msg_arg_data_copy(bytes.as_mut_ptr(), 0, 8);
        SUM = SUM.checked_add(u64::from_le_bytes(bytes)).unwrap();
        msg_reply_data_append(SUM.to_le_bytes().as_ptr(), 8);
        msg_reply();
    }
}
