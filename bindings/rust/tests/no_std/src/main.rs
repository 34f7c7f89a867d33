//! A program without `std`, which is linked with the proved library and the C library and nothing else. Its status is 0
//! where each answer is right.
#![no_std]
#![no_main]

use core::ffi::c_int;
use core::panic::PanicInfo;
use str_indices::{chars, lines, lines_crlf, utf16};

#[link(name = "c")]
extern "C" {
    fn abort() -> !;
}

/// Long enough for the wide half.
static LETTERS: [u8; 4096] = [b'a'; 4096];

#[panic_handler]
fn stop(_: &PanicInfo) -> ! {
    // SAFETY: it takes nothing.
    unsafe { abort() }
}

/// The compiled `core` names it for panics that unwind, and none does here.
#[no_mangle]
extern "C" fn rust_eh_personality() {}

#[no_mangle]
extern "C" fn main() -> c_int {
    let text = "a\r\n\u{1F438}b\u{2028}c";
    let letters = core::str::from_utf8(&LETTERS).unwrap_or("");
    let right = chars::count(text) == 7
        && utf16::from_byte_idx(text, 7) == 5
        && lines_crlf::to_byte_idx(text, 1) == 3
        && lines::count_breaks(text) == 2
        && chars::count(letters) == 4096
        && utf16::to_byte_idx(letters, 4000) == 4000;
    c_int::from(!right)
}
