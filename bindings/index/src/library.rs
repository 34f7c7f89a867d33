//! The exports of the static library.
//!
//! You pass an index that was made and is not freed yet. Its text must stay where and as it is. A `&str` that is borrowed
//! does, and is UTF-8, which nothing here checks.
use core::marker::{PhantomData, PhantomPinned};

/// An index of the library. It is known only by its address.
#[repr(C)]
pub struct Opaque {
    hidden: [u8; 0],
    marker: PhantomData<(*mut u8, PhantomPinned)>,
}

/// The statuses of the library.
pub const OK: u32 = 0;
pub const NO_MEMORY: u32 = 1;

extern "C" {
    pub fn str_index_make_utf8(index: *mut *mut Opaque, text: *const u8, len: usize) -> u32;
    pub fn str_index_free(index: *mut Opaque);
}
