//! The exports of the static library.
//!
//! You pass a handle that was zeroed once. Calls that take it as `*const` may run at once, in many threads; one that takes it as
//! `*mut` runs beside no other. Bytes that you pass must stay where and as they are until the call returns. The bytes of a
//! `&str` do, and are UTF-8, which an export named `.._utf8` does not check.
use core::ffi::c_void;
use core::ptr;
use str_indices_positions::{Encoding, Range};

/// A rope of the library. A zeroed one is the empty text.
#[repr(C)]
pub struct Handle {
    hidden: *mut c_void,
}

impl Handle {
    /// The empty text, which takes no memory.
    pub const EMPTY: Handle = Handle {
        hidden: ptr::null_mut(),
    };
}

/// A chunk that the library lends. Its bytes stay until the handle is in a call that takes it as `*mut`.
#[derive(Clone, Copy)]
#[repr(C)]
pub struct LentChunk {
    pub text: *const u8,
    pub len: usize,
    /// The byte index where it starts in the text.
    pub start: usize,
}

impl LentChunk {
    /// No chunk, before one is lent.
    pub const NONE: LentChunk = LentChunk {
        text: ptr::null(),
        len: 0,
        start: 0,
    };
}

extern "C" {
    pub fn str_rope_free(rope: *mut Handle);
    pub fn str_rope_assign_utf8(rope: *mut Handle, text: *const u8, len: usize) -> u32;
    pub fn str_rope_snapshot(rope: *const Handle, copy: *mut Handle) -> u32;

    pub fn str_rope_insert_utf8(rope: *mut Handle, at: usize, text: *const u8, len: usize) -> u32;
    pub fn str_rope_remove(rope: *mut Handle, from: usize, to: usize) -> u32;
    pub fn str_rope_replace_utf8(rope: *mut Handle, from: usize, to: usize, text: *const u8, len: usize) -> u32;
    pub fn str_rope_append(rope: *mut Handle, other: *mut Handle) -> u32;
    pub fn str_rope_split_off(rope: *mut Handle, at: usize, rest: *mut Handle) -> u32;

    pub fn str_rope_chunk_at(rope: *const Handle, byte_idx: usize, chunk: *mut LentChunk) -> bool;
    pub fn str_rope_chunks_at(rope: *const Handle, byte_idx: usize, chunks: *mut LentChunk, room: usize) -> usize;
    pub fn str_rope_chunks_before(rope: *const Handle, byte_idx: usize, chunks: *mut LentChunk, room: usize) -> usize;
    pub fn str_rope_copy_to(rope: *const Handle, from: usize, to: usize, out: *mut u8, room: usize) -> u32;

    pub fn str_rope_change_utf8(
        rope: *mut Handle,
        encoding: Encoding,
        range: Range,
        text: *const u8,
        len: usize,
    ) -> u32;
    pub fn str_rope_change_exact(
        rope: *mut Handle,
        encoding: Encoding,
        range: Range,
        text: *const u8,
        len: usize,
    ) -> u32;
}
