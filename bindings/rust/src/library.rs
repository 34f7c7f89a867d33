//! The two ways to call an export of the static library.

/// An export that counts something in a text, handed over by its first byte and its length.
type Counting = unsafe extern "C" fn(*const u8, usize) -> usize;

/// An export that converts an index of a text.
type Converting = unsafe extern "C" fn(*const u8, usize, usize) -> usize;

/// Counts in the text by an export of the library.
#[inline(always)]
pub fn count(export: Counting, text: &str) -> usize {
    // SAFETY: a `str` is all that the library wants of a text: UTF-8, at an address that is not null, of at most
    // `isize::MAX` bytes, which nobody writes to while it is lent.
    unsafe { export(text.as_ptr(), text.len()) }
}

/// Converts an index of the text by an export of the library.
#[inline(always)]
pub fn convert(export: Converting, text: &str, index: usize) -> usize {
    // SAFETY: as in `count`, and every index has an answer.
    unsafe { export(text.as_ptr(), text.len(), index) }
}
