//! Index by UTF-16 code units: two, a surrogate pair, for a char of four bytes, and one for any other char (the Unicode
//! Standard, chapter 3).

use crate::library;

extern "C" {
    fn str_indices_utf16_count(text: *const u8, len: usize) -> usize;
    fn str_indices_utf16_count_surrogates(text: *const u8, len: usize) -> usize;
    fn str_indices_utf16_from_byte_idx(text: *const u8, len: usize, byte_idx: usize) -> usize;
    fn str_indices_utf16_to_byte_idx(text: *const u8, len: usize, utf16_idx: usize) -> usize;
}

/// How many UTF-16 code units the text would take.
///
/// ```
/// use str_indices::utf16;
///
/// assert_eq!(utf16::count("Hi 🐸!"), 6);
/// ```
#[inline]
pub fn count(text: &str) -> usize {
    library::count(str_indices_utf16_count, text)
}

/// How many surrogate pairs the text would have in UTF-16: one for each char of four bytes.
///
/// ```
/// use str_indices::utf16;
///
/// assert_eq!(utf16::count_surrogates("Hi 🐸!"), 1);
/// ```
#[inline]
pub fn count_surrogates(text: &str) -> usize {
    library::count(str_indices_utf16_count_surrogates, text)
}

/// Converts a byte index to a UTF-16 code unit index: the number of units of the chars that end at or before the byte.
///
/// A byte inside a char belongs to that char, whose first unit is the answer. Any byte index past the end gives the
/// number of units.
///
/// ```
/// use str_indices::utf16;
///
/// assert_eq!(utf16::from_byte_idx("Hi 🐸!", 5), 3);
/// assert_eq!(utf16::from_byte_idx("Hi 🐸!", 7), 5);
/// assert_eq!(utf16::from_byte_idx("Hi 🐸!", 100), 6);
/// ```
#[inline]
pub fn from_byte_idx(text: &str, byte_idx: usize) -> usize {
    library::convert(str_indices_utf16_from_byte_idx, text, byte_idx)
}

/// Converts a UTF-16 code unit index to the byte index where the char of that unit begins.
///
/// The second unit of a surrogate pair belongs to its char. Any index past the last unit gives the length of the text
/// in bytes.
///
/// ```
/// use str_indices::utf16;
///
/// assert_eq!(utf16::to_byte_idx("Hi 🐸!", 4), 3);
/// assert_eq!(utf16::to_byte_idx("Hi 🐸!", 5), 7);
/// assert_eq!(utf16::to_byte_idx("Hi 🐸!", 100), 8);
/// ```
#[inline]
pub fn to_byte_idx(text: &str, utf16_idx: usize) -> usize {
    library::convert(str_indices_utf16_to_byte_idx, text, utf16_idx)
}
