//! Index by chars: the Unicode scalar values of a text (the Unicode Standard, chapter 3).

use crate::library;

extern "C" {
    fn str_indices_chars_count(text: *const u8, len: usize) -> usize;
    fn str_indices_chars_from_byte_idx(text: *const u8, len: usize, byte_idx: usize) -> usize;
    fn str_indices_chars_to_byte_idx(text: *const u8, len: usize, char_idx: usize) -> usize;
}

/// How many chars the text has; an empty text has none.
///
/// ```
/// use str_indices::chars;
///
/// assert_eq!(chars::count("Hello せかい!"), 10);
/// ```
#[inline]
pub fn count(text: &str) -> usize {
    library::count(str_indices_chars_count, text)
}

/// Converts a byte index to a char index: the number of chars that end at or before the byte.
///
/// A byte inside a char belongs to that char. Any byte index past the end gives the number of chars.
///
/// ```
/// use str_indices::chars;
///
/// assert_eq!(chars::from_byte_idx("せかい", 3), 1);
/// assert_eq!(chars::from_byte_idx("せかい", 5), 1);
/// assert_eq!(chars::from_byte_idx("せかい", 100), 3);
/// ```
#[inline]
pub fn from_byte_idx(text: &str, byte_idx: usize) -> usize {
    library::convert(str_indices_chars_from_byte_idx, text, byte_idx)
}

/// Converts a char index to the byte index where that char begins.
///
/// Any index past the last char gives the length of the text in bytes.
///
/// ```
/// use str_indices::chars;
///
/// let text = "せかい";
/// assert_eq!(&text[chars::to_byte_idx(text, 2)..], "い");
/// assert_eq!(chars::to_byte_idx(text, 100), 9);
/// ```
#[inline]
pub fn to_byte_idx(text: &str, char_idx: usize) -> usize {
    library::convert(str_indices_chars_to_byte_idx, text, char_idx)
}
