//! Index by lines that end in LF (U+000A) alone, so also at the LF of a CR LF.

use crate::library;

extern "C" {
    fn str_indices_lines_lf_count_breaks(text: *const u8, len: usize) -> usize;
    fn str_indices_lines_lf_from_byte_idx(text: *const u8, len: usize, byte_idx: usize) -> usize;
    fn str_indices_lines_lf_to_byte_idx(text: *const u8, len: usize, line_idx: usize) -> usize;
}

/// How many line breaks the text has.
///
/// That is one less than its lines: after a break at the end of the text an empty line begins.
///
/// ```
/// use str_indices::lines_lf;
///
/// assert_eq!(lines_lf::count_breaks("one\r\ntwo\rmore"), 1);
/// ```
#[inline]
pub fn count_breaks(text: &str) -> usize {
    library::count(str_indices_lines_lf_count_breaks, text)
}

/// Converts a byte index to a line index: the number of line breaks that end at or before the byte.
///
/// A break belongs to the line that it ends, and the byte between CR and LF to the line of the CR. Any byte index
/// past the end gives the index of the last line.
///
/// ```
/// use str_indices::lines_lf;
///
/// assert_eq!(lines_lf::from_byte_idx("one\r\ntwo\rmore", 4), 0);
/// assert_eq!(lines_lf::from_byte_idx("one\r\ntwo\rmore", 5), 1);
/// assert_eq!(lines_lf::from_byte_idx("one\r\ntwo\rmore", 100), 1);
/// ```
#[inline]
pub fn from_byte_idx(text: &str, byte_idx: usize) -> usize {
    library::convert(str_indices_lines_lf_from_byte_idx, text, byte_idx)
}

/// Converts a line index to the byte index where that line begins: 0, or right after a line break.
///
/// Any index past the last line gives the length of the text in bytes.
///
/// ```
/// use str_indices::lines_lf;
///
/// let text = "one\r\ntwo\rmore";
/// assert_eq!(&text[lines_lf::to_byte_idx(text, 1)..], "two\rmore");
/// assert_eq!(lines_lf::to_byte_idx(text, 100), 13);
/// ```
#[inline]
pub fn to_byte_idx(text: &str, line_idx: usize) -> usize {
    library::convert(str_indices_lines_lf_to_byte_idx, text, line_idx)
}
