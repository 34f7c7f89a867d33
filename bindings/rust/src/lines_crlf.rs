//! Index by lines that end in LF (U+000A), in CR (U+000D), or in CR LF, which is one break.

use crate::library;

extern "C" {
    fn str_indices_lines_crlf_count_breaks(text: *const u8, len: usize) -> usize;
    fn str_indices_lines_crlf_from_byte_idx(text: *const u8, len: usize, byte_idx: usize) -> usize;
    fn str_indices_lines_crlf_to_byte_idx(text: *const u8, len: usize, line_idx: usize) -> usize;
}

/// How many line breaks the text has: LF, CR and CR LF, which is one.
///
/// That is one less than its lines: after a break at the end of the text an empty line begins.
///
/// ```
/// use str_indices::lines_crlf;
///
/// assert_eq!(lines_crlf::count_breaks("one\r\ntwo\rmore"), 2);
/// ```
#[inline]
pub fn count_breaks(text: &str) -> usize {
    library::count(str_indices_lines_crlf_count_breaks, text)
}

/// Converts a byte index to a line index: the number of line breaks that end at or before the byte.
///
/// A break belongs to the line that it ends, and so does the byte between CR and LF. Any byte index
/// past the end gives the index of the last line.
///
/// ```
/// use str_indices::lines_crlf;
///
/// assert_eq!(lines_crlf::from_byte_idx("one\r\ntwo\rmore", 4), 0);
/// assert_eq!(lines_crlf::from_byte_idx("one\r\ntwo\rmore", 5), 1);
/// assert_eq!(lines_crlf::from_byte_idx("one\r\ntwo\rmore", 100), 2);
/// ```
#[inline]
pub fn from_byte_idx(text: &str, byte_idx: usize) -> usize {
    library::convert(str_indices_lines_crlf_from_byte_idx, text, byte_idx)
}

/// Converts a line index to the byte index where that line begins: 0, or right after a line break.
///
/// Any index past the last line gives the length of the text in bytes.
///
/// ```
/// use str_indices::lines_crlf;
///
/// let text = "one\r\ntwo\rmore";
/// assert_eq!(&text[lines_crlf::to_byte_idx(text, 1)..], "two\rmore");
/// assert_eq!(lines_crlf::to_byte_idx(text, 100), 13);
/// ```
#[inline]
pub fn to_byte_idx(text: &str, line_idx: usize) -> usize {
    library::convert(str_indices_lines_crlf_to_byte_idx, text, line_idx)
}
