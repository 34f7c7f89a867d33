//! Index by lines that end in any line break of Unicode: LF (U+000A), VT (U+000B), FF (U+000C), CR (U+000D), NEL (U+0085),
//! LS (U+2028), PS (U+2029), and CR LF, which is one break (Unicode Standard Annex 14).

use crate::library;

extern "C" {
    fn str_indices_lines_count_breaks(text: *const u8, len: usize) -> usize;
    fn str_indices_lines_from_byte_idx(text: *const u8, len: usize, byte_idx: usize) -> usize;
    fn str_indices_lines_to_byte_idx(text: *const u8, len: usize, line_idx: usize) -> usize;
}

/// How many line breaks the text has, of all those of Unicode.
///
/// That is one less than its lines: after a break at the end of the text an empty line begins.
///
/// ```
/// use str_indices::lines;
///
/// assert_eq!(lines::count_breaks("one\r\ntwo\u{2028}more"), 2);
/// ```
#[inline]
pub fn count_breaks(text: &str) -> usize {
    library::count(str_indices_lines_count_breaks, text)
}

/// Converts a byte index to a line index: the number of line breaks that end at or before the byte.
///
/// A break belongs to the line that it ends, and so does each byte inside it. Any byte index
/// past the end gives the index of the last line.
///
/// ```
/// use str_indices::lines;
///
/// assert_eq!(lines::from_byte_idx("one\r\ntwo\u{2028}more", 9), 1);
/// assert_eq!(lines::from_byte_idx("one\r\ntwo\u{2028}more", 11), 2);
/// assert_eq!(lines::from_byte_idx("one\r\ntwo\u{2028}more", 100), 2);
/// ```
#[inline]
pub fn from_byte_idx(text: &str, byte_idx: usize) -> usize {
    library::convert(str_indices_lines_from_byte_idx, text, byte_idx)
}

/// Converts a line index to the byte index where that line begins: 0, or right after a line break.
///
/// Any index past the last line gives the length of the text in bytes.
///
/// ```
/// use str_indices::lines;
///
/// let text = "one\r\ntwo\u{2028}more";
/// assert_eq!(&text[lines::to_byte_idx(text, 1)..], "two\u{2028}more");
/// assert_eq!(lines::to_byte_idx(text, 100), 15);
/// ```
#[inline]
pub fn to_byte_idx(text: &str, line_idx: usize) -> usize {
    library::convert(str_indices_lines_to_byte_idx, text, line_idx)
}
