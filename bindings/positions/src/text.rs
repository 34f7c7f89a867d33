//! The questions about a plain text.
use crate::answers::{some_byte, some_bytes, some_position, Bytes};
use crate::{Encoding, LineType, Position, Range};
use core::ops;

// The static library is linked by this crate.
use str_indices as _;

// SAFETY, of each call: a `str` is all that the library wants of a text: UTF-8, at an address that is not null, of at most
// `isize::MAX` bytes, which nobody writes to while it is lent. And the library answers for every index and position.
extern "C" {
    fn str_indices_line(text: *const u8, len: usize, lines: LineType, line_idx: usize) -> Bytes;
    fn str_indices_line_end(text: *const u8, len: usize, lines: LineType, line_idx: usize) -> usize;
    fn str_indices_position_of(
        text: *const u8,
        len: usize,
        lines: LineType,
        encoding: Encoding,
        byte_idx: usize,
    ) -> Position;
    fn str_indices_exact_position_of(
        text: *const u8,
        len: usize,
        lines: LineType,
        encoding: Encoding,
        byte_idx: usize,
    ) -> Position;
    fn str_indices_range_of(text: *const u8, len: usize, lines: LineType, encoding: Encoding, span: Bytes) -> Range;
    fn str_indices_byte_of(
        text: *const u8,
        len: usize,
        lines: LineType,
        encoding: Encoding,
        position: Position,
    ) -> usize;
    fn str_indices_exact_byte_of(
        text: *const u8,
        len: usize,
        lines: LineType,
        encoding: Encoding,
        position: Position,
    ) -> usize;
    fn str_indices_byte_range(text: *const u8, len: usize, lines: LineType, encoding: Encoding, range: Range) -> Bytes;
}

/// Returns the byte indices of a line without its break; past the last line, an empty range at the end of the text.
///
/// ```
/// use str_indices_positions::{line, LineType};
///
/// let text = "a\u{2028}b\r\nc";
/// assert_eq!([0, 1, 9].map(|nth| line(text, LineType::Crlf, nth)), [0..5, 7..8, 8..8]);
/// assert_eq!(&text[line(text, LineType::Lf, 0)], "a\u{2028}b\r");
/// assert_eq!(&text[line(text, LineType::Lines, 1)], "b");
/// ```
#[inline]
pub fn line(text: &str, lines: LineType, line_idx: usize) -> ops::Range<usize> {
    // SAFETY: as above.
    unsafe { str_indices_line(text.as_ptr(), text.len(), lines, line_idx) }.into()
}

/// Returns the byte index where the content of a line ends: before its break, or the length of the text in bytes if it is the
/// last line or past it.
///
/// ```
/// use str_indices_positions::{line_end, LineType};
///
/// let text = "one\r\ntwo\rmore";
/// assert_eq!([0, 1, 2, 3].map(|nth| line_end(text, LineType::Crlf, nth)), [3, 8, 13, 13]);
/// assert_eq!([0, 1].map(|nth| line_end(text, LineType::Lf, nth)), [4, 13]);
/// ```
#[inline]
pub fn line_end(text: &str, lines: LineType, line_idx: usize) -> usize {
    // SAFETY: as above.
    unsafe { str_indices_line_end(text.as_ptr(), text.len(), lines, line_idx) }
}

/// Returns the position of a byte: its line, and the units from that line's beginning to the byte; past the end, the position
/// of the text's end.
///
/// A byte inside a char has the position where the char begins, and the byte between the CR and the LF of one break that of
/// the line's end.
///
/// ```
/// use str_indices_positions::{position_of, Encoding, LineType::Crlf, Position};
///
/// let text = "a\r\n🐸b";
/// assert_eq!(position_of(text, Crlf, Encoding::Utf8, 7), Position { line: 1, character: 4 });
/// assert_eq!(position_of(text, Crlf, Encoding::Utf16, 7), Position { line: 1, character: 2 });
/// assert_eq!(position_of(text, Crlf, Encoding::Utf32, 7), Position { line: 1, character: 1 });
/// assert_eq!(position_of(text, Crlf, Encoding::Utf16, 6), Position { line: 1, character: 0 });
/// assert_eq!(position_of(text, Crlf, Encoding::Utf16, 2), Position { line: 0, character: 1 });
/// assert_eq!(position_of(text, Crlf, Encoding::Utf16, 100), Position { line: 1, character: 3 });
/// ```
#[inline]
pub fn position_of(text: &str, lines: LineType, encoding: Encoding, byte_idx: usize) -> Position {
    // SAFETY: as above.
    unsafe { str_indices_position_of(text.as_ptr(), text.len(), lines, encoding, byte_idx) }
}

/// Returns the position of a byte that is a place on a line; past the end, inside a char, and between the CR and the LF of one
/// break, `None`. So a compiler notices a span that is wrong.
///
/// ```
/// use str_indices_positions::{exact_position_of, Encoding::Utf8, LineType::Crlf, Position};
///
/// let places = [1, 2, 3, 4, 8].map(|byte| exact_position_of("a\r\n🐸", Crlf, Utf8, byte));
/// let at = |line, character| Some(Position { line, character });
/// assert_eq!(places, [at(0, 1), None, at(1, 0), None, None]);
/// ```
#[inline]
pub fn exact_position_of(text: &str, lines: LineType, encoding: Encoding, byte_idx: usize) -> Option<Position> {
    // SAFETY: as above.
    some_position(unsafe { str_indices_exact_position_of(text.as_ptr(), text.len(), lines, encoding, byte_idx) })
}

/// Returns the positions of both ends of a span of bytes, each as [`position_of`] does, also if the end is before the start.
///
/// ```
/// use str_indices_positions::{range_of, Encoding::Utf16, LineType::Crlf, Position, Range};
///
/// let text = "let x = 1;\n\"🐸\".f();";
/// let frog = text.find('🐸').unwrap();
/// let (start, end) = (Position { line: 1, character: 1 }, Position { line: 1, character: 3 });
/// assert_eq!(range_of(text, Crlf, Utf16, frog..frog + 4), Range { start, end });
/// ```
#[inline]
pub fn range_of(text: &str, lines: LineType, encoding: Encoding, span: ops::Range<usize>) -> Range {
    // SAFETY: as above.
    unsafe { str_indices_range_of(text.as_ptr(), text.len(), lines, encoding, span.into()) }
}

/// Returns the byte index where the char at a position begins; past the end of the line, that end, before its break, and past
/// the last line, the length of the text in bytes. An offset inside a char belongs to its char.
///
/// ```
/// use str_indices_positions::{byte_of, Encoding, LineType::Crlf, Position};
///
/// let text = "a\r\n🐸b";
/// assert_eq!(byte_of(text, Crlf, Encoding::Utf8, Position { line: 1, character: 4 }), 7);
/// assert_eq!(byte_of(text, Crlf, Encoding::Utf16, Position { line: 1, character: 2 }), 7);
/// assert_eq!(byte_of(text, Crlf, Encoding::Utf32, Position { line: 1, character: 1 }), 7);
/// assert_eq!(byte_of(text, Crlf, Encoding::Utf16, Position { line: 1, character: 1 }), 3);
/// assert_eq!(byte_of(text, Crlf, Encoding::Utf16, Position { line: 0, character: 100 }), 1);
/// assert_eq!(byte_of(text, Crlf, Encoding::Utf16, Position { line: 2, character: 0 }), 8);
/// ```
#[inline]
pub fn byte_of(text: &str, lines: LineType, encoding: Encoding, position: Position) -> usize {
    // SAFETY: as above.
    unsafe { str_indices_byte_of(text.as_ptr(), text.len(), lines, encoding, position) }
}

/// Returns the byte index of a position that names a place; past the last line, past the end of the line, and inside a char,
/// `None`. So a server notices a client that is out of step.
///
/// ```
/// use str_indices_positions::{exact_byte_of, Encoding::Utf16, LineType::Crlf, Position};
///
/// let byte = |line, character| exact_byte_of("a\r\n🐸b", Crlf, Utf16, Position { line, character });
/// assert_eq!([byte(1, 2), byte(1, 1), byte(0, 2), byte(2, 0)], [Some(7), None, None, None]);
/// ```
#[inline]
pub fn exact_byte_of(text: &str, lines: LineType, encoding: Encoding, position: Position) -> Option<usize> {
    // SAFETY: as above.
    some_byte(unsafe { str_indices_exact_byte_of(text.as_ptr(), text.len(), lines, encoding, position) })
}

/// Returns the byte indices of a range, each as [`byte_of`] does, or `None` if its end is before its start.
///
/// ```
/// use str_indices_positions::{byte_range, Encoding::Utf16, LineType::Crlf, Position, Range};
///
/// let text = "one\r\ntwo\rmore";
/// let (start, end) = (Position { line: 0, character: 2 }, Position { line: 1, character: 100 });
/// assert_eq!(&text[byte_range(text, Crlf, Utf16, Range { start, end }).unwrap()], "e\r\ntwo");
/// assert_eq!(byte_range(text, Crlf, Utf16, Range { start: end, end: start }), None);
/// ```
#[inline]
pub fn byte_range(text: &str, lines: LineType, encoding: Encoding, range: Range) -> Option<ops::Range<usize>> {
    // SAFETY: as above.
    some_bytes(unsafe { str_indices_byte_range(text.as_ptr(), text.len(), lines, encoding, range) })
}
