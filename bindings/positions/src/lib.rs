//! Lines of a text, and the positions of the Language Server Protocol 3.17: from a byte index to a position, and back.
//!
//! A [`LineType`] says what ends a line: in the protocol LF, CR or CR LF, which is one break. A position is a line and an offset
//! on it, and an [`Encoding`] says what the offset counts: bytes, UTF-16 code units or scalar values. No position names a place
//! inside or after a break on its line: an offset past the end of the line means the line's end, before its break.
//!
//! The functions are proved to answer by a definition of lines and positions: each call here is one call into the static
//! library of the crate `str_indices`. Every text, byte index and position has an answer: nothing panics, and nothing
//! allocates. The text may be sliced at each byte index that is answered.
//!
//! A request names a place by a position, as that of the second char after a surrogate pair; the answer names a range:
//!
//! ```
//! use str_indices_positions::{byte_of, line_end, position_of, Encoding::Utf16, LineType::Crlf, Position};
//!
//! let text = "let x = 1;\r\n🐸.push(\"世界\");\r\n";
//!
//! // A hover at line 1, character 9: after the quotation mark.
//! let byte = byte_of(text, Crlf, Utf16, Position { line: 1, character: 9 });
//! assert_eq!(byte, 23);
//! let word: &str = text[byte..].split('"').next().unwrap();
//! assert_eq!(word, "世界");
//! assert_eq!(position_of(text, Crlf, Utf16, byte + word.len()), Position { line: 1, character: 11 });
//!
//! // An offset past the line's end is its end, before CR LF.
//! assert_eq!(byte_of(text, Crlf, Utf16, Position { line: 0, character: 99 }), line_end(text, Crlf, 0));
//! assert_eq!(&text[..line_end(text, Crlf, 0)], "let x = 1;");
//! ```
#![no_std]

#[doc(hidden)]
pub mod answers;
mod methods;
mod text;

pub use text::{byte_of, byte_range, exact_byte_of, exact_position_of, line, line_end, position_of, range_of};

use core::num::TryFromIntError;

/// A place in a text, as a language server names it. Positions are ordered by their places: first by the line.
#[derive(Clone, Copy, Debug, Default, PartialEq, Eq, PartialOrd, Ord, Hash)]
#[repr(C)]
pub struct Position {
    /// The line, counted from 0.
    pub line: usize,
    /// The offset on that line, in the units of an encoding.
    pub character: usize,
}

impl Position {
    /// The position of these numbers, which the protocol has as `u32`.
    ///
    /// ```
    /// use str_indices_positions::Position;
    ///
    /// assert_eq!(Position::from_u32(1, u32::MAX), Position { line: 1, character: 4_294_967_295 });
    /// ```
    #[inline]
    pub fn from_u32(line: u32, character: u32) -> Position {
        // No cut: the library is for x86-64 alone.
        Position {
            line: line as usize,
            character: character as usize,
        }
    }

    /// The line and the offset as the protocol's numbers; an error where one of them is past `u32::MAX`.
    ///
    /// ```
    /// use str_indices_positions::Position;
    ///
    /// assert_eq!(Position { line: 1, character: 2 }.to_u32(), Ok((1, 2)));
    /// assert!(Position { line: 0, character: 4_294_967_296 }.to_u32().is_err());
    /// ```
    #[inline]
    pub fn to_u32(self) -> Result<(u32, u32), TryFromIntError> {
        Ok((u32::try_from(self.line)?, u32::try_from(self.character)?))
    }
}

/// A part of a text, as a language server names it: from its start up to its end.
#[derive(Clone, Copy, Debug, Default, PartialEq, Eq, Hash)]
#[repr(C)]
pub struct Range {
    /// Where it begins.
    pub start: Position,
    /// Where it ends: what is at this position is no part of it.
    pub end: Position,
}

/// A thing to count in a text, for a rope and an index. Each has the number that the headers for C give it.
#[derive(Clone, Copy, Debug, PartialEq, Eq, Hash)]
#[repr(u32)]
pub enum Scheme {
    /// Chars: Unicode scalar values.
    Chars = 0,
    /// UTF-16 code units.
    Utf16 = 1,
    /// Line breaks of LF alone.
    Lf = 2,
    /// Line breaks of LF, CR and CR LF, which is one, as a language server has them.
    Crlf = 3,
    /// Line breaks of Unicode: LF, VT, FF, CR, CR LF, U+0085, U+2028 and U+2029.
    Lines = 4,
}

impl Scheme {
    /// Every scheme, in the order of their numbers.
    pub const ALL: [Scheme; 5] = [Scheme::Chars, Scheme::Utf16, Scheme::Lf, Scheme::Crlf, Scheme::Lines];
}

/// What ends a line. Each kind has the number that the headers for C give it.
#[derive(Clone, Copy, Debug, Default, PartialEq, Eq, Hash)]
#[repr(u32)]
pub enum LineType {
    /// LF alone: a CR before it is of the line.
    Lf = 2,
    /// LF, CR and CR LF, which is one break, as the protocol has it.
    #[default]
    Crlf = 3,
    /// The line breaks of Unicode: LF, VT, FF, CR, CR LF, U+0085, U+2028 and U+2029.
    Lines = 4,
}

/// The scheme that counts the breaks of a kind of line.
impl From<LineType> for Scheme {
    fn from(lines: LineType) -> Scheme {
        match lines {
            LineType::Lf => Scheme::Lf,
            LineType::Crlf => Scheme::Crlf,
            LineType::Lines => Scheme::Lines,
        }
    }
}

/// How an offset on a line is counted, on which a server and its client agree: the protocol's `PositionEncodingKind`. Each
/// number is that of the headers for C.
#[derive(Clone, Copy, Debug, Default, PartialEq, Eq, Hash)]
#[repr(u32)]
pub enum Encoding {
    /// In scalar values: each char is one.
    Utf32 = 0,
    /// In UTF-16 code units, the protocol's default.
    #[default]
    Utf16 = 1,
    /// In bytes.
    Utf8 = 5,
}
