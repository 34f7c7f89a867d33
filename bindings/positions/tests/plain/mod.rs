//! A plain text beside a rope or an index: what `std` says of a `str`, lines by a walk over its chars, and random numbers.
//! The tests of those crates take it in.
// Each file of tests takes what it needs.
#![allow(dead_code)]
use core::ops;
use str_indices_positions::{Encoding, LineType, Position, Range, Scheme};

pub const ENCODINGS: [Encoding; 3] = [Encoding::Utf8, Encoding::Utf16, Encoding::Utf32];

pub const LINE_TYPES: [LineType; 3] = [LineType::Lf, LineType::Crlf, LineType::Lines];

/// Every kind of line break, chars of every length, combining chars, and chars whose bytes look like a break's.
const CHARS: &str =
    "ab \n\n\r\r\u{B}\u{C}\u{85}\u{2028}\u{2029}é\u{84}e\u{301}\u{C5}\u{1028}\u{2027}せ\u{FFFD}🐸\u{10FFFF}\0";

/// A small generator of numbers (splitmix64), so that each run tries the same texts.
pub struct Numbers(pub u64);

impl Numbers {
    /// A number below a limit that is not 0.
    pub fn below(&mut self, limit: usize) -> usize {
        self.0 = self.0.wrapping_add(0x9E37_79B9_7F4A_7C15);
        let mut mixed = self.0;
        mixed = (mixed ^ (mixed >> 30)).wrapping_mul(0xBF58_476D_1CE4_E5B9);
        mixed = (mixed ^ (mixed >> 27)).wrapping_mul(0x94D0_49BB_1331_11EB);
        ((mixed ^ (mixed >> 31)) % limit as u64) as usize
    }

    /// A text of fewer chars than a limit.
    pub fn text(&mut self, limit: usize) -> String {
        let chars: Vec<char> = CHARS.chars().collect();
        (0..self.below(limit)).map(|_| chars[self.below(chars.len())]).collect()
    }

    /// A text that is short, or about as long as a chunk of a rope, as two, or as a leaf of its tree.
    pub fn text_about_an_edge(&mut self) -> String {
        let edge = [512, 1024, 2048, 32 * 1024][self.below(4)] - 6 + self.below(13);
        let len = if self.below(8) == 0 { edge } else { self.below(40) };
        let mut text = String::new();
        while text.len() + 4 < len {
            text += &self.text(60);
        }
        text.truncate(floor(&text, len));
        text
    }

    /// An index of a text that may be inside a char, or past the end.
    pub fn anywhere(&mut self, text: &str) -> usize {
        if self.below(20) == 0 {
            return usize::MAX - self.below(2);
        }
        self.below(text.len() + 4)
    }

    /// A place in a text: a boundary.
    pub fn boundary(&mut self, text: &str) -> usize {
        floor(text, self.below(text.len() + 1))
    }

    /// Two places in a text, in order.
    pub fn part(&mut self, text: &str) -> (usize, usize) {
        let (one, other) = (self.boundary(text), self.boundary(text));
        (one.min(other), one.max(other))
    }
}

/// The greatest boundary at or before a byte index.
pub fn floor(text: &str, byte: usize) -> usize {
    let last = byte.min(text.len());
    (0..=last).rev().find(|&at| text.is_char_boundary(at)).unwrap()
}

/// Where the chars or the line breaks of a text end, in order.
pub fn ends(scheme: Scheme, text: &str) -> Vec<usize> {
    let is_end = |&(at, char): &(usize, char)| match (scheme, char) {
        (Scheme::Chars, _) | (_, '\n') => true,
        (Scheme::Crlf | Scheme::Lines, '\r') => !text[at..].starts_with("\r\n"),
        (Scheme::Lines, char) => "\u{B}\u{C}\u{85}\u{2028}\u{2029}".contains(char),
        _ => false,
    };
    let chars = text.char_indices().filter(is_end);
    chars.map(|(at, char)| at + char.len_utf8()).collect()
}

/// How many units a text has.
fn units(encoding: Encoding, text: &str) -> usize {
    match encoding {
        Encoding::Utf8 => text.len(),
        Encoding::Utf16 => text.encode_utf16().count(),
        Encoding::Utf32 => text.chars().count(),
    }
}

/// The greatest boundary with at most `most` units before it.
fn boundary_within(encoding: Encoding, text: &str, most: usize) -> usize {
    let mut taken = 0;
    let fits = |char: &char| {
        taken += units(encoding, char.encode_utf8(&mut [0; 4]));
        taken <= most
    };
    text.chars().take_while(fits).map(char::len_utf8).sum()
}

pub fn count(scheme: Scheme, text: &str) -> usize {
    match scheme {
        Scheme::Utf16 => units(Encoding::Utf16, text),
        _ => ends(scheme, text).len(),
    }
}

pub fn from_byte_idx(scheme: Scheme, text: &str, byte: usize) -> usize {
    match scheme {
        Scheme::Utf16 => units(Encoding::Utf16, &text[..floor(text, byte)]),
        _ => ends(scheme, text).into_iter().filter(|&end| end <= byte).count(),
    }
}

pub fn to_byte_idx(scheme: Scheme, text: &str, index: usize) -> usize {
    match (scheme, index) {
        (Scheme::Utf16, _) => boundary_within(Encoding::Utf16, text, index),
        (_, 0) => 0,
        _ => ends(scheme, text).get(index - 1).copied().unwrap_or(text.len()),
    }
}

/// The bytes of a line without its break.
pub fn line(text: &str, lines: LineType, line: usize) -> ops::Range<usize> {
    let [start, end] = [line, line.saturating_add(1)].map(|line| to_byte_idx(breaks(lines), text, line));
    start..start + content(lines, &text[start..end]).len()
}

pub fn position_of(text: &str, lines: LineType, encoding: Encoding, byte: usize) -> Position {
    let number = from_byte_idx(breaks(lines), text, byte);
    let bytes = line(text, lines, number);
    Position {
        line: number,
        character: units(encoding, &text[bytes.start..floor(text, byte).min(bytes.end)]),
    }
}

pub fn exact_position_of(text: &str, lines: LineType, encoding: Encoding, byte: usize) -> Option<Position> {
    let position = position_of(text, lines, encoding, byte);
    (byte_of(text, lines, encoding, position) == byte).then_some(position)
}

pub fn range_of(text: &str, lines: LineType, encoding: Encoding, span: ops::Range<usize>) -> Range {
    let [start, end] = [span.start, span.end].map(|byte| position_of(text, lines, encoding, byte));
    Range { start, end }
}

pub fn byte_of(text: &str, lines: LineType, encoding: Encoding, position: Position) -> usize {
    if position.line > count(breaks(lines), text) {
        return text.len();
    }
    let bytes = line(text, lines, position.line);
    bytes.start + boundary_within(encoding, &text[bytes], position.character)
}

pub fn exact_byte_of(text: &str, lines: LineType, encoding: Encoding, position: Position) -> Option<usize> {
    let byte = byte_of(text, lines, encoding, position);
    (position_of(text, lines, encoding, byte) == position).then_some(byte)
}

pub fn byte_range(text: &str, lines: LineType, encoding: Encoding, range: Range) -> Option<ops::Range<usize>> {
    let byte = |position| byte_of(text, lines, encoding, position);
    (range.start <= range.end).then(|| byte(range.start)..byte(range.end))
}

/// The scheme of a line type's breaks.
pub fn breaks(line_type: LineType) -> Scheme {
    match line_type {
        LineType::Lf => Scheme::Lf,
        LineType::Crlf => Scheme::Crlf,
        LineType::Lines => Scheme::Lines,
    }
}

/// The lines of a text, each with its break, and where each begins.
pub fn lines(line_type: LineType, text: &str) -> Vec<(usize, &str)> {
    let mut start = 0;
    let ends = ends(breaks(line_type), text).into_iter().chain([text.len()]);
    ends.map(|end| {
        let line = (start, &text[start..end]);
        start = end;
        line
    })
    .collect()
}

/// A line without its break.
pub fn content(line_type: LineType, line: &str) -> &str {
    let last = |line: &str| count(breaks(line_type), &line[floor(line, line.len().saturating_sub(1))..]);
    match line_type {
        LineType::Lf => line.strip_suffix('\n').unwrap_or(line),
        _ if last(line) == 0 => line,
        _ => {
            let cut = line.strip_suffix("\r\n");
            cut.unwrap_or_else(|| &line[..floor(line, line.len() - 1)])
        }
    }
}
