//! Worked answers, and every index of texts beside a walk by `std`, and their positions beside the plain functions.
#[path = "../../positions/tests/plain/mod.rs"]
mod plain;

use plain::{Numbers, ENCODINGS};
use std::thread;
use str_index::{Encoding, LineType, Position, Range, Scheme, TextIndex};
use str_indices_positions as whole;

/// 17 bytes: CR LF, a surrogate pair, CR, a char of three bytes, LF and LS.
const BREAKS: &str = "a\r\n🐸b\rせ\n\u{2028}x";

/// A line that ends in CR LF, one with a surrogate pair that ends in CR, one of a char of three bytes, an empty one, and
/// one that no break ends.
const LINES: &str = "a\r\n🐸b\rせ\n\nx";

/// How far marks are from each other.
const APART: usize = 1024;

const MOST: usize = usize::MAX;

fn index(text: &str) -> TextIndex<'_> {
    TextIndex::new(text).unwrap()
}

#[test]
fn worked_counts_and_conversions() {
    let index = index(BREAKS);
    assert_eq!((index.len(), index.is_empty(), index.text()), (17, false, BREAKS));
    assert_eq!(Scheme::ALL.map(|scheme| index.count(scheme)), [10, 11, 2, 3, 4]);
    for (byte, numbers) in [
        (0, [0, 0, 0, 0, 0]),
        (2, [2, 2, 0, 0, 0]),
        (3, [3, 3, 1, 1, 1]),
        (5, [3, 3, 1, 1, 1]),
        (7, [4, 5, 1, 1, 1]),
        (9, [6, 7, 1, 2, 2]),
        (13, [8, 9, 2, 3, 3]),
        (16, [9, 10, 2, 3, 4]),
        (MOST, [10, 11, 2, 3, 4]),
    ] {
        assert_eq!(
            Scheme::ALL.map(|scheme| index.from_byte_idx(scheme, byte)),
            numbers,
            "{byte}"
        );
    }
    for (number, bytes) in [
        (0, [0, 0, 0, 0, 0]),
        (1, [1, 1, 3, 3, 3]),
        (2, [2, 2, 13, 9, 9]),
        (3, [3, 3, 17, 13, 13]),
        (4, [7, 3, 17, 17, 16]),
        (5, [8, 7, 17, 17, 17]),
        (10, [17, 16, 17, 17, 17]),
        (MOST, [17, 17, 17, 17, 17]),
    ] {
        assert_eq!(
            Scheme::ALL.map(|scheme| index.to_byte_idx(scheme, number)),
            bytes,
            "{number}"
        );
    }
    let boundaries: Vec<usize> = (0..=18).filter(|&byte| index.is_char_boundary(byte)).collect();
    assert_eq!(boundaries, [0, 1, 2, 3, 7, 8, 9, 12, 13, 16, 17]);
}

#[test]
fn worked_positions() {
    let index = index(LINES);
    for (byte, line, characters) in [
        (0, 0, [0, 0, 0]),
        (2, 0, [1, 1, 1]),
        (6, 1, [0, 0, 0]),
        (7, 1, [4, 2, 1]),
        (8, 1, [5, 3, 2]),
        (12, 2, [3, 1, 1]),
        (13, 3, [0, 0, 0]),
        (MOST, 4, [1, 1, 1]),
    ] {
        let positions = characters.map(|character| Position { line, character });
        assert_eq!(
            ENCODINGS.map(|encoding| index.position_of(LineType::Crlf, encoding, byte)),
            positions,
            "{byte}"
        );
    }
    for (line, character, bytes, exact) in [
        (0, 1, [1, 1, 1], [Some(1), Some(1), Some(1)]),
        (0, 2, [1, 1, 1], [None, None, None]),
        (1, 1, [3, 3, 7], [None, None, Some(7)]),
        (1, 2, [3, 7, 8], [None, Some(7), Some(8)]),
        (1, 4, [7, 8, 8], [Some(7), None, None]),
        (2, 1, [9, 12, 12], [None, Some(12), Some(12)]),
        (5, 0, [15, 15, 15], [None, None, None]),
        (MOST, MOST, [15, 15, 15], [None, None, None]),
    ] {
        let position = Position { line, character };
        assert_eq!(
            ENCODINGS.map(|encoding| index.byte_of(LineType::Crlf, encoding, position)),
            bytes,
            "{position:?}"
        );
        assert_eq!(
            ENCODINGS.map(|encoding| index.exact_byte_of(LineType::Crlf, encoding, position)),
            exact,
            "{position:?}"
        );
    }
}

#[test]
fn worked_lines_and_ranges() {
    let index = index(LINES);
    let contents = [0, 1, 2, 3, 4, 5, MOST].map(|line| &LINES[index.line_content(LineType::Crlf, line)]);
    assert_eq!(contents, ["a", "🐸b", "せ", "", "x", "", ""]);
    assert_eq!(
        [0, 1, 2, 3, 4, 5, MOST].map(|line| index.line_end(LineType::Crlf, line)),
        [1, 8, 12, 13, 15, 15, 15]
    );
    let (start, end) = (Position { line: 1, character: 1 }, Position { line: 2, character: 2 });
    let ranges = ENCODINGS.map(|encoding| index.byte_range(LineType::Crlf, encoding, Range { start, end }));
    assert_eq!(ranges, [Some(3..9), Some(3..12), Some(7..12)]);
    let reversed = Range { start: end, end: start };
    assert_eq!(
        ENCODINGS.map(|encoding| index.byte_range(LineType::Crlf, encoding, reversed)),
        [None, None, None]
    );
}

#[test]
fn worked_kinds_of_lines() {
    // a break of each kind, and between CR and LF a byte that is a place where LF alone ends a line
    let index = index("a\u{2028}b\u{C}c\rd\r\ne\nf");
    let at = |line, character| Position { line, character };
    for (lines, contents, positions, middle) in [
        (
            LineType::Crlf,
            ["a\u{2028}b\u{C}c", "d", "e"],
            [at(0, 1), at(0, 3), at(1, 0), at(2, 0)],
            None,
        ),
        (
            LineType::Lf,
            ["a\u{2028}b\u{C}c\rd\r", "e", "f"],
            [at(0, 1), at(0, 3), at(0, 6), at(1, 0)],
            Some(at(0, 8)),
        ),
        (
            LineType::Lines,
            ["a", "b", "c"],
            [at(0, 1), at(1, 1), at(3, 0), at(4, 0)],
            None,
        ),
    ] {
        let e = Encoding::Utf16;
        assert_eq!(
            [0, 1, 2].map(|line| &index.text()[index.line_content(lines, line)]),
            contents
        );
        assert_eq!([2, 5, 8, 11].map(|byte| index.position_of(lines, e, byte)), positions);
        assert_eq!(index.exact_position_of(lines, e, 10), middle);
        assert_eq!(
            [2, MOST].map(|byte| index.exact_position_of(lines, e, byte)),
            [None, None]
        );
        let range = Range {
            start: positions[1],
            end: positions[3],
        };
        assert_eq!(index.range_of(lines, e, 5..11), range);
        assert_eq!(index.byte_range(lines, e, range), Some(5..11));
        assert_eq!([1, 2, 3].map(|i| index.byte_of(lines, e, positions[i])), [5, 8, 11]);
        let exact = [1, 2, 3].map(|i| index.exact_byte_of(lines, e, positions[i]));
        assert_eq!(exact, [Some(5), Some(8), Some(11)]);
        // past the end of the second line
        assert_eq!(index.exact_byte_of(lines, e, at(1, 4)), None);
    }
}

/// All questions at a number: that byte, that index, that line and offsets on it.
fn try_number(index: &TextIndex, at: usize) {
    let text = index.text();
    for scheme in Scheme::ALL {
        let (from, to) = (
            plain::from_byte_idx(scheme, text, at),
            plain::to_byte_idx(scheme, text, at),
        );
        assert_eq!(index.count(scheme), plain::count(scheme, text), "{scheme:?}");
        assert_eq!(index.from_byte_idx(scheme, at), from, "{scheme:?} {at}");
        assert_eq!(index.to_byte_idx(scheme, at), to, "{scheme:?} {at}");
    }
    assert_eq!(index.is_char_boundary(at), text.is_char_boundary(at), "{at}");
    let end = whole::line_end(text, LineType::Crlf, at);
    assert_eq!(index.line_end(LineType::Crlf, at), end, "{at}");
    let content = plain::line(text, LineType::Crlf, at);
    assert_eq!(index.line_content(LineType::Crlf, at), content, "{at}");
    for encoding in ENCODINGS {
        try_positions(index, encoding, at);
    }
}

fn try_positions(index: &TextIndex, encoding: Encoding, at: usize) {
    let text = index.text();
    let here = index.position_of(LineType::Crlf, encoding, at);
    assert_eq!(
        here,
        whole::position_of(text, LineType::Crlf, encoding, at),
        "{encoding:?} {at}"
    );
    let start = Position {
        line: at % 61,
        character: at % 13,
    };
    for end in [
        here,
        start,
        Position {
            line: here.line,
            character: here.character + 1,
        },
        Position { line: at, character: 1 },
    ] {
        assert_eq!(
            index.byte_of(LineType::Crlf, encoding, end),
            whole::byte_of(text, LineType::Crlf, encoding, end),
            "{encoding:?} {end:?}"
        );
        assert_eq!(
            index.exact_byte_of(LineType::Crlf, encoding, end),
            whole::exact_byte_of(text, LineType::Crlf, encoding, end),
            "{encoding:?} {end:?}"
        );
        let range = Range { start, end };
        assert_eq!(
            index.byte_range(LineType::Crlf, encoding, range),
            whole::byte_range(text, LineType::Crlf, encoding, range),
            "{encoding:?} {range:?}"
        );
    }
}

fn try_text(text: &str) {
    let index = index(text);
    assert_eq!((index.len(), index.is_empty()), (text.len(), text.is_empty()));
    for at in (0..=text.len() + 2).chain([MOST - 1, MOST]) {
        try_number(&index, at);
    }
}

#[test]
fn short_texts_and_texts_about_a_mark() {
    for len in [0, 1, APART - 1, APART, APART + 1, 2 * APART] {
        try_text(&"a".repeat(len));
    }
}

#[test]
fn chars_and_breaks_across_the_places_of_marks() {
    for across in ["\r\n", "\r\r\n", "🐸", "せ", "\u{85}", "\u{2029}", "🐸\r\n🐸"] {
        for shift in 0..=across.len() {
            let text = "ab\n".repeat(APART)[..APART - shift].to_owned() + across;
            try_text(&text);
        }
    }
}

#[test]
fn random_texts_beside_a_walk() {
    let mut numbers = Numbers(20_261_128);
    for _ in 0..30 {
        let text = numbers.text(3000);
        let index = index(&text);
        for _ in 0..100 {
            let at = numbers.below(text.len() + 3);
            let position = Position {
                line: numbers.below(300),
                character: numbers.below(20),
            };
            for scheme in Scheme::ALL {
                assert_eq!(index.count(scheme), plain::count(scheme, &text));
                assert_eq!(index.from_byte_idx(scheme, at), plain::from_byte_idx(scheme, &text, at));
                assert_eq!(index.to_byte_idx(scheme, at), plain::to_byte_idx(scheme, &text, at));
            }
            for encoding in ENCODINGS {
                assert_eq!(
                    index.position_of(LineType::Crlf, encoding, at),
                    plain::position_of(&text, LineType::Crlf, encoding, at)
                );
                assert_eq!(
                    index.byte_of(LineType::Crlf, encoding, position),
                    plain::byte_of(&text, LineType::Crlf, encoding, position)
                );
                assert_eq!(
                    index.exact_byte_of(LineType::Crlf, encoding, position),
                    plain::exact_byte_of(&text, LineType::Crlf, encoding, position)
                );
            }
        }
    }
}

#[test]
fn threads_ask_one_index_and_another_frees_it() {
    let text = LINES.repeat(5000);
    let index = index(&text);
    thread::scope(|scope| {
        for first in 0..8 {
            let index = &index;
            scope.spawn(move || {
                for number in (first..5000).step_by(8) {
                    let line = 4 * number;
                    let start = number * LINES.len();
                    assert_eq!(index.line(line + 1, LineType::Crlf), Some("🐸b\r"));
                    assert_eq!(index.to_byte_idx(Scheme::Crlf, line + 1), start + 3);
                    assert_eq!(index.from_byte_idx(Scheme::Lf, start + 13), 3 * number + 2);
                    let position = index.position_of(LineType::Crlf, Encoding::Utf16, start + 7);
                    assert_eq!(
                        position,
                        Position {
                            line: line + 1,
                            character: 2
                        }
                    );
                }
            });
        }
    });
    thread::scope(|scope| scope.spawn(move || drop(index)).join().unwrap());
}
