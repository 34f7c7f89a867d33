//! The calls whose names are those of the rope: worked answers, and random texts beside a walk by `std`. Each is asked of a
//! `TextIndex` and of an `OwnedIndex`.
#[path = "../../positions/tests/plain/mod.rs"]
mod plain;

use plain::{Numbers, ENCODINGS, LINE_TYPES};
use std::error::Error as _;
use std::fmt::Debug;
use std::sync::Arc;
use std::thread;
use str_index::{Encoding, LineType, Lines, NoMemory, OwnedIndex, Position, Range, Scheme, TextIndex};

/// Fourteen bytes: `a` at 0, CR LF at 1, a char of four at 3, of two at 7, a line separator at 9, `b` at 12, LF at 13.
const TEXT: &str = "a\r\n🐸é\u{2028}b\n";

const MOST: usize = usize::MAX;

fn index(text: &str) -> TextIndex<'_> {
    TextIndex::new(text).unwrap()
}

/// Asks about each byte index, from 0 to 14, and about one past the end.
fn at_each<T>(ask: impl Fn(usize) -> T) -> Vec<T> {
    (0..=15).map(ask).collect()
}

#[test]
fn worked_conversions() {
    let index = index(TEXT);
    assert_eq!((index.len(), index.len_chars(), index.len_utf16()), (14, 8, 9));
    assert_eq!(
        at_each(|byte| index.byte_to_char_idx(byte)),
        [0, 1, 2, 3, 3, 3, 3, 4, 4, 5, 5, 5, 6, 7, 8, 8]
    );
    assert_eq!(
        at_each(|byte| index.byte_to_utf16_idx(byte)),
        [0, 1, 2, 3, 3, 3, 3, 5, 5, 6, 6, 6, 7, 8, 9, 9]
    );
    assert_eq!(
        at_each(|char| index.char_to_byte_idx(char))[..10],
        [0, 1, 2, 3, 7, 9, 12, 13, 14, 14]
    );
    assert_eq!(
        at_each(|unit| index.utf16_to_byte_idx(unit))[..11],
        [0, 1, 2, 3, 3, 7, 9, 12, 13, 14, 14]
    );
    assert_eq!((index.char_to_byte_idx(MOST), index.utf16_to_byte_idx(MOST)), (14, 14));
}

#[test]
fn worked_boundaries() {
    let index = index(TEXT);
    assert_eq!(
        at_each(|byte| index.floor_char_boundary(byte)),
        [0, 1, 2, 3, 3, 3, 3, 7, 7, 9, 9, 9, 12, 13, 14, 14]
    );
    assert_eq!(
        at_each(|byte| index.ceil_char_boundary(byte)),
        [0, 1, 2, 3, 7, 7, 7, 7, 9, 9, 12, 12, 12, 13, 14, 14]
    );
    assert_eq!(
        (index.floor_char_boundary(MOST), index.ceil_char_boundary(MOST)),
        (14, 14)
    );
}

#[test]
fn worked_lines_by_lf() {
    let index = index(TEXT);
    let lines = ["a\r\n", "🐸é\u{2028}b\n", ""];
    assert_eq!(index.len_lines(LineType::Lf), 3);
    assert!(index.lines(LineType::Lf).eq(lines));
    assert_eq!(
        [0, 1, 2, 3].map(|line| index.line_to_byte_idx(line, LineType::Lf)),
        [0, 3, 14, 14]
    );
    assert_eq!(
        [0, 2, 3, 13, 14].map(|byte| index.byte_to_line_idx(byte, LineType::Lf)),
        [0, 0, 1, 1, 2]
    );
    assert_eq!(
        [0, 1, 2, MOST].map(|line| index.line_content(LineType::Lf, line)),
        [0..2, 3..13, 14..14, 14..14]
    );
}

#[test]
fn worked_lines_of_the_protocol() {
    let index = index(TEXT);
    let lines = [Some("a\r\n"), Some("🐸é\u{2028}b\n"), Some(""), None];
    assert_eq!([0, 1, 2, 3].map(|line| index.line(line, LineType::Crlf)), lines);
    assert_eq!(index.line(MOST, LineType::Crlf), None);
    assert_eq!(
        [0, 1, 2, MOST].map(|line| index.line_content(LineType::Crlf, line)),
        [0..1, 3..13, 14..14, 14..14]
    );
    assert_eq!(
        [0, 1, 2, MOST].map(|line| index.line_end(LineType::Crlf, line)),
        [1, 13, 14, 14]
    );
}

#[test]
fn worked_lines_by_every_break() {
    let index = index(TEXT);
    let lines = [Some("a\r\n"), Some("🐸é\u{2028}"), Some("b\n"), Some(""), None];
    assert_eq!(index.len_lines(LineType::Lines), 4);
    assert_eq!([0, 1, 2, 3, 4].map(|line| index.line(line, LineType::Lines)), lines);
    assert_eq!(
        [2, 3, 11, 12, 14, MOST].map(|byte| index.byte_to_line_idx(byte, LineType::Lines)),
        [0, 1, 1, 2, 3, 3]
    );
    assert_eq!(
        [0, 1, 2, 3, 4].map(|line| index.line_content(LineType::Lines, line)),
        [0..1, 3..9, 12..13, 14..14, 14..14]
    );
}

#[test]
fn worked_lines_of_an_empty_text() {
    let index = index("");
    for line_type in LINE_TYPES {
        assert_eq!(index.len_lines(line_type), 1);
        assert!(index.lines(line_type).eq([""]));
        assert_eq!((index.line(0, line_type), index.line(1, line_type)), (Some(""), None));
        assert_eq!(index.line_content(line_type, 0), 0..0);
    }
}

#[test]
fn worked_iterators_of_lines() {
    let index = index("one\ntwo\nthree\n");
    let mut lines = index.lines_at(1, LineType::Lf);
    assert_eq!((lines.line_idx(), lines.len()), (1, 3));
    assert_eq!(lines.next_back(), Some(""));
    assert_eq!(lines.next(), Some("two\n"));
    assert_eq!((lines.line_idx(), lines.size_hint()), (2, (1, Some(1))));
    assert_eq!(format!("{lines:?}"), r#"["three\n"]"#);
    let again = lines.clone();
    assert_eq!(lines.next_back(), Some("three\n"));
    assert_eq!((lines.next(), lines.next_back(), lines.next()), (None, None, None));
    assert!(again.eq(["three\n"]));
    assert_eq!(index.lines_at(MOST, LineType::Lf).len(), 0);
    assert_eq!(index.lines(LineType::Lf).nth(2), Some("three\n"));
    assert_eq!(index.lines(LineType::Lf).last(), Some(""));
}

/// Asks about a number, which is a byte index, a char index and a line index.
macro_rules! assert_number {
    ($index:expr, $text:expr, $number:expr) => {
        let (index, text, number) = (&$index, $text, $number);
        let before = &text[..plain::floor(text, number)];
        assert_eq!(index.byte_to_char_idx(number), before.chars().count());
        assert_eq!(index.byte_to_utf16_idx(number), before.encode_utf16().count());
        let char = text.char_indices().nth(number);
        assert_eq!(index.char_to_byte_idx(number), char.map_or(text.len(), |(at, _)| at));
        let unit = plain::to_byte_idx(Scheme::Utf16, text, number);
        assert_eq!(index.utf16_to_byte_idx(number), unit);
        for scheme in Scheme::ALL {
            assert_eq!(
                index.from_byte_idx(scheme, number),
                plain::from_byte_idx(scheme, text, number)
            );
            assert_eq!(
                index.to_byte_idx(scheme, number),
                plain::to_byte_idx(scheme, text, number)
            );
        }
        assert_eq!(index.is_char_boundary(number), text.is_char_boundary(number));
        assert_eq!(index.floor_char_boundary(number), before.len());
        let ceil = (number..text.len()).find(|&at| text.is_char_boundary(at));
        assert_eq!(index.ceil_char_boundary(number), ceil.unwrap_or(text.len()));
    };
}

/// Asks about the lines of a kind: all of them, and a number, which is a byte index and a line index.
macro_rules! assert_lines {
    ($index:expr, $text:expr, $line_type:expr, $number:expr) => {
        let (index, text, line_type, number) = (&$index, $text, $line_type, $number);
        let wanted = plain::lines(line_type, text);
        let lines: Vec<&str> = wanted.iter().map(|&(_, line)| line).collect();
        assert_eq!(index.len_lines(line_type), lines.len());
        assert_both_ways(index.lines(line_type), &lines);
        assert_both_ways(
            index.lines_at(number, line_type),
            lines.get(number..).unwrap_or_default(),
        );
        let line_idx = plain::from_byte_idx(plain::breaks(line_type), text, number);
        assert_eq!(index.byte_to_line_idx(number, line_type), line_idx);
        for line_idx in [number, number % lines.len()] {
            let found = wanted.get(line_idx).copied();
            assert_eq!(index.line(line_idx, line_type), found.map(|(_, line)| line));
            let (start, line) = found.unwrap_or((text.len(), ""));
            let end = start + plain::content(line_type, line).len();
            assert_eq!(index.line_to_byte_idx(line_idx, line_type), start);
            assert_eq!(index.line_content(line_type, line_idx), start..end);
            assert_eq!(index.line_end(line_type, line_idx), end);
        }
    };
}

/// Goes over the items from the front, from the back, and from both ends in turn.
fn assert_both_ways<'a, I>(items: I, wanted: &[&'a str])
where
    I: DoubleEndedIterator<Item = &'a str> + ExactSizeIterator + Clone + Debug,
{
    assert!(items.clone().eq(wanted.iter().copied()));
    assert!(items.clone().rev().eq(wanted.iter().rev().copied()));
    let (mut items, mut rest) = (items, wanted);
    while let [first, inner @ ..] = rest {
        assert_eq!((items.len(), items.next()), (rest.len(), Some(*first)));
        rest = inner;
        if let [inner @ .., last] = rest {
            assert_eq!((items.len(), items.next_back()), (rest.len(), Some(*last)));
            rest = inner;
        }
    }
    assert_eq!((items.len(), items.next(), items.next_back()), (0, None, None));
}

/// Asks about the position of a byte by a kind of line, and the bytes of that position and of another one.
macro_rules! assert_positions {
    ($index:expr, $text:expr, $lines:expr, $byte:expr, $position:expr) => {
        let (index, text, lines, byte) = (&$index, $text, $lines, $byte);
        for encoding in ENCODINGS {
            let here = plain::position_of(text, lines, encoding, byte);
            assert_eq!(index.position_of(lines, encoding, byte), here);
            let exact = plain::exact_position_of(text, lines, encoding, byte);
            assert_eq!(index.exact_position_of(lines, encoding, byte), exact);
            for position in [here, $position] {
                let of_position = plain::byte_of(text, lines, encoding, position);
                assert_eq!(index.byte_of(lines, encoding, position), of_position);
                let exact = plain::exact_byte_of(text, lines, encoding, position);
                assert_eq!(index.exact_byte_of(lines, encoding, position), exact);
                let range = plain::range_of(text, lines, encoding, byte..of_position);
                assert_eq!(index.range_of(lines, encoding, byte..of_position), range);
                let range = Range {
                    start: here,
                    end: position,
                };
                let bytes = plain::byte_range(text, lines, encoding, range);
                assert_eq!(index.byte_range(lines, encoding, range), bytes);
            }
        }
    };
}

#[test]
fn every_answer_is_that_of_a_walk() {
    let mut numbers = Numbers(20_261_130);
    for round in 0..40 {
        let text = numbers.text(if round % 4 == 0 { 4000 } else { 60 });
        let (lent, owned) = (index(&text), OwnedIndex::new(&*text).unwrap());
        assert_eq!((lent.len(), lent.is_empty()), (text.len(), text.is_empty()));
        assert_eq!((owned.len(), owned.is_empty()), (text.len(), text.is_empty()));
        assert_eq!(lent.len_chars(), text.chars().count());
        assert_eq!(owned.len_utf16(), text.encode_utf16().count());
        let inside = [0; 3].map(|_| numbers.below(text.len() + 1));
        for number in [0, text.len(), text.len() + 1, MOST].into_iter().chain(inside) {
            assert_number!(lent, &*text, number);
            assert_number!(owned, &*text, number);
            let (line, character) = (numbers.below(60), numbers.below(9));
            let position = Position { line, character };
            for line_type in LINE_TYPES {
                assert_lines!(lent, &*text, line_type, number);
                assert_lines!(owned, &*text, line_type, number);
                assert_positions!(lent, &*text, line_type, number, position);
                assert_positions!(owned, &*text, line_type, number, position);
            }
        }
    }
}

#[test]
fn clones_share_an_index_and_outlive_it() {
    let text = TEXT.repeat(1000);
    let one = index(&text);
    let (other, lines) = (one.clone(), one.lines(LineType::Lines));
    drop(one);
    assert_eq!(other.len_lines(LineType::Lines), 3001);
    drop(other);
    assert_eq!(lines.count(), 3001);
}

#[test]
fn owned_indexes_go_to_threads_and_share_their_text() {
    let text: Arc<str> = TEXT.repeat(1000).into();
    let index = OwnedIndex::new(Arc::clone(&text)).unwrap();
    let threads: Vec<_> = (0..8)
        .map(|number| {
            let index = index.clone();
            thread::spawn(move || index.line(3 * number, LineType::Lines).map(String::from))
        })
        .collect();
    assert!(Arc::ptr_eq(index.text(), &text));
    drop((index, text));
    for thread in threads {
        assert_eq!(thread.join().unwrap().as_deref(), Some("a\r\n"));
    }
}

#[test]
fn owned_indexes_take_a_text_of_each_type() {
    let indexes = [
        OwnedIndex::new(TEXT),
        OwnedIndex::new(String::from(TEXT)),
        OwnedIndex::new(Box::from(TEXT)),
        OwnedIndex::new(Arc::from(TEXT)),
    ];
    for index in indexes {
        let index = index.unwrap();
        assert_eq!((&**index.text(), index.as_index().text()), (TEXT, TEXT));
        assert_eq!(index.exact_position_of(LineType::Crlf, Encoding::Utf8, 2), None);
    }
}

#[test]
fn traits_of_an_index() {
    fn shared<T: Send + Sync + Clone + Debug>(_: &T) {}
    let (lent, owned) = (index("one"), OwnedIndex::new("two").unwrap());
    shared::<TextIndex<'_>>(&lent);
    shared::<OwnedIndex>(&owned);
    shared::<Lines<'_>>(&owned.lines(LineType::Lf));
    let texts: [&dyn AsRef<str>; 2] = [&lent, &owned];
    assert_eq!(texts.map(AsRef::as_ref), ["one", "two"]);
    assert_eq!(format!("{lent:?}"), "TextIndex { len: 3, .. }");
    assert_eq!(format!("{owned:?}"), "OwnedIndex { len: 3, .. }");
    assert_eq!(NoMemory.to_string(), "memory was refused");
    assert!(NoMemory.source().is_none());
}
