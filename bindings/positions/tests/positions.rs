//! Positions of a text whose lines end in CR LF, in CR, in LF twice and in nothing, worked by the protocol's rules; lines and
//! positions by each kind of line; and random texts beside a walk by `std`.
mod plain;

use plain::{Numbers, ENCODINGS, LINE_TYPES};
use str_indices_positions::{
    byte_of, byte_range, exact_byte_of, exact_position_of, line, line_end, position_of, range_of, Encoding,
    LineType::{self, Crlf},
    Position, Range, Scheme,
};

const UTF16: Encoding = Encoding::Utf16;

const TEXT: &str = "a\r\n🐸b\rせ\n\nx";

/// The byte indices that have a position, in order, and their positions.
const PLACES: [(usize, usize, usize); 10] = [
    (0, 0, 0),
    (1, 0, 1),
    (3, 1, 0),
    (7, 1, 2),
    (8, 1, 3),
    (9, 2, 0),
    (12, 2, 1),
    (13, 3, 0),
    (14, 4, 0),
    (15, 4, 1),
];

#[test]
fn each_byte_has_the_position_of_the_place_at_or_before_it() {
    for byte in (0..=TEXT.len() + 1).chain([usize::MAX]) {
        let &(place, line, character) = PLACES.iter().rfind(|row| row.0 <= byte).unwrap();
        let position = Position { line, character };
        assert_eq!(position_of(TEXT, Crlf, UTF16, byte), position, "{byte}");
        assert_eq!(byte_of(TEXT, Crlf, UTF16, position), place, "{byte}");
    }
}

#[test]
fn each_position_has_the_byte_of_the_place_at_or_before_it() {
    for line in (0..=5).chain([usize::MAX]) {
        for character in (0..=4).chain([usize::MAX]) {
            let position = Position { line, character };
            let at_or_before = |row: &&(usize, usize, usize)| (row.1, row.2) <= (line, character);
            let place = PLACES.iter().rfind(at_or_before).unwrap().0;
            assert_eq!(byte_of(TEXT, Crlf, UTF16, position), place, "{position:?}");
        }
    }
}

#[test]
fn lines_end_before_their_breaks() {
    for (line, end) in [(0, 1), (1, 8), (2, 12), (3, 13), (4, 15), (5, 15), (usize::MAX, 15)] {
        assert_eq!(line_end(TEXT, Crlf, line), end, "{line}");
    }
    assert_eq!(line_end("", Crlf, 0), 0);
}

#[test]
fn offsets_are_counted_in_the_units_of_the_encoding() {
    // a byte index, its line, and its offset in UTF-8, UTF-16 and UTF-32
    let positions = [
        (2, 0, [1, 1, 1]),
        (6, 1, [0, 0, 0]),
        (7, 1, [4, 2, 1]),
        (8, 1, [5, 3, 2]),
        (11, 2, [0, 0, 0]),
        (12, 2, [3, 1, 1]),
        (usize::MAX, 4, [1, 1, 1]),
    ];
    // a line, an offset on it, and the byte that these mean in UTF-8, UTF-16 and UTF-32
    let bytes = [
        (0, 2, [1, 1, 1]),
        (1, 1, [3, 3, 7]),
        (1, 2, [3, 7, 8]),
        (1, 3, [3, 8, 8]),
        (1, 4, [7, 8, 8]),
        (1, 9, [8, 8, 8]),
        (2, 1, [9, 12, 12]),
        (2, 3, [12, 12, 12]),
        (5, 0, [15, 15, 15]),
    ];
    for (nth, encoding) in ENCODINGS.into_iter().enumerate() {
        for (byte, line, characters) in positions {
            let character = characters[nth];
            let position = Position { line, character };
            assert_eq!(position_of(TEXT, Crlf, encoding, byte), position, "{encoding:?}");
        }
        for (line, character, places) in bytes {
            let byte = byte_of(TEXT, Crlf, encoding, Position { line, character });
            assert_eq!(byte, places[nth], "{encoding:?} {line}:{character}");
        }
    }
}

#[test]
fn a_position_that_names_no_place_has_no_exact_byte() {
    // a line, an offset on it, and the byte that these name in UTF-8, UTF-16 and UTF-32
    let bytes = [
        (0, 1, [Some(1), Some(1), Some(1)]),
        (0, 2, [None, None, None]),
        (1, 1, [None, None, Some(7)]),
        (1, 2, [None, Some(7), Some(8)]),
        (1, 4, [Some(7), None, None]),
        (2, 1, [None, Some(12), Some(12)]),
        (3, 0, [Some(13), Some(13), Some(13)]),
        (5, 0, [None, None, None]),
        (usize::MAX, usize::MAX, [None, None, None]),
    ];
    for (nth, encoding) in ENCODINGS.into_iter().enumerate() {
        for (line, character, places) in bytes {
            let byte = exact_byte_of(TEXT, Crlf, encoding, Position { line, character });
            assert_eq!(byte, places[nth], "{encoding:?} {line}:{character}");
        }
    }
}

#[test]
fn a_range_has_the_bytes_of_its_ends_in_order() {
    for (_, line, character) in PLACES {
        for (_, next, offset) in PLACES {
            let start = Position { line, character };
            let end = Position {
                line: next,
                character: offset,
            };
            let bytes = (start <= end).then(|| byte_of(TEXT, Crlf, UTF16, start)..byte_of(TEXT, Crlf, UTF16, end));
            assert_eq!(
                byte_range(TEXT, Crlf, UTF16, Range { start, end }),
                bytes,
                "{start:?} to {end:?}"
            );
        }
    }
    let inside = Range {
        start: Position { line: 1, character: 1 },
        end: Position { line: 2, character: 2 },
    };
    assert_eq!(byte_range(TEXT, Crlf, Encoding::Utf8, inside), Some(3..9));
    assert_eq!(byte_range(TEXT, Crlf, Encoding::Utf16, inside), Some(3..12));
    assert_eq!(byte_range(TEXT, Crlf, Encoding::Utf32, inside), Some(7..12));
}

#[test]
fn a_byte_that_is_no_place_has_no_exact_position() {
    for byte in (0..=TEXT.len() + 1).chain([usize::MAX]) {
        let place = PLACES.iter().find(|row| row.0 == byte);
        let position = place.map(|&(_, line, character)| Position { line, character });
        assert_eq!(exact_position_of(TEXT, Crlf, UTF16, byte), position, "{byte}");
    }
    // inside the CR LF, at a char of four bytes, in it and after it, inside one of three and after it
    let places = |encoding| [2, 3, 4, 7, 10, 12].map(|byte| exact_position_of(TEXT, Crlf, encoding, byte));
    let at = |line, character| Some(Position { line, character });
    assert_eq!(places(Encoding::Utf8), [None, at(1, 0), None, at(1, 4), None, at(2, 3)]);
    assert_eq!(
        places(Encoding::Utf16),
        [None, at(1, 0), None, at(1, 2), None, at(2, 1)]
    );
    assert_eq!(
        places(Encoding::Utf32),
        [None, at(1, 0), None, at(1, 1), None, at(2, 1)]
    );
}

#[test]
fn a_span_has_the_positions_of_its_ends() {
    let range = |line, character, next, offset| Range {
        start: Position { line, character },
        end: Position {
            line: next,
            character: offset,
        },
    };
    // the frog with the break before it, one end inside it, and the ends the wrong way round
    let spans = [(2, 7), (5, usize::MAX), (12, 1)].map(|(from, to)| range_of(TEXT, Crlf, UTF16, from..to));
    assert_eq!(spans, [range(0, 1, 1, 2), range(1, 0, 4, 1), range(2, 1, 0, 1)]);
    assert_eq!(range_of(TEXT, Crlf, Encoding::Utf8, 2..7), range(0, 1, 1, 4));
    assert_eq!(range_of(TEXT, Crlf, Encoding::Utf32, 2..7), range(0, 1, 1, 1));
}

const LINES: &str = "a\r\nb\u{2028}c\rd";

#[test]
fn each_kind_of_line_has_its_own_breaks() {
    // the contents of the first four lines, and the positions of the bytes 2, 4, 6, 7 and 9
    for (lines, contents, positions) in [
        (
            LineType::Lf,
            [0..2, 3..10, 10..10, 10..10],
            [(0, 2), (1, 1), (1, 1), (1, 2), (1, 4)],
        ),
        (
            LineType::Crlf,
            [0..1, 3..8, 9..10, 10..10],
            [(0, 1), (1, 1), (1, 1), (1, 2), (2, 0)],
        ),
        (
            LineType::Lines,
            [0..1, 3..4, 7..8, 9..10],
            [(0, 1), (1, 1), (1, 1), (2, 0), (3, 0)],
        ),
    ] {
        assert_eq!([0, 1, 2, 3].map(|nth| line(LINES, lines, nth)), contents, "{lines:?}");
        assert_eq!(
            [0, 1, 2, 3].map(|nth| line_end(LINES, lines, nth)),
            contents.map(|bytes| bytes.end)
        );
        assert_eq!(line(LINES, lines, usize::MAX), 10..10);
        let positions = positions.map(|(line, character)| Position { line, character });
        assert_eq!(
            [2, 4, 6, 7, 9].map(|byte| position_of(LINES, lines, UTF16, byte)),
            positions,
            "{lines:?}"
        );
        // the byte 6 is inside a char
        let places = [4, 6, 7, 9].map(|byte| exact_position_of(LINES, lines, UTF16, byte));
        assert_eq!(
            places,
            [Some(positions[1]), None, Some(positions[3]), Some(positions[4])]
        );
        let (start, end) = (positions[1], positions[4]);
        assert_eq!(range_of(LINES, lines, UTF16, 4..9), Range { start, end }, "{lines:?}");
        assert_eq!(
            byte_range(LINES, lines, UTF16, Range { start, end }),
            Some(4..9),
            "{lines:?}"
        );
        assert_eq!(byte_range(LINES, lines, UTF16, Range { start: end, end: start }), None);
        assert_eq!(
            [1, 3, 4].map(|nth| byte_of(LINES, lines, UTF16, positions[nth])),
            [4, 7, 9],
            "{lines:?}"
        );
        assert_eq!(
            [1, 3, 4].map(|nth| exact_byte_of(LINES, lines, UTF16, positions[nth])),
            [Some(4), Some(7), Some(9)]
        );
    }
    // past the end of a line: its end, and no place
    let past = Position { line: 1, character: 9 };
    let bytes = LINE_TYPES.map(|lines| byte_of(LINES, lines, UTF16, past));
    assert_eq!(bytes, [10, 8, 4]);
    assert_eq!(
        LINE_TYPES.map(|lines| exact_byte_of(LINES, lines, UTF16, past)),
        [None; 3]
    );
    // a CR is of the line by LF alone
    let at = Position { line: 0, character: 2 };
    assert_eq!(
        LINE_TYPES.map(|lines| exact_byte_of(LINES, lines, UTF16, at)),
        [Some(2), None, None]
    );
    assert_eq!(
        LINE_TYPES.map(|lines| exact_position_of(LINES, lines, UTF16, 2)),
        [Some(at), None, None]
    );
}

#[test]
fn all_schemes_are_in_the_order_of_their_numbers() {
    for (number, scheme) in Scheme::ALL.into_iter().enumerate() {
        assert_eq!(scheme as usize, number);
    }
}

#[test]
fn a_kind_of_line_has_the_scheme_of_its_breaks() {
    assert_eq!(LINE_TYPES.map(Scheme::from), [Scheme::Lf, Scheme::Crlf, Scheme::Lines]);
    assert_eq!(LineType::default(), Crlf);
}

#[test]
fn random_texts_answer_as_a_walk_by_std() {
    let mut numbers = Numbers(4);
    for _ in 0..120 {
        let text = numbers.text(24);
        for lines in LINE_TYPES {
            for nth in 0..text.len() + 2 {
                assert_eq!(
                    line(&text, lines, nth),
                    plain::line(&text, lines, nth),
                    "{text:?} {nth}"
                );
                assert_eq!(
                    line_end(&text, lines, nth),
                    plain::line(&text, lines, nth).end,
                    "{text:?} {nth}"
                );
            }
            for encoding in ENCODINGS {
                compare_positions(&text, lines, encoding, &mut numbers);
            }
        }
    }
}

/// Compares the position of each byte, and the byte of each position near one.
fn compare_positions(text: &str, lines: LineType, encoding: Encoding, numbers: &mut Numbers) {
    let what = format!("{text:?} {lines:?} {encoding:?}");
    for byte in 0..text.len() + 2 {
        let here = plain::position_of(text, lines, encoding, byte);
        assert_eq!(position_of(text, lines, encoding, byte), here, "{what} {byte}");
        let exact = plain::exact_position_of(text, lines, encoding, byte);
        assert_eq!(exact_position_of(text, lines, encoding, byte), exact, "{what} {byte}");
        let span = byte..numbers.anywhere(text);
        let range = plain::range_of(text, lines, encoding, span.clone());
        assert_eq!(range_of(text, lines, encoding, span), range, "{what} {byte}");
        let there = Position {
            line: numbers.below(here.line + 2),
            character: numbers.below(here.character + 3),
        };
        assert_eq!(
            byte_of(text, lines, encoding, there),
            plain::byte_of(text, lines, encoding, there),
            "{what} {there:?}"
        );
        assert_eq!(
            exact_byte_of(text, lines, encoding, there),
            plain::exact_byte_of(text, lines, encoding, there),
            "{what} {there:?}"
        );
        let range = Range {
            start: here,
            end: there,
        };
        assert_eq!(
            byte_range(text, lines, encoding, range),
            plain::byte_range(text, lines, encoding, range),
            "{what} {range:?}"
        );
    }
}
