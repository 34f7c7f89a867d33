//! Worked answers, from the documentation and the tests of the original. Each public function is called.
use str_indices::{chars, lines, lines_crlf, lines_lf, utf16};

type Convert = fn(&str, usize) -> usize;

/// 45 bytes, 23 chars, 27 UTF-16 code units.
const FROGS: &str = "Hel🐸lo world! こん🐸にち🐸🐸は!";

/// 124 bytes, 100 chars, 4 lines.
const GREETING: &str = "Hello there!  How're you doing?\nIt's a fine day, isn't it?\nAren't you glad we're alive?\n\
                        こんにちは、みんなさん！";

const CRLF: &str = "Here\r\nare\r\nsome\r\nwords";

const LINE_FEEDS: &str = "\nHere\nare\nsome\nwords\n";

/// One of each line break of Unicode, a CR by itself besides.
const ALL_BREAKS: &str = "\u{A}Hello\u{D}\u{A}\u{D}せ\u{B}か\u{C}い\u{85}. There\u{2028}is something.\u{2029}";

fn assert_answers(convert: Convert, text: &str, rows: &[(usize, usize)]) {
    for &(index, answer) in rows {
        assert_eq!(convert(text, index), answer, "{text:?} at {index}");
    }
}

#[test]
fn counts() {
    assert_eq!(chars::count(GREETING), 100);
    assert_eq!(chars::count(FROGS), 23);
    assert_eq!(utf16::count(FROGS), 27);
    assert_eq!(utf16::count_surrogates(FROGS), 4);
    assert_eq!(lines_lf::count_breaks(CRLF), 3);
    assert_eq!(lines_lf::count_breaks("\r\r\n\n"), 2);
    assert_eq!(lines_crlf::count_breaks("\r\r\n\n"), 3);
    assert_eq!(lines_crlf::count_breaks("a\u{2028}b"), 0);
    assert_eq!(lines::count_breaks(ALL_BREAKS), 8);
}

#[test]
fn conversions_of_chars() {
    let rows = [(0, 0), (2, 0), (3, 1), (8, 2), (9, 3), (12, 3)];
    assert_answers(chars::from_byte_idx, "せかい", &rows);
    assert_answers(chars::from_byte_idx, FROGS, &[(5, 3), (7, 4), (45, 23), (99, 23)]);
    let rows = [(0, 0), (87, 87), (88, 88), (99, 121), (100, 124), (109, 124)];
    assert_answers(chars::to_byte_idx, GREETING, &rows);
    assert_answers(
        chars::to_byte_idx,
        FROGS,
        &[(3, 3), (4, 7), (22, 44), (23, 45), (24, 45)],
    );
}

#[test]
fn conversions_of_utf16() {
    let rows = [(0, 0), (3, 3), (6, 3), (7, 5), (26, 17), (27, 19), (45, 27), (46, 27)];
    assert_answers(utf16::from_byte_idx, FROGS, &rows);
    let rows = [(0, 0), (4, 3), (5, 7), (17, 23), (18, 23), (19, 27), (27, 45), (28, 45)];
    assert_answers(utf16::to_byte_idx, FROGS, &rows);
}

#[test]
fn conversions_of_lines() {
    let from: [Convert; 3] = [lines_lf::from_byte_idx, lines_crlf::from_byte_idx, lines::from_byte_idx];
    let to: [Convert; 3] = [lines_lf::to_byte_idx, lines_crlf::to_byte_idx, lines::to_byte_idx];
    for convert in from {
        assert_answers(
            convert,
            CRLF,
            &[(0, 0), (5, 0), (6, 1), (11, 2), (16, 2), (17, 3), (99, 3)],
        );
        assert_answers(convert, LINE_FEEDS, &[(0, 0), (1, 1), (5, 1), (6, 2), (20, 4), (21, 5)]);
    }
    for convert in to {
        assert_answers(convert, CRLF, &[(0, 0), (1, 6), (2, 11), (3, 17), (4, 22)]);
        assert_answers(
            convert,
            LINE_FEEDS,
            &[(0, 0), (1, 1), (2, 6), (4, 15), (5, 21), (6, 21)],
        );
    }
}

#[test]
fn what_is_a_break_differs() {
    assert_answers(
        lines_lf::from_byte_idx,
        "\r\r\n\n",
        &[(0, 0), (1, 0), (2, 0), (3, 1), (4, 2)],
    );
    assert_answers(
        lines_crlf::from_byte_idx,
        "\r\r\n\n",
        &[(0, 0), (1, 1), (2, 1), (3, 2), (4, 3)],
    );
    assert_answers(lines_lf::to_byte_idx, "\r\r\n\n", &[(1, 3), (2, 4), (3, 4)]);
    assert_answers(
        lines_crlf::to_byte_idx,
        "\r\r\n\n",
        &[(0, 0), (1, 1), (2, 3), (3, 4), (4, 4)],
    );
    assert_answers(lines_crlf::from_byte_idx, "a\u{2028}b", &[(4, 0), (5, 0)]);
    assert_answers(lines_crlf::to_byte_idx, "a\u{2028}b", &[(1, 5)]);
    assert_answers(lines::to_byte_idx, "a\u{2028}b", &[(1, 4)]);
    assert_answers(lines::from_byte_idx, "é\u{85}x", &[(2, 0), (3, 0), (4, 1)]);
}

#[test]
fn the_empty_text() {
    let counts = [chars::count, utf16::count, utf16::count_surrogates];
    let breaks = [lines_lf::count_breaks, lines_crlf::count_breaks, lines::count_breaks];
    for count in counts.into_iter().chain(breaks) {
        assert_eq!(count(""), 0);
    }
    let from: [Convert; 2] = [chars::from_byte_idx, lines::from_byte_idx];
    let to: [Convert; 2] = [utf16::to_byte_idx, lines_crlf::to_byte_idx];
    for convert in from.into_iter().chain(to) {
        assert_answers(convert, "", &[(0, 0), (usize::MAX, 0)]);
    }
}

#[test]
fn long_texts() {
    // 4,500 bytes, 2,300 chars and 2,700 units
    let frogs = FROGS.repeat(100);
    assert_eq!(chars::count(&frogs), 2300);
    assert_answers(chars::from_byte_idx, &frogs, &[(1000, 513), (4499, 2299), (4500, 2300)]);
    assert_answers(chars::to_byte_idx, &frogs, &[(511, 998), (2299, 4499), (2300, 4500)]);
    assert_eq!(utf16::count(&frogs), 2700);
    assert_eq!(utf16::count_surrogates(&frogs), 400);
    assert_answers(utf16::from_byte_idx, &frogs, &[(4482, 2692), (4500, 2700)]);
    assert_answers(utf16::to_byte_idx, &frogs, &[(2691, 4478), (2692, 4482), (2700, 4500)]);

    // 4,400 bytes and 600 breaks, the last of which ends at 4,395
    let crlf = CRLF.repeat(200);
    let from: [Convert; 3] = [lines_lf::from_byte_idx, lines_crlf::from_byte_idx, lines::from_byte_idx];
    let to: [Convert; 3] = [lines_lf::to_byte_idx, lines_crlf::to_byte_idx, lines::to_byte_idx];
    for count in [lines_lf::count_breaks, lines_crlf::count_breaks, lines::count_breaks] {
        assert_eq!(count(&crlf), 600);
    }
    for convert in from {
        assert_answers(convert, &crlf, &[(4394, 599), (4395, 600), (4400, 600)]);
    }
    for convert in to {
        assert_answers(convert, &crlf, &[(599, 4389), (600, 4395), (601, 4400)]);
    }
}
