//! Refusals, traits that other crates expect of a text, and memory.
mod model;
use model::{joined, Numbers, ENCODINGS};
use std::error::Error as _;
use std::fs;
use std::ops;
use str_indices_positions as whole;
use str_rope::{Encoding, Error, LineType, Position, Range, Rope, MAX_CHUNK};

/// Nine bytes: a break of two, and a char of four.
const TEXT: &str = "a\r\n🐸bc";

fn rope() -> Rope {
    TEXT.parse().unwrap()
}

#[test]
fn a_change_is_refused_and_the_text_stays() {
    let mut rope = rope();
    let (after, before) = (Position { line: 1, character: 2 }, Position { line: 1, character: 0 });
    let reversed = Range {
        start: after,
        end: before,
    };
    assert_eq!(rope.insert(4, "x"), Err(Error::NotBoundary));
    assert_eq!(rope.insert(10, "x"), Err(Error::NotBoundary));
    assert_eq!(rope.insert(usize::MAX, ""), Err(Error::NotBoundary));
    assert_eq!(rope.remove(ops::Range { start: 5, end: 4 }), Err(Error::NotOrdered));
    assert_eq!(rope.remove(3..5), Err(Error::NotBoundary));
    assert_eq!(rope.remove(3..=usize::MAX), Err(Error::NotBoundary));
    assert_eq!(rope.replace(4..7, "x"), Err(Error::NotBoundary));
    assert_eq!(rope.replace(11.., "x"), Err(Error::NotOrdered));
    assert_eq!(rope.split_off(6).unwrap_err(), Error::NotBoundary);
    assert_eq!(rope.change(Encoding::Utf16, reversed, "x"), Err(Error::NotOrdered));
    assert_eq!(rope.byte_range(LineType::Crlf, Encoding::Utf16, reversed), None);
    assert_eq!(rope, TEXT);
}

#[test]
fn a_copy_is_refused_and_the_room_stays() {
    let rope = rope();
    let mut room = *b"....";
    assert_eq!(rope.copy_to(.., &mut room), Err(Error::TooLong));
    assert_eq!(rope.copy_to(4..7, &mut room), Err(Error::NotBoundary));
    assert_eq!(
        rope.copy_to(ops::Range { start: 3, end: 1 }, &mut room),
        Err(Error::NotOrdered)
    );
    assert_eq!(&room, b"....");
    assert_eq!(rope.copy_to(3..7, &mut room), Ok(4));
    assert_eq!(&room, "🐸".as_bytes());
    assert_eq!(rope.text_in(2..5), Err(Error::NotBoundary));
    assert_eq!(rope.text_in(3..99), Err(Error::NotBoundary));
    assert_eq!(rope.slice(ops::Range { start: 9, end: 3 }), Err(Error::NotOrdered));
    assert_eq!(rope.slice(4..), Err(Error::NotBoundary));
    assert_eq!(rope.slice(3..=usize::MAX), Err(Error::NotBoundary));
    let slice = rope.slice(3..8).unwrap();
    assert_eq!(slice.slice(4..6), Err(Error::NotBoundary));
    assert_eq!(slice.slice(ops::Range { start: 4, end: 0 }), Err(Error::NotOrdered));
    assert_eq!(slice.copy_to(.., &mut room), Err(Error::TooLong));
    assert_eq!(slice.copy_to(..2, &mut room), Err(Error::NotBoundary));
}

#[test]
fn ranges_are_those_of_std() {
    let rope = rope();
    assert_eq!(rope.text_in(..).as_deref(), Ok(TEXT));
    assert_eq!(rope.text_in(..=2).as_deref(), Ok("a\r\n"));
    assert_eq!(rope.text_in(7..).as_deref(), Ok("bc"));
    let after_b = (ops::Bound::Excluded(7), ops::Bound::Unbounded);
    assert_eq!(rope.text_in(after_b).as_deref(), Ok("c"));
    assert_eq!(rope.text_in(9..).as_deref(), Ok(""));
}

#[test]
fn an_error_tells_what_it_is() {
    let errors = [Error::NotOrdered, Error::NotBoundary, Error::TooLong, Error::NoMemory];
    let told: Vec<String> = errors.iter().map(Error::to_string).collect();
    assert_eq!(told[0], "the end of a range is before its start");
    assert!((1..4).all(|one| !told[..one].contains(&told[one])));
    assert!(Error::NoMemory.source().is_none());
}

#[test]
fn the_empty_text() {
    let mut rope = Rope::default();
    assert!(rope.is_empty() && rope.chunks().next().is_none() && rope.chunk_at(0).is_none());
    assert_eq!(
        (
            rope.len_chars(),
            rope.len_lines(LineType::Lines),
            rope.char_to_byte_idx(7)
        ),
        (0, 1, 0)
    );
    assert_eq!(
        rope.position_of(LineType::Crlf, Encoding::Utf16, 7),
        Position { line: 0, character: 0 }
    );
    rope.assign(TEXT).unwrap();
    rope.remove(..).unwrap();
    assert_eq!((&rope, rope.to_string()), (&Rope::new(), String::new()));
    let mut rest = rope.split_off(0).unwrap();
    rope.append(&mut rest).unwrap();
    assert_eq!(rope, "");
}

#[test]
fn it_is_written_as_the_text_is() {
    let mut numbers = Numbers(3);
    for _ in 0..50 {
        let text = numbers.text(2000) + "'\"\\\u{301}";
        let rope = Rope::from(&text);
        assert_eq!(rope.to_string(), text);
        assert_eq!(format!("{rope:?}"), format!("{text:?}"));
        assert_eq!(String::from(&rope), text);
    }
}

#[test]
fn equal_texts_in_other_pieces_are_equal() {
    let mut numbers = Numbers(4);
    let text = numbers.text(9000);
    let whole: Rope = text.parse().unwrap();
    let mut grown = Rope::new();
    for char in text.chars() {
        grown.insert_char(grown.len(), char).unwrap();
    }
    assert_eq!(grown, whole);
    assert_eq!(grown, text);
    let mut copy = grown.clone();
    assert_eq!(copy, whole);
    copy.insert(0, "x").unwrap();
    copy.remove(copy.char_to_byte_idx(copy.len_chars() - 1)..).unwrap();
    assert!(copy != whole && copy != text.as_str());
    assert_eq!(grown, whole);
}

#[test]
fn chunks_are_short_and_lent() {
    let text = TEXT.repeat(1000);
    let rope = Rope::from(&text);
    let chunks: Vec<&str> = rope.chunks().collect();
    assert!(chunks.iter().all(|chunk| chunk.len() <= MAX_CHUNK));
    assert!(chunks.len() <= 2 * (rope.len() / MAX_CHUNK + 1));
    let again: Vec<&str> = rope.chunks().rev().collect();
    let places = |chunks: &[&str]| chunks.iter().map(|chunk| chunk.as_ptr()).collect::<Vec<_>>();
    assert!(places(&chunks).iter().eq(places(&again).iter().rev()));
    assert_eq!(chunks.concat(), text);
}

/// A clone has the chunks of its rope, and a change of it leaves those that another one lends.
#[test]
fn a_lent_chunk_stays_while_a_clone_changes() {
    let text = TEXT.repeat(1000);
    let rope = Rope::from(&text);
    let mut clone = rope.clone();
    let lent: Vec<&str> = rope.chunks().collect();
    assert!(lent
        .iter()
        .zip(clone.chunks())
        .all(|(one, other)| one.as_ptr() == other.as_ptr()));
    clone.replace(3..text.len() - 2, "x").unwrap();
    clone.insert(0, &text).unwrap();
    drop(clone);
    assert_eq!(lent.concat(), text);
}

/// A slice as a rope has those chunks that lie inside it.
#[test]
fn a_slice_as_a_rope_shares_chunks() {
    let text = TEXT.repeat(10_000);
    let rope = Rope::from(&text);
    let part = rope.slice(9..text.len() - 9).unwrap().to_rope().unwrap();
    assert_eq!(part, text[9..text.len() - 9]);
    let places: Vec<_> = rope.chunks().map(str::as_ptr).collect();
    let own = part.chunks().filter(|chunk| !places.contains(&chunk.as_ptr())).count();
    assert!(own <= 4, "{own} of {} chunks are copies", places.len());
}

/// The crate for whole texts links another library beside the rope's.
#[test]
fn positions_are_those_of_the_whole_text() {
    let mut numbers = Numbers(6);
    let text = numbers.text(4000);
    let rope: Rope = text.parse().unwrap();
    for _ in 0..500 {
        let byte = numbers.below(text.len() + 2);
        for encoding in ENCODINGS {
            let position = rope.position_of(LineType::Crlf, encoding, byte);
            assert_eq!(position, whole::position_of(&text, LineType::Crlf, encoding, byte));
            let of_position = whole::byte_of(&text, LineType::Crlf, encoding, position);
            assert_eq!(rope.byte_of(LineType::Crlf, encoding, position), of_position);
        }
    }
}

/// The memory that the program has, in pages.
fn pages() -> usize {
    let told = fs::read_to_string("/proc/self/statm").unwrap();
    told.split(' ').nth(1).unwrap().parse().unwrap()
}

/// Ten thousand ropes of 90,000 bytes would take 900 MB. Half are cut in two, and half of these put together again.
#[test]
fn what_is_dropped_is_freed() {
    let text = TEXT.repeat(10_000);
    let one = |nth: usize| {
        let mut rope: Rope = text.parse().unwrap();
        let mut rest = rope.split_off(nth % 2 * 45_000).unwrap();
        if nth % 4 == 3 {
            rope.append(&mut rest).unwrap();
            assert_eq!(rope.len(), text.len());
        }
        rope.assign(&text[..9]).unwrap();
    };
    (0..100).for_each(one);
    let before = pages();
    (0..10_000).for_each(one);
    assert!(pages() < before + 10_000, "{before} pages before, {} after", pages());
}

#[test]
fn many_ropes_at_once() {
    let mut numbers = Numbers(5);
    let texts: Vec<String> = (0..2000).map(|_| numbers.text(300)).collect();
    let mut ropes: Vec<Rope> = texts.iter().map(|text| text.parse().unwrap()).collect();
    for _ in 0..1000 {
        ropes.swap_remove(numbers.below(ropes.len()));
    }
    assert!(ropes.iter().all(|rope| texts.contains(&joined(rope))));
}

#[test]
fn worked_kinds_of_lines() {
    // a break of each kind, and between CR and LF a byte that is a place where LF alone ends a line
    let rope: Rope = "a\u{2028}b\u{C}c\rd\r\ne\nf".parse().unwrap();
    let at = |line, character| Position { line, character };
    for (lines, contents, positions, middle) in [
        (
            LineType::default(),
            [0..7, 8..9, 11..12],
            [at(0, 1), at(0, 3), at(1, 0), at(2, 0)],
            None,
        ),
        (
            LineType::Lf,
            [0..10, 11..12, 13..14],
            [at(0, 1), at(0, 3), at(0, 6), at(1, 0)],
            Some(at(0, 8)),
        ),
        (
            LineType::Lines,
            [0..1, 4..5, 6..7],
            [at(0, 1), at(1, 1), at(3, 0), at(4, 0)],
            None,
        ),
    ] {
        let e = Encoding::Utf16;
        assert_eq!([0, 1, 2].map(|line| rope.line_content(lines, line)), contents);
        assert_eq!([2, 5, 8, 11].map(|byte| rope.position_of(lines, e, byte)), positions);
        assert_eq!(rope.exact_position_of(lines, e, 10), middle);
        assert_eq!(
            [2, usize::MAX].map(|byte| rope.exact_position_of(lines, e, byte)),
            [None, None]
        );
        let range = Range {
            start: positions[1],
            end: positions[3],
        };
        assert_eq!(rope.range_of(lines, e, 5..11), range);
        assert_eq!(rope.byte_range(lines, e, range), Some(5..11));
        assert_eq!([1, 2, 3].map(|i| rope.byte_of(lines, e, positions[i])), [5, 8, 11]);
        let exact = [1, 2, 3].map(|i| rope.exact_byte_of(lines, e, positions[i]));
        assert_eq!(exact, [Some(5), Some(8), Some(11)]);
        // past the end of the second line
        assert_eq!(rope.exact_byte_of(lines, e, at(1, 4)), None);
    }
}
