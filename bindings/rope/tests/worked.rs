//! Answers worked out by hand, for each method.
use std::borrow::Cow;
use std::cmp::Ordering;
use std::collections::{BTreeSet, HashSet};
use std::fmt::Write;
use std::hash::{BuildHasher, RandomState};
use str_rope::{Error, LineType, Rope, RopeBuilder, RopeSlice};

/// Fourteen bytes: `a` at 0, CR LF at 1, a char of four at 3, of two at 7, a line separator at 9, `b` at 12, LF at 13.
const TEXT: &str = "a\r\n🐸é\u{2028}b\n";

/// Asks about each byte index, from 0 to 14, and about one past the end.
fn at_each<T>(ask: impl Fn(usize) -> T) -> Vec<T> {
    (0..=15).map(ask).collect()
}

fn strings<'a>(slices: impl Iterator<Item = RopeSlice<'a>>) -> Vec<String> {
    slices.map(String::from).collect()
}

#[test]
fn worked_conversions() {
    let rope = Rope::from(TEXT);
    assert_eq!((rope.len(), rope.len_chars(), rope.len_utf16()), (14, 8, 9));
    assert_eq!(
        at_each(|byte| rope.byte_to_char_idx(byte)),
        [0, 1, 2, 3, 3, 3, 3, 4, 4, 5, 5, 5, 6, 7, 8, 8]
    );
    assert_eq!(
        at_each(|byte| rope.byte_to_utf16_idx(byte)),
        [0, 1, 2, 3, 3, 3, 3, 5, 5, 6, 6, 6, 7, 8, 9, 9]
    );
    assert_eq!(
        at_each(|char| rope.char_to_byte_idx(char))[..10],
        [0, 1, 2, 3, 7, 9, 12, 13, 14, 14]
    );
    assert_eq!(
        at_each(|unit| rope.utf16_to_byte_idx(unit))[..11],
        [0, 1, 2, 3, 3, 7, 9, 12, 13, 14, 14]
    );
    assert_eq!(rope.char_to_byte_idx(usize::MAX), 14);
}

#[test]
fn worked_conversions_of_a_slice() {
    let rope = Rope::from(TEXT);
    let slice = rope.slice(2..12).unwrap();
    assert_eq!(slice, "\n🐸é\u{2028}");
    assert_eq!((slice.len(), slice.len_chars(), slice.len_utf16()), (10, 4, 5));
    assert_eq!(
        at_each(|byte| slice.byte_to_char_idx(byte))[..12],
        [0, 1, 1, 1, 1, 2, 2, 3, 3, 3, 4, 4]
    );
    assert_eq!(
        at_each(|byte| slice.byte_to_utf16_idx(byte))[..12],
        [0, 1, 1, 1, 1, 3, 3, 4, 4, 4, 5, 5]
    );
    assert_eq!(at_each(|char| slice.char_to_byte_idx(char))[..6], [0, 1, 5, 7, 10, 10]);
    assert_eq!(
        at_each(|unit| slice.utf16_to_byte_idx(unit))[..7],
        [0, 1, 1, 5, 7, 10, 10]
    );
    assert_eq!(slice.range(), 2..12);
}

#[test]
fn worked_boundaries_bytes_and_chars() {
    let rope = Rope::from(TEXT);
    assert_eq!(
        at_each(|byte| rope.floor_char_boundary(byte)),
        [0, 1, 2, 3, 3, 3, 3, 7, 7, 9, 9, 9, 12, 13, 14, 14]
    );
    assert_eq!(
        at_each(|byte| rope.ceil_char_boundary(byte)),
        [0, 1, 2, 3, 7, 7, 7, 7, 9, 9, 12, 12, 12, 13, 14, 14]
    );
    let boundaries: Vec<usize> = (0..=15).filter(|&byte| rope.is_char_boundary(byte)).collect();
    assert_eq!(boundaries, [0, 1, 2, 3, 7, 9, 12, 13, 14]);
    assert_eq!(
        [0, 3, 4, 8, 14, 15].map(|byte| rope.byte(byte)),
        [Some(b'a'), Some(0xF0), Some(0x9F), Some(0xA9), None, None]
    );
    assert_eq!(
        [0, 3, 4, 7, 9, 14, 15].map(|byte| rope.char(byte)),
        [Some('a'), Some('🐸'), None, Some('é'), Some('\u{2028}'), None, None]
    );
    let frog = rope.slice(3..7).unwrap();
    assert_eq!([0, 1, 4].map(|byte| frog.floor_char_boundary(byte)), [0, 0, 4]);
    assert_eq!([0, 1, 4].map(|byte| frog.ceil_char_boundary(byte)), [0, 4, 4]);
    assert_eq!([0, 3, 4].map(|byte| frog.byte(byte)), [Some(0xF0), Some(0xB8), None]);
    assert_eq!([0, 4].map(|byte| frog.char(byte)), [Some('🐸'), None]);
    assert_eq!(
        [0, 2, 4, 5].map(|byte| frog.is_char_boundary(byte)),
        [true, false, true, false]
    );
}

#[test]
fn worked_lines() {
    let rope = Rope::from(TEXT);
    let types = [LineType::Lf, LineType::Crlf, LineType::Lines];
    assert_eq!(types.map(|lines| rope.len_lines(lines)), [3, 3, 4]);
    let starts = |lines| [0, 1, 2, 3, 4].map(|line| rope.line_to_byte_idx(line, lines));
    assert_eq!(starts(LineType::Crlf), [0, 3, 14, 14, 14]);
    assert_eq!(starts(LineType::Lines), [0, 3, 12, 14, 14]);
    assert_eq!(
        at_each(|byte| rope.byte_to_line_idx(byte, LineType::Lines)),
        [0, 0, 0, 1, 1, 1, 1, 1, 1, 1, 1, 1, 2, 2, 3, 3]
    );
    assert_eq!(
        strings(rope.lines(LineType::Lines)),
        ["a\r\n", "🐸é\u{2028}", "b\n", ""]
    );
    assert_eq!(
        strings(rope.lines(LineType::Crlf).rev()),
        ["", "🐸é\u{2028}b\n", "a\r\n"]
    );
    assert_eq!(strings(rope.lines_at(1, LineType::Lines).reversed()), ["a\r\n"]);
    assert_eq!(rope.line(3, LineType::Lines).unwrap(), "");
    assert_eq!(rope.line(4, LineType::Lines), None);
    assert_eq!(rope.line(usize::MAX, LineType::Lf), None);
    let contents = |lines| [0, 1, 2, 9].map(|line| rope.line_content(lines, line));
    assert_eq!(contents(LineType::Lf), [0..2, 3..13, 14..14, 14..14]);
    assert_eq!(contents(LineType::Lines), [0..1, 3..9, 12..13, 14..14]);
    assert_eq!([0, 1, 9].map(|line| rope.line_end(LineType::Crlf, line)), [1, 13, 14]);
}

/// A part that begins or ends between CR and LF has a break there.
#[test]
fn worked_lines_of_slices_through_a_break() {
    let rope = Rope::from("a\r\nb");
    let (front, back) = (rope.slice(..2).unwrap(), rope.slice(2..).unwrap());
    let types = [LineType::Lf, LineType::Crlf, LineType::Lines];
    assert_eq!(types.map(|lines| front.len_lines(lines)), [1, 2, 2]);
    assert_eq!(types.map(|lines| back.len_lines(lines)), [2, 2, 2]);
    assert_eq!(strings(front.lines(LineType::Crlf)), ["a\r", ""]);
    assert_eq!(strings(front.lines(LineType::Lf)), ["a\r"]);
    assert_eq!(strings(back.lines(LineType::Lines)), ["\n", "b"]);
    assert_eq!(
        [0, 1, 2, 9].map(|byte| front.byte_to_line_idx(byte, LineType::Crlf)),
        [0, 0, 1, 1]
    );
    assert_eq!(
        [0, 1, 2].map(|line| front.line_to_byte_idx(line, LineType::Crlf)),
        [0, 2, 2]
    );
    assert_eq!(
        [0, 1].map(|line| front.line_content(LineType::Crlf, line)),
        [0..1, 2..2]
    );
    assert_eq!([0, 1].map(|line| back.line_content(LineType::Crlf, line)), [0..0, 1..2]);
    let between = rope.slice(2..2).unwrap();
    assert_eq!(types.map(|lines| between.len_lines(lines)), [1, 1, 1]);
    assert_eq!(strings(between.lines(LineType::Lines)), [""]);
    let middle = rope.slice(1..3).unwrap();
    assert_eq!(strings(middle.lines(LineType::Crlf)), ["\r\n", ""]);
}

#[test]
fn worked_walks() {
    let rope = Rope::from("aé🐸");
    let mut chars = rope.chars();
    assert_eq!((chars.prev(), chars.next(), chars.next()), (None, Some('a'), Some('é')));
    assert_eq!(
        (chars.byte_offset(), chars.prev(), chars.byte_offset()),
        (3, Some('é'), 1)
    );
    assert_eq!(
        (chars.next_back(), chars.next_back(), chars.next_back()),
        (Some('🐸'), Some('é'), None)
    );
    assert_eq!((chars.next(), chars.prev(), chars.prev()), (None, Some('a'), None));
    chars.reverse();
    assert_eq!((chars.next(), chars.prev(), chars.next()), (None, Some('a'), Some('a')));
    let indices: Vec<(usize, char)> = rope.char_indices_at(4).collect();
    assert_eq!(indices, [(3, '🐸')]);
    assert_eq!(
        rope.char_indices().rev().collect::<Vec<_>>(),
        [(3, '🐸'), (1, 'é'), (0, 'a')]
    );
    let bytes: Vec<u8> = rope.bytes_at(1).collect();
    assert_eq!(bytes, [0xC3, 0xA9, 0xF0, 0x9F, 0x90, 0xB8]);
    let mut bytes = rope.bytes_at(9);
    assert_eq!(
        (bytes.len(), bytes.next(), bytes.prev(), bytes.len()),
        (0, None, Some(0xB8), 1)
    );
    assert_eq!(format!("{:?}", rope.chars_at(1)), "['é', '🐸']");
    let slice = rope.slice(1..3).unwrap();
    assert_eq!(slice.char_indices().collect::<Vec<_>>(), [(0, 'é')]);
    let mut chars = slice.chars_at(2);
    assert_eq!((chars.next(), chars.prev(), chars.prev()), (None, Some('é'), None));
}

#[test]
fn worked_parts() {
    let rope = Rope::from(TEXT);
    let slice = rope.slice(3..=11).unwrap();
    assert_eq!(slice.slice(4..6).unwrap(), "é");
    assert_eq!(slice.chunk_at(8), Some(("🐸é\u{2028}", 0)));
    assert_eq!(slice.chunk_at(9), None);
    assert_eq!(slice.as_str(), Some("🐸é\u{2028}"));
    assert_eq!(slice.trim(), "🐸é");
    assert_eq!(rope.slice(..3).unwrap().trim_start(), "a\r\n");
    assert_eq!(rope.slice(..3).unwrap().trim_end(), "a");
    assert_eq!(rope.slice(1..3).unwrap().trim(), "");
    assert_eq!(slice.text_in(..4).as_deref(), Ok("🐸"));
    let mut room = *b".....";
    assert_eq!(slice.copy_to(4..6, &mut room), Ok(2));
    assert_eq!(&room, b"\xC3\xA9...");
    let ropes = [
        slice.to_rope(),
        rope.slice(..1).unwrap().to_rope(),
        rope.slice(5..5).and_then(|s| s.to_rope()),
    ];
    assert_eq!(
        ropes,
        [Ok("🐸é\u{2028}".into()), Ok("a".into()), Err(Error::NotBoundary)]
    );
    assert_eq!(rope.slice(7..7).unwrap().to_rope(), Ok(Rope::new()));
    assert_eq!(rope.slice(..).unwrap().to_rope().as_ref(), Ok(&rope));
}

#[test]
fn worked_changes() {
    let mut rope = Rope::from_str("ac").unwrap();
    rope.insert_char(1, '🐸').unwrap();
    assert_eq!(rope.insert_char(2, 'x'), Err(Error::NotBoundary));
    assert_eq!(rope.insert_char(7, 'x'), Err(Error::NotBoundary));
    assert_eq!(rope, "a🐸c");
    rope.insert(6, "de").unwrap();
    rope.remove(..=0).unwrap();
    rope.replace(4..5, "").unwrap();
    assert_eq!(rope, "🐸de");
    let rest = rope.split_off(4).unwrap();
    assert_eq!((rope, rest), ("🐸".into(), "de".into()));
}

#[test]
fn the_empty_text_has_no_item_and_one_line() {
    let rope = Rope::new();
    assert_eq!(
        (rope.chars().next(), rope.chars().prev(), rope.chars().next_back()),
        (None, None, None)
    );
    assert_eq!(
        (rope.bytes().next(), rope.char_indices().next(), rope.chunks().next()),
        (None, None, None)
    );
    assert_eq!(
        (rope.byte(0), rope.char(0), rope.chunk_at(0), rope.as_str()),
        (None, None, None, Some(""))
    );
    assert_eq!((rope.floor_char_boundary(3), rope.ceil_char_boundary(3)), (0, 0));
    for lines in [LineType::Lf, LineType::Crlf, LineType::Lines] {
        assert_eq!(strings(rope.lines(lines)), [""]);
        assert_eq!(strings(rope.lines(lines).rev()), [""]);
        assert_eq!((rope.len_lines(lines), rope.line_content(lines, 0)), (1, 0..0));
        assert_eq!((rope.line(0, lines).unwrap().len(), rope.line(1, lines)), (0, None));
    }
    let slice = rope.slice(..).unwrap();
    assert_eq!((slice, slice.to_rope()), (rope.slice(0..0).unwrap(), Ok(Rope::new())));
    assert_eq!(rope.trim(), "");
}

/// How two texts compare, by each of the two: whether they are equal, and their order.
fn compared<A, B>(one: &A, other: &B) -> ([bool; 2], [Option<Ordering>; 2])
where
    A: PartialOrd<B> + ?Sized,
    B: PartialOrd<A> + ?Sized,
{
    let orders = [one.partial_cmp(other), other.partial_cmp(one)];
    ([one == other, other == one], orders)
}

/// Compares a rope, and a slice with its text, with another text of each type.
fn assert_compared(text: &str, other: &str, order: Ordering) {
    let (rope, other_rope) = (Rope::from(text), Rope::from(other));
    let around = Rope::from(format!("x{text}é"));
    let (slice, other_slice) = (around.slice(1..=text.len()).unwrap(), other_rope.slice(..).unwrap());
    let wanted = ([order.is_eq(); 2], [Some(order), Some(order.reverse())]);
    assert_eq!(compared(&rope, &other_rope), wanted);
    assert_eq!(compared(&rope, &other_slice), wanted);
    assert_eq!(compared(&rope, other), wanted);
    assert_eq!(compared(&rope, &other), wanted);
    assert_eq!(compared(&rope, &String::from(other)), wanted);
    assert_eq!(compared(&rope, &Cow::from(other)), wanted);
    assert_eq!(compared(&slice, &other_rope), wanted);
    assert_eq!(compared(&slice, &other_slice), wanted);
    assert_eq!(compared(&slice, other), wanted);
    assert_eq!(compared(&slice, &other), wanted);
    assert_eq!(compared(&slice, &String::from(other)), wanted);
    assert_eq!(compared(&slice, &Cow::from(other)), wanted);
    assert_eq!((rope.cmp(&other_rope), slice.cmp(&other_slice)), (order, order));
}

#[test]
fn worked_comparisons() {
    assert_compared("one", "one", Ordering::Equal);
    assert_compared("one", "two", Ordering::Less);
    assert_compared("onf", "one", Ordering::Greater);
    assert_compared("one", "onee", Ordering::Less);
    assert_compared("one", "", Ordering::Greater);
    assert_compared("é", "b", Ordering::Greater);
    assert_compared(&"one".repeat(2000), &"one".repeat(2000), Ordering::Equal);
    assert_compared(&"one".repeat(2000), &("one".repeat(1999) + "onf"), Ordering::Less);
    let one = Rope::from("one two");
    assert_eq!(one.slice(..1).unwrap(), one.slice(6..).unwrap());
    assert_ne!(one.slice(..3).unwrap(), one.slice(4..).unwrap());
    let ropes: BTreeSet<Rope> = ["é", "b", "", "a", "ab"].map(Rope::from).into();
    assert!(ropes.iter().eq(["", "a", "ab", "b", "é"].iter()));
    let ropes: HashSet<Rope> = ["a", "b", "a"].map(Rope::from).into();
    assert_eq!(ropes.len(), 2);
}

/// Texts that are equal and lie in other chunks have one hash; a hasher gets parts of 256 bytes.
#[test]
fn equal_texts_have_one_hash() {
    let state = RandomState::new();
    let hash = |text: RopeSlice<'_>| state.hash_one(text);
    for len in [0, 1, 255, 256, 257, 1000, 5000] {
        let text = "abcdé".repeat(len)[..len - len % 6].to_owned();
        let (whole, front) = (Rope::from(&text), Rope::from("x".repeat(700) + &text + "y"));
        let mut grown = Rope::new();
        text.chars()
            .try_for_each(|char| grown.insert_char(grown.len(), char))
            .unwrap();
        let slices = [whole.slice(..), grown.slice(..), front.slice(700..700 + text.len())].map(Result::unwrap);
        assert!(slices
            .iter()
            .all(|slice| *slice == text && hash(*slice) == hash(slices[0])));
        assert_ne!(hash(slices[0]), hash(front.slice(1..).unwrap()));
        assert_eq!(state.hash_one(&whole), hash(slices[0]));
    }
    let [a, b, ab, empty] = ["a", "b", "ab", ""].map(Rope::from);
    assert_ne!(state.hash_one((&a, &b)), state.hash_one((&ab, &empty)));
}

#[test]
fn worked_conversions_of_types() {
    let owned = String::from("one");
    let ropes = [
        Rope::from("one"),
        Rope::from(&owned),
        Rope::from(owned.clone()),
        Rope::from(Cow::from("one")),
        Rope::from(Rope::from("a one").slice(2..).unwrap()),
        ["o", "n", "e"].into_iter().collect(),
        [String::from("on"), String::new(), String::from("e")]
            .into_iter()
            .collect(),
        [Cow::from("on"), Cow::from("e")].into_iter().collect(),
        ['o', 'n', 'e'].into_iter().collect(),
    ];
    assert!(ropes.iter().all(|rope| rope == "one"));
    assert_eq!(String::from(&ropes[0]), owned);
    assert_eq!(String::from(ropes[0].clone()), owned);
    assert_eq!(String::from(ropes[0].slice(1..).unwrap()), "ne");
    assert!(matches!(Cow::from(&ropes[0]), Cow::Borrowed("one")));
    let long = Rope::from("one".repeat(1000));
    assert!(matches!(Cow::from(&long), Cow::Owned(text) if text == "one".repeat(1000)));
    assert!(matches!(Cow::from(long.slice(3..6).unwrap()), Cow::Borrowed("one")));
}

#[test]
fn a_rope_is_extended_and_written_to() {
    let mut rope = Rope::from("0");
    rope.extend(["a", "", "b"]);
    rope.extend([String::from("c")]);
    rope.extend(['🐸', 'd']);
    write!(rope, "{}-{:>3}", 12, "é").unwrap();
    assert_eq!(rope, "0abc🐸d12-  é");
    assert_eq!(
        format!("{} {:?}", rope.slice(4..9).unwrap(), rope.slice(..2).unwrap()),
        "🐸d \"0a\""
    );
}

/// A builder hands its text over at each 262,144 bytes: with pieces that end there, before it and past it.
#[test]
fn a_builder_makes_the_text_of_its_pieces() {
    const PART: usize = 262_144;
    for lens in [
        &[PART][..],
        &[PART - 1, 1, 1],
        &[PART - 1, 2],
        &[PART + 1, 1],
        &[1, PART],
        &[3 * PART, 5, PART],
        &[0, 0],
        &[],
        &[100_000; 12],
    ] {
        let mut builder = RopeBuilder::new();
        let mut text = String::new();
        for (letter, len) in ('a'..).zip(lens) {
            let piece = String::from(letter).repeat(*len);
            builder.append(&piece).unwrap();
            text += &piece;
        }
        let half = builder.clone();
        builder.append("🐸").unwrap();
        assert_eq!(half.finish().unwrap(), text);
        assert_eq!(builder.finish().unwrap(), text + "🐸");
    }
}
