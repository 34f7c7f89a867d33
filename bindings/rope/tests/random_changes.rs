//! Random programs over ropes and `String`s: every question answers as `std` or a plain walk does.
mod model;
use model::answers::{of_rope, of_slice};
use model::walks::{assert_both_ways, assert_walk};
use model::*;
use std::collections::hash_map::DefaultHasher;
use std::hash::{Hash, Hasher};
use std::ops;
use str_rope::{Encoding, Error, LineType, Position, Range, Rope, RopeBuilder, Scheme, MAX_CHUNK};

/// How many programs are run, and of how many steps.
const PROGRAMS: u64 = 12;
const STEPS: usize = 300;

/// A rope, and the text that it should have.
struct Pair {
    rope: Rope,
    text: String,
}

impl Pair {
    fn of(text: String) -> Pair {
        Pair {
            rope: text.parse().unwrap(),
            text,
        }
    }

    /// A second pair with this text.
    fn copy(&self) -> Pair {
        Pair {
            rope: self.rope.clone(),
            text: self.text.clone(),
        }
    }

    /// Makes a random change of both.
    fn change(&mut self, numbers: &mut Numbers) {
        match numbers.below(12) {
            0 | 1 => self.insert(numbers),
            2 => self.remove(numbers),
            3 => self.replace(numbers),
            4 => self.append(numbers),
            5 => self.split_off(numbers),
            6 => self.insert_char(numbers),
            7 => self.extend(numbers),
            8 | 9 => self.change_or_refuse(numbers),
            _ => self.change_by_positions(numbers),
        }
    }

    fn insert(&mut self, numbers: &mut Numbers) {
        let at = numbers.boundary(&self.text);
        let text = numbers.text(400);
        self.rope.insert(at, &text).unwrap();
        self.text.insert_str(at, &text);
    }

    fn insert_char(&mut self, numbers: &mut Numbers) {
        let at = numbers.boundary(&self.text);
        let char = numbers.text(9).chars().next().unwrap_or('x');
        self.rope.insert_char(at, char).unwrap();
        self.text.insert(at, char);
    }

    /// Puts a copy of a part at the end, by its chunks.
    fn extend(&mut self, numbers: &mut Numbers) {
        let (from, to) = numbers.part(&self.text);
        let to = floor(&self.text, to.min(from + 300));
        let part = self.rope.slice(from..to).unwrap().to_rope().unwrap();
        self.rope.extend(part.chunks());
        self.text = self.text.clone() + &self.text[from..to];
    }

    fn remove(&mut self, numbers: &mut Numbers) {
        let (from, to) = numbers.part(&self.text);
        let to = floor(&self.text, to.min(from + 300));
        self.rope.remove(from..to).unwrap();
        self.text.replace_range(from..to, "");
    }

    fn replace(&mut self, numbers: &mut Numbers) {
        let (from, to) = numbers.part(&self.text);
        let to = floor(&self.text, to.min(from + 300));
        let text = numbers.text(200);
        self.rope.replace(from..to, &text).unwrap();
        self.text.replace_range(from..to, &text);
    }

    fn append(&mut self, numbers: &mut Numbers) {
        let mut other = Pair::of(numbers.text(500));
        self.rope.append(&mut other.rope).unwrap();
        self.text += &other.text;
        assert!(other.rope.is_empty());
    }

    /// Parts the text in two, and puts the parts together the other way round.
    fn split_off(&mut self, numbers: &mut Numbers) {
        let at = numbers.boundary(&self.text);
        let mut rest = self.rope.split_off(at).unwrap();
        assert_eq!(
            (&self.rope, &rest),
            (
                &Pair::of(self.text[..at].into()).rope,
                &Pair::of(self.text[at..].into()).rope
            )
        );
        rest.append(&mut self.rope).unwrap();
        self.rope = rest;
        self.text = self.text[at..].to_owned() + &self.text[..at];
    }

    /// Puts a text in place of a few lines, as a client of a language server does.
    fn change_by_positions(&mut self, numbers: &mut Numbers) {
        let encoding = ENCODINGS[numbers.below(3)];
        let line = numbers.below(count(Scheme::Crlf, &self.text) + 2);
        let start = Position {
            line,
            character: numbers.below(6),
        };
        let end = Position {
            line: line + numbers.below(3),
            character: 6 + numbers.below(6),
        };
        let text = numbers.text(60);
        let byte = |position| byte_of(&self.text, LineType::Crlf, encoding, position);
        let bytes = byte(start)..byte(end);
        let range = Range { start, end };
        let of_range = self.rope.byte_range(LineType::Crlf, encoding, range);
        assert_eq!(of_range, Some(bytes.clone()));
        let is_exact = |position| exact_byte_of(&self.text, LineType::Crlf, encoding, position).is_some();
        if is_exact(start) && is_exact(end) {
            self.rope.change_exact(encoding, range, &text).unwrap();
        } else {
            let refused = self.rope.change_exact(encoding, range, &text);
            assert_eq!(refused, Err(Error::NotBoundary));
            self.rope.change(encoding, range, &text).unwrap();
        }
        self.text.replace_range(bytes, &text);
    }

    /// Makes a change by any two positions, or of the whole text: where the plain text refuses it, the rope does.
    fn change_or_refuse(&mut self, numbers: &mut Numbers) {
        let (encoding, is_exact) = (ENCODINGS[numbers.below(3)], numbers.below(2) == 0);
        let (text, range) = (numbers.text(60), random_range(encoding, &self.text, numbers));
        let wanted = part_of(encoding, is_exact, &self.text, range);
        let made = match range {
            None => self.rope.assign(&text),
            Some(range) if is_exact => self.rope.change_exact(encoding, range, &text),
            Some(range) => self.rope.change(encoding, range, &text),
        };
        assert_eq!(made, wanted.map(|part| self.text.replace_range(part, &text)));
    }

    /// Tries a change or a copy at any two indices, which is made or refused as it should be.
    fn change_anywhere(&mut self, numbers: &mut Numbers) {
        let (from, to) = (numbers.anywhere(&self.text), numbers.anywhere(&self.text));
        let wanted = wanted(&self.text, from, to);
        let text = numbers.text(20);
        match numbers.below(4) {
            0 => assert_eq!(self.rope.replace(from..to, &text), wanted),
            1 => assert_eq!(self.rope.remove(from..to), wanted),
            2 => return self.assert_copies(from, to),
            _ => return self.assert_split(from),
        }
        // the text that was put in is the part that is as long as the rope is longer than what remains
        if wanted.is_ok() {
            let put = self.rope.len() - (self.text.len() - (to - from));
            self.text.replace_range(from..to, &text[..put]);
        }
    }

    fn assert_copies(&self, from: usize, to: usize) {
        let wanted = wanted(&self.text, from, to);
        let part = wanted.map(|()| &self.text[from..to]);
        assert_eq!(self.rope.slice(from..to).map(String::from).as_deref(), part.as_deref());
        assert_eq!(self.rope.text_in(from..to).as_deref(), part.as_deref());
        let mut room = vec![0; part.map_or(9, str::len)];
        assert_eq!(self.rope.copy_to(from..to, &mut room), part.map(str::len));
        assert!(part.is_err() || part.map(str::as_bytes) == Ok(&room));
    }

    /// Cuts the text in two and puts it together, if the index is a boundary.
    fn assert_split(&mut self, at: usize) {
        let (rest, right) = (self.rope.split_off(at), wanted(&self.text, at, at));
        assert_eq!(rest.as_ref().map(drop), right.as_ref().map(drop));
        if let Ok(mut rest) = rest {
            assert!(rest == self.text[at..] && self.rope == self.text[..at]);
            self.rope.append(&mut rest).unwrap();
        }
    }

    fn assert_text(&self) {
        assert_eq!(self.rope.len(), self.text.len());
        assert_eq!(joined(&self.rope), self.text);
        assert_eq!(self.rope, self.text);
        for scheme in Scheme::ALL {
            assert_eq!(self.rope.count(scheme), count(scheme, &self.text), "{scheme:?}");
        }
    }

    /// Asks everything at an index.
    fn assert_answers(&self, index: usize) {
        let (rope, text) = (&self.rope, &self.text[..]);
        of_rope::assert_indices(rope, text, index);
        of_rope::assert_places(rope, text, index);
        for line_type in LINE_TYPES {
            of_rope::assert_line(rope, text, line_type, index);
        }
        for (lines, encoding) in LINE_TYPES
            .into_iter()
            .flat_map(|lines| ENCODINGS.map(|encoding| (lines, encoding)))
        {
            self.assert_positions(lines, encoding, index);
        }
    }

    /// Asks for positions by a number that is a byte index, and a line and an offset on it.
    fn assert_positions(&self, lines: LineType, encoding: Encoding, number: usize) {
        let (rope, text) = (&self.rope, &self.text);
        let here = position_of(text, lines, encoding, number);
        assert_eq!(rope.position_of(lines, encoding, number), here);
        let exact = rope.exact_position_of(lines, encoding, number);
        assert_eq!(exact, exact_position_of(text, lines, encoding, number));
        let there = Position {
            line: number % (count(breaks(lines), text) + 2),
            character: number % 7,
        };
        let byte = rope.byte_of(lines, encoding, there);
        assert_eq!(byte, byte_of(text, lines, encoding, there), "{there:?}");
        let exact = rope.exact_byte_of(lines, encoding, there);
        assert_eq!(exact, exact_byte_of(text, lines, encoding, there), "{there:?}");
        let span = number..byte;
        let range = range_of(text, lines, encoding, span.clone());
        assert_eq!(rope.range_of(lines, encoding, span), range);
        let range = Range {
            start: here,
            end: there,
        };
        let bytes = byte_range(text, lines, encoding, range);
        assert_eq!(rope.byte_range(lines, encoding, range), bytes, "{range:?}");
    }

    /// Compares a part with another text, by slices, ropes and plain texts.
    fn assert_order(&self, numbers: &mut Numbers) {
        let (from, to) = numbers.part(&self.text);
        let (slice, text) = (self.rope.slice(from..to).unwrap(), &self.text[from..to]);
        let mut other = Pair::of(text.to_owned());
        if numbers.below(2) == 0 {
            other.insert_char(numbers);
            other.remove(numbers);
        }
        let order = text.cmp(&other.text);
        assert_eq!(slice.cmp(&other.rope.slice(..).unwrap()), order);
        assert_eq!(slice.partial_cmp(&other.text[..]), Some(order));
        assert_eq!(other.text[..].partial_cmp(&slice), Some(order.reverse()));
        assert_eq!(Rope::from(slice).cmp(&other.rope), order);
        let is_equal = order.is_eq();
        assert_eq!((slice == other.rope, other.rope == slice), (is_equal, is_equal));
        assert_eq!((slice == other.text, other.text == slice), (is_equal, is_equal));
        assert_eq!(hash(slice) == hash(&other.rope), is_equal);
    }

    /// Loads the text in pieces.
    fn assert_built(&self, numbers: &mut Numbers) {
        let mut builder = RopeBuilder::new();
        let mut rest = &self.text[..];
        while !rest.is_empty() {
            let piece = floor(rest, numbers.below(900) + 4);
            builder.append(&rest[..piece]).unwrap();
            rest = &rest[piece..];
        }
        let built = builder.finish().unwrap();
        assert_eq!((&built, hash(&built)), (&self.rope, hash(&self.rope)));
        assert_eq!(built, self.text);
    }
}

/// Draws the range of a change: mostly a part of the text by its places, else what may be cut or go back, or the whole text.
fn random_range(encoding: Encoding, text: &str, numbers: &mut Numbers) -> Option<Range> {
    let from = numbers.boundary(text);
    let to = floor(text, text.len().min(from + numbers.below(40)));
    let [start, end] = [from, to].map(|byte| position_of(text, LineType::Crlf, encoding, byte));
    let further = |position: Position, more| Position {
        character: position.character + more,
        ..position
    };
    match numbers.below(24) {
        0 => None,
        1 => Some(Range { start: end, end: start }),
        2..=4 => Some(Range {
            start,
            end: further(end, numbers.below(20)),
        }),
        _ => Some(Range { start, end }),
    }
}

/// The bytes that a change replaces in a plain text, or why it is refused.
fn part_of(encoding: Encoding, is_exact: bool, text: &str, range: Option<Range>) -> Result<ops::Range<usize>, Error> {
    let Some(Range { start, end }) = range else {
        return Ok(0..text.len());
    };
    if end < start {
        return Err(Error::NotOrdered);
    }
    let byte = |position| match is_exact {
        true => exact_byte_of(text, LineType::Crlf, encoding, position).ok_or(Error::NotBoundary),
        false => Ok(byte_of(text, LineType::Crlf, encoding, position)),
    };
    Ok(byte(start)?..byte(end)?)
}

fn hash(text: impl Hash) -> u64 {
    let mut hasher = DefaultHasher::new();
    text.hash(&mut hasher);
    hasher.finish()
}

/// The answer to a change of the part between two indices.
fn wanted(text: &str, from: usize, to: usize) -> Result<(), Error> {
    if to < from {
        Err(Error::NotOrdered)
    } else if text.is_char_boundary(from) && text.is_char_boundary(to) {
        Ok(())
    } else {
        Err(Error::NotBoundary)
    }
}

/// A few texts, which are changed, copied, cut, joined and dropped in any order.
struct Program {
    numbers: Numbers,
    pairs: Vec<Pair>,
}

/// From how many bytes on a text is cut, and from how many on it is asked seldom.
const LONGEST: usize = 60_000;
const LONG: usize = 1500;

impl Program {
    fn new(seed: u64) -> Program {
        let mut numbers = Numbers(seed);
        let pairs = (0..5).map(|_| Pair::of(numbers.text_about_an_edge())).collect();
        Program { numbers, pairs }
    }

    /// Takes a text out at random.
    fn take(&mut self) -> Pair {
        self.pairs.swap_remove(self.numbers.below(self.pairs.len()))
    }

    /// Changes a text, while another one lends a chunk, a slice and an iterator.
    fn step(&mut self) {
        let held = self.take();
        let (from, to) = self.numbers.part(&held.text);
        let slice = held.rope.slice(from..to).unwrap();
        let mut chunks = slice.chunks_at(self.numbers.below(slice.len() + 1));
        let lent = chunks.next();
        let mut one = self.take();
        self.change(&mut one);
        let again = lent.and_then(|_| chunks.prev());
        assert_eq!(again.map(str::as_ptr), lent.map(str::as_ptr));
        assert!(again == lent && slice == held.text[from..to] && held.rope == held.text);
        assert!(one.rope == one.text);
        if one.text.len() < LONG || self.numbers.below(10) == 0 {
            one.assert_text();
            let index = self.numbers.below(one.text.len() + 3);
            one.assert_answers(index);
            one.assert_answers(usize::MAX);
            one.assert_order(&mut self.numbers);
        }
        self.pairs.extend([held, one]);
    }

    fn change(&mut self, one: &mut Pair) {
        if one.text.len() > LONGEST {
            one.rope.remove(floor(&one.text, LONG)..).unwrap();
            one.text.truncate(floor(&one.text, LONG));
        }
        let mut other = self.take();
        match self.numbers.below(16) {
            0 | 1 => *one = other.copy(),
            2 => *one = Pair::of(self.numbers.text_about_an_edge()),
            3 => {
                one.rope.append(&mut other.rope).unwrap();
                one.text += &std::mem::take(&mut other.text);
            }
            4 => {
                let at = self.numbers.boundary(&one.text);
                other.rope = one.rope.split_off(at).unwrap();
                other.text = one.text.split_off(at);
            }
            5 => one.assert_built(&mut self.numbers),
            6 => std::mem::swap(one, &mut other),
            7..=9 => one.change_anywhere(&mut self.numbers),
            _ => one.change(&mut self.numbers),
        }
        assert!(other.rope == other.text);
        self.pairs.push(other);
    }
}

#[test]
fn random_programs() {
    for seed in 0..PROGRAMS {
        let mut program = Program::new(seed);
        (0..STEPS).for_each(|_| program.step());
        program.pairs.iter().for_each(Pair::assert_text);
    }
}

/// Of an empty text, a short one and one of several chunks.
#[test]
fn changes_by_any_positions_are_made_or_refused() {
    let mut numbers = Numbers(9);
    for round in 0..300 {
        let mut pair = Pair::of(numbers.text([1, 10, 3000][round % 3]));
        for _ in 0..5 {
            pair.change_or_refuse(&mut numbers);
            pair.assert_text();
        }
    }
}

#[test]
fn a_short_text_at_every_index() {
    let mut numbers = Numbers(2);
    for _ in 0..200 {
        let pair = Pair::of(numbers.text(24));
        pair.assert_text();
        for index in 0..pair.text.len() + 3 {
            pair.assert_answers(index);
        }
    }
}

/// The chunks of a text that has many, from a byte on, to and fro, and from both ends.
#[test]
fn chunks_of_a_long_text() {
    let mut numbers = Numbers(10);
    for _ in 0..10 {
        let mut text = String::new();
        while text.len() < 50 * MAX_CHUNK {
            text.push_str(&numbers.text(300));
        }
        let pair = Pair::of(text);
        let chunks: Vec<&str> = pair.rope.chunks().collect();
        assert_eq!(chunks.concat(), pair.text);
        assert_both_ways(pair.rope.chunks(), &chunks);
        for _ in 0..100 {
            let at = numbers.below(chunks.len() + 1);
            let start = chunks[..at].iter().map(|chunk| chunk.len()).sum();
            assert_walk(pair.rope.chunks_at(start), &chunks, at, &mut numbers);
        }
    }
}

/// Everything of a rope, of a part of it, and of a part of that part.
#[test]
fn slices_and_iterators_answer_as_the_plain_text() {
    let mut numbers = Numbers(7);
    for _ in 0..30 {
        let mut pair = Pair::of(numbers.text(2000));
        for _ in 0..3 {
            pair.change(&mut numbers);
            assert_all(&pair, &mut numbers);
        }
    }
}

#[test]
fn slices_of_short_texts() {
    let mut numbers = Numbers(8);
    for _ in 0..400 {
        let pair = Pair::of(numbers.text(12));
        assert_all(&pair, &mut numbers);
    }
}

fn assert_all(pair: &Pair, numbers: &mut Numbers) {
    let text = &pair.text[..];
    of_rope::assert_all(&pair.rope, text, numbers);
    let (from, to) = numbers.part(text);
    let (slice, part) = (pair.rope.slice(from..to).unwrap(), &text[from..to]);
    of_slice::assert_all(slice, part, numbers);
    let (from, to) = numbers.part(part);
    of_slice::assert_all(slice.slice(from..to).unwrap(), &part[from..to], numbers);
}
