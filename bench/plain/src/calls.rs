//! The calls that are timed, at pseudo-random places.

use crate::kept::Kept;
use str_rope::Scheme;

/// What is put in: so many of these letters.
const LETTERS: &str = "abcdefghijklmnopqrst";

/// How many lines are read together.
const LINES: usize = 60;

/// A call, and the places that it names.
#[derive(Clone, Copy)]
pub enum Call {
    To(Scheme, usize),
    From(Scheme, usize),
    /// Lines are read, from this one on.
    Lines(usize),
    /// Letters are put in at a byte, and how many.
    Insert(usize, usize),
    /// What is between two bytes is taken out.
    Remove(usize, usize),
    /// A part between two byte indices moves to a byte index of the rest.
    Move(usize, usize, usize),
    /// CR and a letter are put in at the end, and LF and a letter at the beginning, in turns.
    Flip(usize),
}

/// A change, at a random place or beside the one before.
#[derive(Clone, Copy)]
pub enum Change {
    Remove,
    Backspace,
    Insert,
    Type,
    /// A line is moved.
    Move,
}

/// Pseudo-random numbers, the same in each program.
pub fn next(seed: u64) -> u64 {
    seed.wrapping_mul(6364136223846793005).wrapping_add(1442695040888963407)
}

/// The number as one of the first `n`.
pub fn below(seed: u64, n: usize) -> usize {
    ((seed >> 33) as usize).checked_rem(n).unwrap_or(0)
}

/// Copies the text between two bytes, part by part, to the beginning of the room; answers how many bytes they are.
pub fn read<K: Kept>(text: &K, from: usize, to: usize, room: &mut [u8]) -> u64 {
    let mut len = 0;
    text.read(from, to, |part| {
        for part in part.chunks(room.len()) {
            room[..part.len()].copy_from_slice(part);
            len += part.len() as u64;
        }
    });
    len
}

/// A check sum of all bytes and their order.
pub fn hash<K: Kept>(text: &K) -> u64 {
    let mut sum = 0_u64;
    text.read(0, text.len(), |part| {
        for byte in part {
            sum = sum.wrapping_mul(31).wrapping_add(u64::from(*byte));
        }
    });
    sum
}

/// Makes a call. Each question waits for the answer before it, whose lowest bit is part of its index.
pub fn make<K: Kept>(text: &mut K, call: Call, before: u64, room: &mut [u8]) -> u64 {
    let odd = (before & 1) as usize;
    match call {
        Call::To(scheme, index) => text.byte_of(scheme, index ^ odd) as u64,
        Call::From(scheme, byte) => text.index_of(scheme, byte ^ odd) as u64,
        Call::Lines(line) => {
            let from = text.byte_of(Scheme::Crlf, line ^ odd);
            let to = text.byte_of(Scheme::Crlf, (line ^ odd) + LINES);
            read(text, from, to, room)
        }
        Call::Insert(at, len) => {
            text.insert(at, &LETTERS[..len]);
            0
        }
        Call::Remove(from, to) => {
            text.remove(from, to);
            0
        }
        Call::Move(from, to, at) => {
            text.move_part(from, to, at);
            0
        }
        Call::Flip(i) => {
            flip(text, i);
            0
        }
    }
}

/// Where `i` is even, the text ends in CR or begins with LF after this, and where it is odd no longer.
fn flip<K: Kept>(text: &mut K, i: usize) {
    match i % 4 {
        0 => text.insert(text.len(), "\r"),
        1 => text.insert(text.len(), "a"),
        2 => text.insert(0, "\n"),
        _ => text.insert(0, "a"),
    }
}

/// Calls of the kind of one, at pseudo-random places below `n`.
pub fn questions(kind: Call, n: usize, calls: usize) -> Vec<Call> {
    let mut seed = 1;
    let one = |_| {
        seed = next(seed);
        let place = below(seed, n);
        match kind {
            Call::To(scheme, _) => Call::To(scheme, place),
            Call::From(scheme, _) => Call::From(scheme, place),
            _ => Call::Lines(place),
        }
    };
    (0..calls).map(one).collect()
}

/// The next change, where `last` is where the one before ended.
pub fn next_change<K: Kept>(text: &K, change: Change, seed: u64, last: usize) -> Call {
    let place = below(seed, text.len());
    let some = below(next(seed), 20);
    match change {
        Change::Remove => Call::Remove(text.floor(place), text.floor(place + 4 + some)),
        Change::Backspace => Call::Remove(text.floor(last.saturating_sub(1)), last),
        Change::Insert => Call::Insert(text.floor(place), some + 1),
        Change::Type => Call::Insert(last, 1),
        Change::Move => next_move(text, seed),
    }
}

/// A line, and where another one begins once it is out.
fn next_move<K: Kept>(text: &K, seed: u64) -> Call {
    let start_of = |line| text.byte_of(Scheme::Crlf, line);
    let lines = text.index_of(Scheme::Crlf, text.len());
    let line = below(seed, lines);
    let (from, to) = (start_of(line), start_of(line + 1));
    let at = start_of(below(next(seed), lines));
    Call::Move(from, to, if from < at { at - (to - from) } else { at })
}

/// Where a change ends.
pub fn end_of(call: Call) -> usize {
    match call {
        Call::Insert(at, len) => at + len,
        Call::Remove(from, _) => from,
        _ => 0,
    }
}

/// Changes, each in the text that those before it leave: they are made.
pub fn changes<K: Kept>(text: &mut K, change: Change, seed: u64, calls: usize) -> Vec<Call> {
    let mut seed = seed;
    let mut last = text.floor(text.len() / 2);
    let one = |_| {
        seed = next(next(seed));
        let call = next_change(text, change, seed, last);
        last = end_of(call);
        make(text, call, 0, &mut []);
        call
    };
    (0..calls).map(one).collect()
}
