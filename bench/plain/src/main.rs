//! Times a text that changes in Rust: in a plain B-tree, in a `String`, which moves its bytes at each change, or in the rope of
//! the Cargo crate `str_rope`, which calls the library for C.
//!
//! Its words and lines are those of `../rope.rt.txt`, where the first word is `btree`, `string` or `rust`. Where it is
//! `starts`, they are those of `../index.rt.txt`: the questions about a text that does not change, by a list of its lines.

mod btree;
mod calls;
mod kept;
mod leaf;
mod queries;
mod starts;

use btree::BTree;
use calls::{below, changes, end_of, hash, make, next, next_change, questions, read, Call, Change};
use kept::Kept;
use starts::{Position, Starts};
use std::hint::black_box;
use std::time::Instant;
use std::{env, fs};
use str_rope::{Rope, Scheme};

/// How many calls are timed together.
const BATCH: usize = 100;

/// How often a timing is taken where the best counts.
const TIMINGS: usize = 3;

/// How many bytes are read together.
const ROOM: usize = 4096;

/// How many changes are made while one snapshot is kept.
const HELD: usize = 1000;

/// How many bytes of a piece removals leave.
const LEFT: usize = 256;

/// Of how many bytes the memory after removals is told.
const MILLION: usize = 1_000_000;

/// How many bytes a page of memory has.
const PAGE: usize = 4096;

/// How much is done.
#[derive(Clone, Copy)]
struct Scale {
    questions: usize,
    rounds: usize,
    changes: usize,
}

fn tell(name: &str, figure: u128, sum: u64) {
    println!("{name} {figure} {sum}");
}

/// Makes the calls, and takes the nanoseconds of one of each batch; answers a check sum of the first batch.
fn time<C: Copy>(calls: &[C], times: &mut Vec<u128>, mut make: impl FnMut(C, u64) -> u64) -> u64 {
    let mut sum = 0_u64;
    let mut first = None;
    for batch in calls.chunks(BATCH) {
        let start = Instant::now();
        for call in batch {
            sum = sum.wrapping_add(make(*call, sum));
        }
        times.push(start.elapsed().as_nanos() / batch.len() as u128);
        first.get_or_insert(sum);
    }
    first.unwrap_or(0)
}

/// The same of calls of a text that changes.
fn timed_in<K: Kept>(text: &mut K, calls: &[Call], times: &mut Vec<u128>) -> u64 {
    let mut room = [0; ROOM];
    time(calls, times, |call, before| make(text, call, before, &mut room))
}

fn median(mut times: Vec<u128>) -> u128 {
    times.sort_unstable();
    times.get(times.len() / 2).copied().unwrap_or(0)
}

/// Megabytes a second, of the best of a few timings. What is made last is dropped after the clock stops.
fn rate<T>(bytes: usize, mut once: impl FnMut() -> T) -> u128 {
    let repeats = 1_000_000 / bytes.clamp(1, 1_000_000);
    let times = (0..TIMINGS).map(|_| {
        let start = Instant::now();
        let made = (0..repeats).fold(None, |_, _| Some(black_box(once())));
        let taken = start.elapsed().as_nanos();
        drop(made);
        taken
    });
    (bytes * repeats) as u128 * 1000 / times.min().unwrap_or(1).max(1)
}

fn tell_questions<K: Kept>(text: &mut K, calls: usize) {
    let bytes = text.len();
    let [chars, units, lines] = [Scheme::Chars, Scheme::Utf16, Scheme::Crlf].map(|s| text.index_of(s, bytes));
    let rows = [
        ("line", Call::To(Scheme::Crlf, 0), lines),
        ("line-of", Call::From(Scheme::Crlf, 0), bytes),
        ("char", Call::To(Scheme::Chars, 0), chars),
        ("utf16", Call::To(Scheme::Utf16, 0), units),
        ("lines", Call::Lines(0), lines),
    ];
    for (name, kind, n) in rows {
        let mut times = Vec::new();
        let sum = timed_in(text, &questions(kind, n, calls), &mut times);
        tell(name, median(times), sum);
    }
}

/// The rounds of changes, each of a fresh text: as many bytes are put in as are taken out, or almost.
fn tell_changes<K: Kept>(source: &str, scale: Scale) {
    let rows = [
        ("remove", Change::Remove),
        ("backspace", Change::Backspace),
        ("insert", Change::Insert),
        ("typing", Change::Type),
    ];
    let mut times = rows.map(|_| Vec::new());
    let mut sum = 0_u64;
    for round in 0..scale.rounds {
        let (mut twin, mut text) = (K::of(source), K::of(source));
        for ((_, change), times) in rows.iter().zip(&mut times) {
            let calls = changes(&mut twin, *change, round as u64, scale.changes);
            timed_in(&mut text, &calls, times);
        }
        sum = sum.wrapping_add(hash(&text));
    }
    for ((name, _), times) in rows.iter().zip(times) {
        tell(name, median(times), sum);
    }
}

/// One change of each of some texts, timed together; in the calls are the changes before.
fn time_each<K: Kept>(texts: &mut [K], calls: &mut [Call], change: Change, seed: u64) -> u128 {
    let mut seed = seed;
    for (text, call) in texts.iter().zip(calls.iter_mut()) {
        seed = next(next(seed));
        *call = next_change(text, change, seed, end_of(*call));
    }
    let start = Instant::now();
    for (text, call) in texts.iter_mut().zip(calls.iter()) {
        make(text, *call, 0, &mut []);
    }
    start.elapsed().as_nanos() / BATCH as u128
}

/// The rounds of changes of fresh short texts, with a change of each kind in each of them.
fn tell_short<K: Kept>(source: &str, rounds: usize) {
    let rows = [
        ("insert", Change::Insert),
        ("remove", Change::Remove),
        ("typing", Change::Type),
        ("backspace", Change::Backspace),
    ];
    let mut times = rows.map(|_| Vec::new());
    let mut sum = 0_u64;
    for round in 0..rounds {
        let mut texts: Vec<K> = (0..BATCH).map(|_| K::of(source)).collect();
        let mut calls = [Call::Flip(0); BATCH];
        for ((_, change), times) in rows.iter().zip(&mut times) {
            times.push(time_each(&mut texts, &mut calls, *change, round as u64));
        }
        sum = texts.iter().fold(sum, |sum, text| sum.wrapping_add(hash(text)));
    }
    for ((name, _), times) in rows.iter().zip(times) {
        tell(name, median(times), sum);
    }
}

/// Where each piece ends.
fn ends<K: Kept>(text: &K) -> Vec<usize> {
    let mut end = 0;
    let mut found = Vec::new();
    text.read(0, text.len(), |piece| {
        end += piece.len();
        found.push(end);
    });
    found
}

/// Where the piece of that number begins.
fn start_of(ends: &[usize], piece: usize) -> usize {
    piece.checked_sub(1).map_or(0, |before| ends[before])
}

/// Puts letters into the piece before the middle, until it is full; answers where it ends.
fn fill_piece<K: Kept>(text: &mut K) -> usize {
    let ends = ends(text);
    let piece = ends.partition_point(|end| *end < text.len() / 2);
    let start = start_of(&ends, piece);
    let inside = text.floor(start + K::PIECE / 2);
    for _ in ends[piece]..start + K::PIECE {
        text.insert(inside, "f");
    }
    start + K::PIECE
}

/// Takes out each piece but for its last bytes, from the last piece to the first.
fn shrink_pieces<K: Kept>(text: &mut K) {
    let ends = ends(text);
    for (piece, end) in ends.iter().enumerate().rev() {
        let start = start_of(&ends, piece);
        let to = text.floor(end.saturating_sub(LEFT));
        if start < to {
            text.remove(start, to);
        }
    }
}

fn tell_changed<K: Kept>(name: &str, source: &str, calls: &[Call]) {
    let mut text = K::of(source);
    let mut times = Vec::new();
    timed_in(&mut text, calls, &mut times);
    tell(name, median(times), hash(&text));
}

/// Changes where a piece begins or ends, or is shared.
fn tell_edges<K: Kept>(source: &str, n: usize) {
    let flips: Vec<Call> = (0..n).map(Call::Flip).collect();
    tell_changed::<K>("flips", source, &flips);
    if K::PIECE > 0 {
        let mut text = K::of(source);
        let end = fill_piece(&mut text);
        let mut times = Vec::new();
        timed_in(&mut text, &vec![Call::Insert(end, 1); n], &mut times);
        tell("full", median(times), 0);
    }
    if K::IS_ROPE {
        let moves = changes(&mut K::of(source), Change::Move, 0, n);
        tell_changed::<K>("moves", source, &moves);
        tell_held::<K>(source, n);
    }
}

/// Inserts all over the text, while a snapshot is kept.
fn tell_held<K: Kept>(source: &str, n: usize) {
    let inserts = changes(&mut K::of(source), Change::Insert, 0, n);
    let mut text = K::of(source);
    let mut times = Vec::new();
    for some in inserts.chunks(HELD) {
        let _second = text.snapshot();
        timed_in(&mut text, some, &mut times);
    }
    tell("held", median(times), hash(&text));
}

fn tell_times<K: Kept>(source: &str, scale: Scale) {
    let mut text = K::of(source);
    tell("load", rate(source.len(), || K::of(black_box(source))), hash(&text));
    let mut room = [0; ROOM];
    let reading = rate(source.len(), || {
        read(black_box(&text), 0, source.len(), black_box(&mut room))
    });
    tell("read", reading, source.len() as u64);
    tell_questions(&mut text, scale.questions);
    drop(text);
    tell_changes::<K>(source, scale);
}

/// How many bytes of memory the process has.
fn memory() -> usize {
    let pages = fs::read_to_string("/proc/self/statm").expect("the system tells");
    let pages = pages.split(' ').nth(1).and_then(|pages| pages.parse().ok());
    pages.map_or(0, |pages: usize| pages * PAGE)
}

/// Tells the memory that a text takes after a load and after inserts, each with the text's bytes.
fn tell_memory<K: Kept>(source: &str, inserts: usize) {
    let before = memory();
    let mut text = K::of(source);
    tell("loaded", memory().saturating_sub(before) as u128, text.len() as u64);
    for round in 0..inserts / BATCH {
        changes(&mut text, Change::Insert, round as u64, BATCH);
    }
    tell("inserted", memory().saturating_sub(before) as u128, text.len() as u64);
}

/// Tells the memory that a text keeps after `shrink_pieces`. A second text of the first length takes what the pieces gave back:
/// so both take what the first keeps and what one load takes.
fn tell_removals<K: Kept>(source: &str) {
    let before = memory();
    let mut text = K::of(source);
    let whole = memory().saturating_sub(before);
    shrink_pieces(&mut text);
    let second = black_box(K::of(source));
    let left = memory().saturating_sub(before).saturating_sub(whole);
    drop(second);
    tell("removed", (left * MILLION / text.len().max(1)) as u128, MILLION as u64);
}

fn tell_all<K: Kept>(source: &str, job: &str, numbers: &[usize]) {
    match (job, numbers) {
        ("times", &[questions, rounds, changes]) => tell_times::<K>(
            source,
            Scale {
                questions,
                rounds,
                changes,
            },
        ),
        ("short", &[rounds]) => tell_short::<K>(source, rounds),
        ("edges", &[changes]) => tell_edges::<K>(source, changes),
        ("memory", &[inserts]) => tell_memory::<K>(source, inserts),
        ("removals", &[]) => tell_removals::<K>(source),
        _ => panic!("the jobs are times, with three numbers, short, edges and memory, with one, and removals"),
    }
}

fn tell_row<C: Copy>(name: &str, calls: &[C], made: impl FnMut(C, u64) -> u64) {
    let mut times = Vec::new();
    let sum = time(calls, &mut times, made);
    tell(name, median(times), sum);
}

/// What the questions take where a list of lines is made beside the text. Each waits for the answer before it.
fn tell_starts(source: &str, calls: usize) {
    let starts = Starts::of(source);
    let building = rate(source.len(), || Starts::of(black_box(source)));
    tell("build", building, starts.breaks() as u64);
    let mut seed = 1;
    let bytes = (0..calls).map(|_| {
        seed = next(seed);
        below(seed, source.len())
    });
    let bytes: Vec<usize> = bytes.collect();
    tell_row("position", &bytes, |byte, before| {
        let found = starts.position_of(byte ^ (before & 1) as usize);
        (found.line + found.character) as u64
    });
    let positions: Vec<Position> = bytes.iter().map(|byte| starts.position_of(*byte)).collect();
    tell_row("byte", &positions, |position, before| {
        let character = position.character ^ (before & 1) as usize;
        starts.byte_of(Position { character, ..position }) as u64
    });
}

/// Tells the memory that the list takes, with the text's bytes.
fn tell_weight(source: &str) {
    let before = memory();
    let starts = black_box(Starts::of(source));
    tell("loaded", memory().saturating_sub(before) as u128, source.len() as u64);
    drop(starts);
}

fn main() {
    let words: Vec<String> = env::args().collect();
    let [_, way, file, job, numbers @ ..] = words.as_slice() else {
        panic!("a way, a file and a job");
    };
    let source = fs::read_to_string(file).expect("there is a text");
    let numbers: Vec<usize> = numbers.iter().filter_map(|word| word.parse().ok()).collect();
    match way.as_str() {
        "btree" => tell_all::<BTree>(&source, job, &numbers),
        "rust" => tell_all::<Rope>(&source, job, &numbers),
        "starts" => match numbers.as_slice() {
            [calls] => tell_starts(&source, *calls),
            _ => tell_weight(&source),
        },
        _ => tell_all::<String>(&source, job, &numbers),
    }
}
