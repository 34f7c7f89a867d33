//! Ropes in several threads: one that four ask at once, and one that a thread types into and takes back while another saves
//! what it was, and changes that.
use std::sync::mpsc::sync_channel;
use std::sync::Arc;
use std::thread;
use str_rope::{Encoding, Error, LineType, Position, Rope};

/// A line by its bytes; 17 chars, 18 UTF-16 code units, and the frog from byte 13 on.
const LINE: &str = "line of text 🐸b\r\n";

const LINES: usize = 20_000;

/// How often each of four threads asks about a line: ten questions each time, a million in all.
const ROUNDS: usize = 25_000;

/// How many changes there are while snapshots are saved.
const CHANGES: usize = 1_000_000;

fn at(line: usize, character: usize) -> Position {
    Position { line, character }
}

/// Asks about a line, and about the bytes before and after its frog.
fn ask(rope: &Rope, line: usize) {
    let start = line * LINE.len();
    assert_eq!(rope.line_content(LineType::Crlf, line), start..start + 18);
    assert!(rope.line(line, LineType::Lines).unwrap() == *LINE);
    assert_eq!(rope.char_to_byte_idx(17 * line), start);
    assert_eq!(rope.byte_to_utf16_idx(start + 17), 18 * line + 15);
    assert_eq!(
        rope.position_of(LineType::Crlf, Encoding::Utf16, start + 17),
        at(line, 15)
    );
    assert_eq!(rope.byte_of(LineType::Crlf, Encoding::Utf16, at(line, 15)), start + 17);
    assert_eq!(rope.exact_byte_of(LineType::Crlf, Encoding::Utf16, at(line, 14)), None);
    assert_eq!(rope.chars_at(start + 13).next(), Some('🐸'));
    assert_eq!(rope.slice(start + 14..), Err(Error::NotBoundary));
    assert!(rope.slice(start..start + LINE.len()).unwrap() == *LINE);
}

#[test]
fn four_threads_ask_one_rope() {
    let rope = Arc::new(Rope::from(LINE.repeat(LINES)));
    let threads = [0, 1, 2, 3].map(|nth| {
        let rope = Arc::clone(&rope);
        thread::spawn(move || (0..ROUNDS).for_each(|round| ask(&rope, (nth * 5000 + round * 7919) % LINES)))
    });
    drop(rope);
    threads.into_iter().for_each(|thread| thread.join().unwrap());
}

/// Whether a rope has the text and that number of marks in it.
fn has_marks(rope: &Rope, text: &str, marks: usize) -> bool {
    let other = rope.bytes().filter(|&byte| byte != b'#');
    rope.len() == text.len() + marks && other.eq(text.bytes())
}

/// Types five marks at one line after the other, and takes three of them back.
struct Typing {
    rope: Rope,
    at: usize,
    marks: usize,
}

impl Typing {
    fn change(&mut self, nth: usize) -> Result<(), Error> {
        if nth % 8 == 0 {
            self.at = self.rope.line_to_byte_idx(nth * 7919 % LINES, LineType::Crlf);
        }
        if nth % 8 < 5 {
            self.rope.insert(self.at, "#")?;
            self.at += 1;
            self.marks += 1;
        } else {
            self.at -= 1;
            self.rope.remove(self.at..=self.at)?;
            self.marks -= 1;
        }
        Ok(())
    }
}

/// The saver gets what is typed whenever it is ready, and the typist goes back to the text without marks after each thousand.
#[test]
fn a_thread_saves_while_another_types() {
    let text = LINE.repeat(LINES);
    let before = Rope::from(&text);
    let mut typing = Typing {
        rope: before.clone(),
        at: 0,
        marks: 0,
    };
    let (hand_on, handed) = sync_channel::<(Rope, usize)>(0);
    let saved = text.clone();
    let saver = thread::spawn(move || {
        let save = |(mut rope, marks): (Rope, usize)| {
            assert!(has_marks(&rope, &saved, marks));
            rope.replace(..LINE.len(), "one").unwrap();
            rope.append(&mut rope.clone()).unwrap();
        };
        handed.into_iter().map(save).count()
    });
    for nth in 0..CHANGES {
        typing.change(nth).unwrap();
        // the saver alone takes it, if it waits
        let _ = hand_on.try_send((typing.rope.clone(), typing.marks));
        if nth % 1000 == 999 {
            assert_eq!(typing.rope.len(), text.len() + typing.marks);
            (typing.rope, typing.marks) = (before.clone(), 0);
        }
    }
    drop(hand_on);
    assert!(saver.join().unwrap() > 0);
    assert!(before == text && typing.rope == text);
}

#[test]
fn a_rope_goes_to_other_threads() {
    let mut rope: Rope = LINE.repeat(1000).parse().unwrap();
    for _ in 0..20 {
        let change = move || {
            rope.insert(1, "b").unwrap();
            rope
        };
        rope = thread::spawn(change).join().unwrap();
    }
    thread::spawn(move || assert_eq!(rope.text_in(..21).as_deref(), Ok("lbbbbbbbbbbbbbbbbbbbb")))
        .join()
        .unwrap();
}

/// Threads walk slices of one rope, which they share as `&Rope`, both ways.
#[test]
fn threads_walk_slices_of_one_rope() {
    fn shared<T: Send + Sync>(one: T) -> T {
        one
    }
    let text = LINE.repeat(2000) + "end";
    let rope = shared(Rope::from(&text));
    shared((
        rope.bytes(),
        rope.chars(),
        rope.char_indices(),
        rope.chunks(),
        rope.lines(LineType::Lines),
    ));
    thread::scope(|scope| {
        for nth in 0..4 {
            let (rope, text) = (&rope, &text);
            scope.spawn(move || {
                let bytes = nth * 20..text.len() - nth * 20;
                let (slice, part) = (shared(rope.slice(bytes.clone()).unwrap()), &text[bytes]);
                assert!(slice.chars().eq(part.chars()) && slice.chars().rev().eq(part.chars().rev()));
                assert!(slice.bytes().eq(part.bytes()) && slice.bytes().rev().eq(part.bytes().rev()));
                let lines = slice.lines(LineType::Lf).map(|line| line.len());
                assert!(lines.eq(part.split_inclusive('\n').map(str::len)));
                assert_eq!(slice, *part);
            });
        }
    });
}

/// Each thread changes and clones its own clone, while all of them share chunks.
#[test]
fn clones_of_a_rope_are_changed_by_other_threads() {
    let text = LINE.repeat(2000);
    let rope: Rope = text.parse().unwrap();
    let change = |mut own: Rope, at: usize| {
        move || {
            for _ in 0..500 {
                let before = own.clone();
                own.insert(at, "b").unwrap();
                assert_eq!(own.len(), before.len() + 1);
            }
            own
        }
    };
    let threads: Vec<_> = (0..4)
        .map(|i| thread::spawn(change(rope.clone(), i * 4 * LINE.len())))
        .collect();
    for (i, thread) in threads.into_iter().enumerate() {
        let (front, back) = text.split_at(i * 4 * LINE.len());
        assert_eq!(thread.join().unwrap(), front.to_owned() + &"b".repeat(500) + back);
    }
    assert_eq!(rope, text);
}
