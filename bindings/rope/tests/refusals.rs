//! Each allocation of each call refused in turn, be it the library's or Rust's: the call returns the error, each text is as it
//! was, nothing is left over, and the same call does what it should when it is made again. So it is beside a clone, which
//! shares the chunks and keeps its text.
mod refused_memory;

use refused_memory::{living, refusing};
use std::fmt::Write;
use str_rope::{Encoding, Error, LineType, Position, Range, Rope, RopeBuilder, Scheme};

const LINE: &str = "line of text 🐸b\r\n";

/// How many lines a rope has.
const LINES: usize = 2000;

/// The text of a rope before a call, a text that comes, and one that fills the room of a builder.
struct Texts {
    whole: String,
    more: String,
    much: String,
}

/// The texts that a call changes or makes.
struct State {
    rope: Rope,
    other: Rope,
    builder: RopeBuilder,
    text: String,
}

impl State {
    fn new(whole: &str) -> State {
        let mut builder = RopeBuilder::new();
        builder.append("built").unwrap();
        State {
            rope: Rope::from(whole),
            other: Rope::from("other"),
            builder,
            text: String::new(),
        }
    }

    /// The texts of the rope, of the other one, of the builder and of the copy.
    fn texts(&self) -> [String; 4] {
        let built = self.builder.clone().finish().unwrap();
        [
            String::from(&self.rope),
            String::from(&self.other),
            String::from(built),
            self.text.clone(),
        ]
    }
}

/// A call: its name, what it does to a state, and what it leaves of the rope, the other one, the builder and the copy.
struct Call {
    name: &'static str,
    make: fn(&mut State, &Texts) -> Result<(), Error>,
    wanted: fn(&Texts) -> [String; 4],
}

/// A text with a part of it replaced.
fn replaced(whole: &str, from: usize, to: usize, text: &str) -> String {
    whole[..from].to_owned() + text + &whole[to..]
}

/// The four texts after a call that changes the rope alone.
fn of_rope(text: String) -> [String; 4] {
    [text, "other".into(), "built".into(), String::new()]
}

fn lines(from: usize, to: usize) -> Range {
    let [start, end] = [from, to].map(|line| Position { line, character: 0 });
    Range { start, end }
}

/// The four texts after a call that changes the builder alone.
fn of_builder(texts: &Texts, put: &str) -> [String; 4] {
    [
        texts.whole.clone(),
        "other".into(),
        "built".to_owned() + put,
        String::new(),
    ]
}

/// The four texts after a call that makes a second rope, of the whole text or of a part.
fn of_both(one: &str, other: &str) -> [String; 4] {
    [one.into(), other.into(), "built".into(), String::new()]
}

const CALLS: [Call; 17] = [
    Call {
        name: "assign",
        make: |of, texts| of.rope.assign(&texts.more),
        wanted: |texts| of_rope(texts.more.clone()),
    },
    Call {
        name: "from_str",
        make: |of, texts| Rope::from_str(&texts.more).map(|rope| of.rope = rope),
        wanted: |texts| of_rope(texts.more.clone()),
    },
    Call {
        name: "try_clone",
        make: |of, _| of.rope.try_clone().map(|rope| of.other = rope),
        wanted: |texts| of_both(&texts.whole, &texts.whole),
    },
    Call {
        name: "insert",
        make: |of, _| of.rope.insert(20_000, "せ"),
        wanted: |texts| of_rope(replaced(&texts.whole, 20_000, 20_000, "せ")),
    },
    Call {
        name: "a long insert",
        make: |of, texts| of.rope.insert(20_000, &texts.more),
        wanted: |texts| of_rope(replaced(&texts.whole, 20_000, 20_000, &texts.more)),
    },
    Call {
        name: "insert_char",
        make: |of, _| of.rope.insert_char(13, '🐸'),
        wanted: |texts| of_rope(replaced(&texts.whole, 13, 13, "🐸")),
    },
    Call {
        name: "remove",
        make: |of, _| of.rope.remove(800..39_020),
        wanted: |texts| of_rope(replaced(&texts.whole, 800, 39_020, "")),
    },
    Call {
        name: "replace",
        make: |of, texts| of.rope.replace(40..30_000, &texts.more),
        wanted: |texts| of_rope(replaced(&texts.whole, 40, 30_000, &texts.more)),
    },
    Call {
        name: "append",
        make: |of, _| of.rope.append(&mut of.other),
        wanted: |texts| of_both(&(texts.whole.clone() + "other"), ""),
    },
    Call {
        name: "split_off",
        make: |of, _| of.rope.split_off(20_001).map(|rest| of.other = rest),
        wanted: |texts| of_both(&texts.whole[..20_001], &texts.whole[20_001..]),
    },
    Call {
        name: "change",
        make: |of, texts| of.rope.change(Encoding::Utf16, lines(20, 200), &texts.more),
        wanted: |texts| of_rope(replaced(&texts.whole, 400, 4000, &texts.more)),
    },
    Call {
        name: "change_exact",
        make: |of, _| of.rope.change_exact(Encoding::Utf8, lines(1, 1999), "x"),
        wanted: |texts| of_rope(replaced(&texts.whole, 20, 39_980, "x")),
    },
    Call {
        name: "to_rope",
        make: |of, _| of.rope.slice(20..39_000)?.to_rope().map(|rope| of.other = rope),
        wanted: |texts| of_both(&texts.whole, &texts.whole[20..39_000]),
    },
    Call {
        name: "text_in",
        make: |of, _| of.rope.text_in(20..39_000).map(|text| of.text = text),
        wanted: |texts| {
            [
                texts.whole.clone(),
                "other".into(),
                "built".into(),
                texts.whole[20..39_000].into(),
            ]
        },
    },
    Call {
        name: "a builder's append",
        make: |of, texts| of.builder.append(&texts.more),
        wanted: |texts| of_builder(texts, &texts.more),
    },
    Call {
        name: "a builder's append of much",
        make: |of, texts| of.builder.append(&texts.much),
        wanted: |texts| of_builder(texts, &texts.much),
    },
    Call {
        name: "write_str",
        make: |of, texts| of.rope.write_str(&texts.more).map_err(|_| Error::NoMemory),
        wanted: |texts| of_rope(texts.whole.clone() + &texts.more),
    },
];

/// Makes a call with its nth allocation refused, and again; whether it came as far as that one.
fn try_refused(call: &Call, texts: &Texts, is_shared: bool, nth: usize) -> bool {
    let name = call.name;
    let mut state = State::new(&texts.whole);
    let clone = is_shared.then(|| state.rope.clone());
    let before = state.texts();
    let (answer, tried) = refusing(nth..nth + 1, || (call.make)(&mut state, texts));
    let came = tried >= nth;
    assert_eq!(
        answer,
        if came { Err(Error::NoMemory) } else { Ok(()) },
        "{name}, {nth}"
    );
    if came {
        assert!(state.texts() == before, "{name}, what a refusal of {nth} leaves");
        assert_eq!((call.make)(&mut state, texts), Ok(()), "{name} again, {nth}");
    }
    assert!(state.texts() == (call.wanted)(texts), "{name}, {nth}");
    assert!(clone.map_or(true, |clone| clone == texts.whole), "{name}, a clone");
    came
}

#[test]
fn each_allocation_is_refused_in_turn() {
    let texts = Texts {
        whole: LINE.repeat(LINES),
        more: "せ".repeat(20_000),
        much: "a\n".repeat(140_000),
    };
    for call in &CALLS {
        for is_shared in [false, true] {
            let before = living();
            let refused = (1..)
                .take_while(|&nth| try_refused(call, &texts, is_shared, nth))
                .count();
            assert!(refused > 0 || !is_shared, "{} takes no memory", call.name);
            assert_eq!(living(), before, "{}, what is left over", call.name);
        }
    }
}

/// A builder that is refused memory at its end is gone, and all that it had.
#[test]
fn the_end_of_a_builder_is_refused() {
    let built = LINE.repeat(100);
    let before = living();
    for nth in 1.. {
        let mut builder = RopeBuilder::new();
        builder.append(&built).unwrap();
        let (rope, tried) = refusing(nth..nth + 1, || builder.finish());
        if tried < nth {
            assert_eq!(rope.unwrap(), built);
            break;
        }
        assert_eq!(rope, Err(Error::NoMemory), "{nth}");
    }
    assert_eq!(living(), before);
}

/// Questions, walks, comparisons, and a removal of all.
#[test]
fn what_takes_no_memory_succeeds_where_all_is_refused() {
    let whole = LINE.repeat(LINES);
    let mut rope = Rope::from(&whole);
    let clone = rope.clone();
    let ((), tried) = refusing(1..usize::MAX, || {
        let slice = rope.slice(20..).unwrap();
        assert_eq!(
            (slice.count(Scheme::Lines), slice.len_chars()),
            (LINES - 1, 17 * (LINES - 1))
        );
        assert_eq!(rope.lines(LineType::Lines).rev().count(), LINES + 1);
        assert!(slice.chars().eq(whole[20..].chars()) && rope.chars().rev().eq(whole.chars().rev()));
        assert_eq!(rope.line_content(LineType::Lf, 7), 140..159);
        assert_eq!(
            rope.byte_of(
                LineType::Crlf,
                Encoding::Utf16,
                rope.position_of(LineType::Crlf, Encoding::Utf16, 37)
            ),
            37
        );
        assert!(rope == clone && slice.trim_end() == whole[20..].trim_end() && slice < clone.slice(..).unwrap());
        assert_eq!(rope.copy_to(..20, &mut [0; 20]), Ok(20));
        rope.remove(..).unwrap();
        drop(RopeBuilder::new());
    });
    assert_eq!((tried, &*rope.to_string(), &*clone.to_string()), (0, "", &*whole));
}

/// Also where no memory is left for what tells of it.
#[cfg(feature = "std")]
#[test]
fn a_reader_is_told_that_memory_was_refused() {
    let whole = LINE.repeat(8 * LINES);
    let read = || Rope::from_reader(whole.as_bytes()).map_err(|error| error.kind());
    let before = living();
    for nth in 1.. {
        let (answer, tried) = refusing(nth..nth + 1, read);
        let (all_refused, _) = refusing(nth..usize::MAX, read);
        if tried < nth {
            assert!(answer.unwrap() == *whole && all_refused.unwrap() == *whole);
            break;
        }
        assert_eq!(answer.err(), Some(std::io::ErrorKind::OutOfMemory), "{nth}");
        assert_eq!(
            all_refused.err(),
            Some(std::io::ErrorKind::OutOfMemory),
            "from {nth} on"
        );
    }
    assert_eq!(living(), before);
}
