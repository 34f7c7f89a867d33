//! The memory of an index is refused: there is none then, nothing is left over, and the next one is made. Questions, and clones
//! of what is made, take none.
#[path = "../../rope/tests/refused_memory/mod.rs"]
mod refused_memory;

use refused_memory::{living, refusing};
use std::sync::Arc;
use str_index::{Encoding, LineType, NoMemory, OwnedIndex, Scheme, TextIndex};

const LINE: &str = "line of text 🐸b\r\n";

const LINES: usize = 2000;

/// A few questions, of lines that are all alike.
fn ask(index: &TextIndex<'_>) {
    assert_eq!((index.len(), index.count(Scheme::Utf16)), (20 * LINES, 18 * LINES));
    assert_eq!(index.line(7, LineType::Crlf), Some(LINE));
    assert_eq!(index.lines(LineType::Lines).rev().count(), LINES + 1);
    assert_eq!(
        index.byte_of(
            LineType::Crlf,
            Encoding::Utf16,
            index.position_of(LineType::Crlf, Encoding::Utf16, 37)
        ),
        37
    );
    assert_eq!(index.floor_char_boundary(35), 33);
}

#[test]
fn an_index_is_refused_and_the_next_is_made() {
    let text = LINE.repeat(LINES);
    for len in [0, 1, 1020, 1024, text.len()] {
        let (part, before) = (&text[..len], living());
        let (refused, tried) = refusing(1..2, || TextIndex::new(part).err());
        assert_eq!((refused, tried), (Some(NoMemory), 1));
        assert_eq!(TextIndex::new(part).unwrap().len(), len);
        assert_eq!(living(), before);
    }
    ask(&TextIndex::new(&text).unwrap());
}

#[test]
fn an_owned_index_is_refused_and_gives_its_text_back() {
    let text: Arc<str> = LINE.repeat(LINES).into();
    let before = living();
    let (refused, _) = refusing(1..2, || OwnedIndex::new(Arc::clone(&text)).err());
    assert_eq!((refused, Arc::strong_count(&text)), (Some(NoMemory), 1));
    ask(OwnedIndex::new(Arc::clone(&text)).unwrap().as_index());
    assert_eq!((living(), Arc::strong_count(&text)), (before, 1));
}

#[test]
fn questions_and_clones_take_no_memory() {
    let text: Arc<str> = LINE.repeat(LINES).into();
    let (lent, owned) = (
        TextIndex::new(&text).unwrap(),
        OwnedIndex::new(Arc::clone(&text)).unwrap(),
    );
    let ((), tried) = refusing(1..usize::MAX, || {
        ask(&lent.clone());
        ask(owned.clone().as_index());
    });
    assert_eq!(tried, 0);
}
