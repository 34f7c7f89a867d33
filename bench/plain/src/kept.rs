//! A text that changes, kept in one of three ways.

use crate::btree::BTree;
use crate::leaf;
use crate::queries::{byte_of, index_of};
use str_rope::{Rope, Scheme};

/// What is timed of a text.
pub trait Kept: Sized {
    /// How many bytes a piece of it has at most; 0 where it has none.
    const PIECE: usize = 0;

    /// Whether it has snapshots, and can be cut and joined.
    const IS_ROPE: bool = false;

    fn of(source: &str) -> Self;

    fn len(&self) -> usize;

    fn byte_of(&self, scheme: Scheme, index: usize) -> usize;

    fn index_of(&self, scheme: Scheme, byte: usize) -> usize;

    /// Where the character begins that the byte is in.
    fn floor(&self, byte: usize) -> usize {
        self.byte_of(Scheme::Chars, self.index_of(Scheme::Chars, byte))
    }

    fn insert(&mut self, at: usize, more: &str);

    fn remove(&mut self, from: usize, to: usize);

    /// Moves what is between two bytes to a place in the rest, where it can be cut.
    fn move_part(&mut self, _from: usize, _to: usize, _at: usize) {}

    /// A second text, where there are snapshots.
    fn snapshot(&self) -> Option<Self> {
        None
    }

    /// Hands out the text between two bytes, in order, piece by piece.
    fn read(&self, from: usize, to: usize, each: impl FnMut(&[u8]));
}

impl Kept for BTree {
    const PIECE: usize = leaf::ROOM;

    fn of(source: &str) -> BTree {
        BTree::of(source)
    }

    fn len(&self) -> usize {
        BTree::len(self)
    }

    fn byte_of(&self, scheme: Scheme, index: usize) -> usize {
        BTree::byte_of(self, scheme, index)
    }

    fn index_of(&self, scheme: Scheme, byte: usize) -> usize {
        BTree::index_of(self, scheme, byte)
    }

    fn insert(&mut self, at: usize, more: &str) {
        BTree::insert(self, at, more);
    }

    fn remove(&mut self, from: usize, to: usize) {
        BTree::remove(self, from, to);
    }

    fn read(&self, from: usize, to: usize, mut each: impl FnMut(&[u8])) {
        BTree::read(self, from, to, &mut each);
    }
}

impl Kept for String {
    fn of(source: &str) -> String {
        source.to_string()
    }

    fn len(&self) -> usize {
        String::len(self)
    }

    fn byte_of(&self, scheme: Scheme, index: usize) -> usize {
        byte_of(scheme, self, index)
    }

    fn index_of(&self, scheme: Scheme, byte: usize) -> usize {
        index_of(scheme, self, byte)
    }

    fn floor(&self, byte: usize) -> usize {
        let mut at = byte.min(self.len());
        while !self.is_char_boundary(at) {
            at -= 1;
        }
        at
    }

    fn insert(&mut self, at: usize, more: &str) {
        self.insert_str(at, more);
    }

    fn remove(&mut self, from: usize, to: usize) {
        self.replace_range(from..to, "");
    }

    fn read(&self, from: usize, to: usize, mut each: impl FnMut(&[u8])) {
        each(&self.as_bytes()[from..to]);
    }
}

impl Kept for Rope {
    const PIECE: usize = 1024;
    const IS_ROPE: bool = true;

    fn of(source: &str) -> Rope {
        source.parse().expect("there is memory")
    }

    fn len(&self) -> usize {
        Rope::len(self)
    }

    fn byte_of(&self, scheme: Scheme, index: usize) -> usize {
        Rope::to_byte_idx(self, scheme, index)
    }

    fn index_of(&self, scheme: Scheme, byte: usize) -> usize {
        Rope::from_byte_idx(self, scheme, byte)
    }

    fn insert(&mut self, at: usize, more: &str) {
        Rope::insert(self, at, more).expect("the place is a boundary");
    }

    fn remove(&mut self, from: usize, to: usize) {
        Rope::remove(self, from..to).expect("both places are boundaries");
    }

    fn move_part(&mut self, from: usize, to: usize, at: usize) {
        let cut = |text: &mut Rope, at| text.split_off(at).expect("the place is a boundary");
        let mut part = cut(self, from);
        let mut rest = cut(&mut part, to - from);
        self.append(&mut rest).expect("there is memory");
        let mut rest = cut(self, at);
        self.append(&mut part).expect("there is memory");
        self.append(&mut rest).expect("there is memory");
    }

    fn snapshot(&self) -> Option<Rope> {
        Some(self.try_clone().expect("there is memory"))
    }

    fn read(&self, from: usize, to: usize, mut each: impl FnMut(&[u8])) {
        let slice = self.slice(from..to).expect("both places are boundaries");
        slice.chunks().for_each(|chunk| each(chunk.as_bytes()));
    }
}
