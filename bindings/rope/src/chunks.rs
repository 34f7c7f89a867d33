//! The chunks of a rope, lent.
use crate::library::{str_rope_chunk_at, str_rope_chunks_at, str_rope_chunks_before, LentChunk};
use crate::walk::Steps;
use crate::Rope;
use core::{slice, str};

/// The most bytes that a chunk has.
pub const MAX_CHUNK: usize = 1024;

impl Rope {
    /// The chunk that a byte is in, and the byte index where it begins; none from the end of the text on.
    pub(crate) fn lend(&self, byte_idx: usize) -> Option<(&str, usize)> {
        let mut chunk = LentChunk::NONE;
        // SAFETY: as `library` says, and the chunk may be written to.
        let is_there = unsafe { str_rope_chunk_at(self.handle(), byte_idx, &mut chunk) };
        // SAFETY: the library lent it.
        is_there.then(|| (unsafe { self.text_of(chunk) }, chunk.start))
    }

    /// The chunk that a byte is in and those that follow it that way, as many as there is room for, at most `MOST_HELD`.
    /// Returns how many, and the byte index where the first begins; from the end of the text on there is none.
    fn lend_several<'a>(&'a self, byte: usize, way: Way, room: &mut [&'a str; MOST_HELD]) -> (usize, usize) {
        let mut chunks = [LentChunk::NONE; MOST_HELD];
        // SAFETY: as `library` says, and `chunks` may be written to, as far as `chunks.len()` says.
        let count = unsafe {
            match way {
                Way::On => str_rope_chunks_at(self.handle(), byte, chunks.as_mut_ptr(), chunks.len()),
                Way::Back => str_rope_chunks_before(self.handle(), byte + 1, chunks.as_mut_ptr(), chunks.len()),
            }
        };
        for (text, &chunk) in room.iter_mut().zip(&chunks[..count]) {
            // SAFETY: the library lent it.
            *text = unsafe { self.text_of(chunk) };
        }
        (count, if count == 0 { byte } else { chunks[0].start })
    }

    /// The text of a chunk that the library lent of this rope.
    unsafe fn text_of(&self, chunk: LentChunk) -> &str {
        // SAFETY: the library lends that many bytes until the handle is in a call that takes it as `*mut`. The borrow of
        // the rope lets nobody make such a call: each takes `&mut Rope`, or owns it. Clones that share the chunk leave it.
        let bytes = unsafe { slice::from_raw_parts(chunk.text, chunk.len) };
        // SAFETY: a chunk is UTF-8 by itself, as str_rope.h says.
        unsafe { str::from_utf8_unchecked(bytes) }
    }
}

/// How many chunks an iterator has at hand at most.
const MOST_HELD: usize = 8;

/// Which way an iterator goes.
#[derive(Clone, Copy, PartialEq)]
enum Way {
    On,
    Back,
}

/// The chunks that an iterator has at hand, so that it asks the library once for several.
#[derive(Clone, Copy)]
pub(crate) struct Held<'a> {
    rope: &'a Rope,
    /// The chunk in use, and the byte index where it begins.
    text: &'a str,
    start: usize,
    /// Chunks that follow each other that way, and which of them is in use.
    lent: [&'a str; MOST_HELD],
    count: usize,
    index: usize,
    way: Way,
}

impl<'a> Held<'a> {
    /// No chunk of the rope yet.
    pub fn new(rope: &'a Rope) -> Held<'a> {
        Held {
            rope,
            text: "",
            start: 0,
            lent: [""; MOST_HELD],
            count: 0,
            index: 0,
            way: Way::On,
        }
    }

    /// The text of the chunk of the byte at a place, from there on. It is empty at the end of the rope's text.
    #[inline]
    pub fn after(&mut self, at: usize) -> &'a [u8] {
        self.hold(at, Way::On);
        self.text.as_bytes().get(at - self.start..).unwrap_or_default()
    }

    /// The text of the chunk of the byte before a place, up to there.
    #[inline]
    pub fn before(&mut self, at: usize) -> &'a [u8] {
        self.hold(at - 1, Way::Back);
        self.text.as_bytes().get(..at - self.start).unwrap_or_default()
    }

    /// As `after`, from a boundary on.
    #[inline]
    pub fn text_after(&mut self, at: usize) -> &'a str {
        self.hold(at, Way::On);
        self.text.get(at - self.start..).unwrap_or_default()
    }

    /// As `before`, up to a boundary.
    #[inline]
    pub fn text_before(&mut self, at: usize) -> &'a str {
        self.hold(at - 1, Way::Back);
        self.text.get(..at - self.start).unwrap_or_default()
    }

    /// Takes the chunk of a byte in use, on a way.
    #[inline]
    fn hold(&mut self, byte: usize, way: Way) {
        if !self.has(byte) {
            self.turn(byte, way);
        }
    }

    /// Whether a byte is in the chunk in use.
    #[inline]
    fn has(&self, byte: usize) -> bool {
        byte.wrapping_sub(self.start) < self.text.len()
    }

    /// Takes another chunk in use: the next one at hand, or one that is lent anew.
    #[cold]
    #[inline(never)]
    fn turn(&mut self, byte: usize, way: Way) {
        self.step(way);
        if !self.has(byte) {
            self.ask(byte, way);
        }
    }

    /// Takes the next chunk at hand in use, if there is one that way.
    fn step(&mut self, way: Way) {
        let index = if way == self.way {
            self.index + 1
        } else {
            self.index.wrapping_sub(1)
        };
        let Some(&next) = self.lent[..self.count].get(index) else {
            return;
        };
        match way {
            Way::On => self.start += self.text.len(),
            Way::Back => self.start -= next.len(),
        }
        (self.text, self.index) = (next, index);
    }

    /// Asks the library for the chunk of a byte and those that follow it that way: for one at first, since most ways are short,
    /// and then for several.
    fn ask(&mut self, byte: usize, way: Way) {
        if self.count == 0 {
            (self.lent[0], self.start) = self.rope.lend(byte).unwrap_or(("", byte));
            self.count = 1;
        } else {
            (self.count, self.start) = self.rope.lend_several(byte, way, &mut self.lent);
        }
        self.text = if self.count == 0 { "" } else { self.lent[0] };
        (self.index, self.way) = (0, way);
    }
}

/// Goes from chunk to chunk.
#[derive(Clone)]
pub(crate) struct ChunkSteps<'a>(pub Held<'a>);

impl<'a> Steps for ChunkSteps<'a> {
    type Item = &'a str;
    const MOST: usize = MAX_CHUNK;

    #[inline]
    fn after(&mut self, at: usize, end: usize) -> Option<(&'a str, usize)> {
        let text = self.0.text_after(at);
        let text = &text[..text.len().min(end - at)];
        (!text.is_empty()).then_some((text, at + text.len()))
    }

    #[inline]
    fn before(&mut self, at: usize, start: usize) -> Option<(&'a str, usize)> {
        let text = self.0.text_before(at);
        let text = &text[text.len().saturating_sub(at - start)..];
        (!text.is_empty()).then_some((text, at - text.len()))
    }
}
