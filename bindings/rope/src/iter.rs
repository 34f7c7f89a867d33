//! Iterators over a text, which a rope and its slices have alike.
//!
//! Each stands at a place in a part of a text, and knows the text on both sides: [`Chars::prev`] goes back over the char before
//! the place. The other end of what remains is taken from by `next_back`.
use crate::chunks::{ChunkSteps, Held};
use crate::lines::LineSteps;
use crate::walk::{Steps, Walk};
use crate::{LineType, RopeSlice};
use core::fmt;
use core::iter::FusedIterator;

/// Goes from byte to byte.
#[derive(Clone)]
pub(crate) struct ByteSteps<'a>(Held<'a>);

impl Steps for ByteSteps<'_> {
    type Item = u8;
    const MOST: usize = 1;

    #[inline]
    fn after(&mut self, at: usize, _end: usize) -> Option<(u8, usize)> {
        Some((*self.0.after(at).first()?, at + 1))
    }

    #[inline]
    fn before(&mut self, at: usize, _start: usize) -> Option<(u8, usize)> {
        Some((*self.0.before(at).last()?, at - 1))
    }
}

/// Goes from char to char.
#[derive(Clone)]
pub(crate) struct CharSteps<'a>(Held<'a>);

impl Steps for CharSteps<'_> {
    type Item = char;
    const MOST: usize = 4;

    #[inline]
    fn after(&mut self, at: usize, _end: usize) -> Option<(char, usize)> {
        let first = *self.0.after(at).first()?;
        if first.is_ascii() {
            return Some((char::from(first), at + 1));
        }
        let char = self.0.text_after(at).chars().next()?;
        Some((char, at + char.len_utf8()))
    }

    #[inline]
    fn before(&mut self, at: usize, _start: usize) -> Option<(char, usize)> {
        let last = *self.0.before(at).last()?;
        if last.is_ascii() {
            return Some((char::from(last), at - 1));
        }
        let char = self.0.text_before(at).chars().next_back()?;
        Some((char, at - char.len_utf8()))
    }
}

/// Goes from char to char, and tells where each begins.
#[derive(Clone)]
pub(crate) struct CharIndexSteps<'a> {
    chars: CharSteps<'a>,
    /// Where the text begins in the rope's.
    origin: usize,
}

impl Steps for CharIndexSteps<'_> {
    type Item = (usize, char);
    const MOST: usize = 4;

    #[inline]
    fn after(&mut self, at: usize, end: usize) -> Option<((usize, char), usize)> {
        let (char, end) = self.chars.after(at, end)?;
        Some(((at - self.origin, char), end))
    }

    #[inline]
    fn before(&mut self, at: usize, start: usize) -> Option<((usize, char), usize)> {
        let (char, start) = self.chars.before(at, start)?;
        Some(((start - self.origin, char), start))
    }
}

/// An iterator over a walk, with the methods that each has.
macro_rules! iterator {
    ($(#[$doc:meta])* $name:ident($steps:ident): $item:ty) => {
        $(#[$doc])*
        #[derive(Clone)]
        pub struct $name<'a> {
            walk: Walk<$steps<'a>>,
            /// Where the text begins, as the walk counts places.
            origin: usize,
        }

        impl<'a> $name<'a> {
            /// Goes back over the item before the place, and returns it; at the beginning of the text, `None`. `next` then
            /// returns that item again.
            #[inline]
            pub fn prev(&mut self) -> Option<$item> {
                self.walk.prev()
            }

            /// Turns the iterator round at its place: `next` goes back from then on, and `prev` goes on.
            pub fn reverse(&mut self) {
                self.walk.reverse();
            }

            /// Returns the iterator turned round at its place. `rev`, of `std`, begins at the other end of what remains.
            #[must_use]
            pub fn reversed(mut self) -> $name<'a> {
                self.reverse();
                self
            }
        }

        impl<'a> Iterator for $name<'a> {
            type Item = $item;

            #[inline]
            fn next(&mut self) -> Option<$item> {
                self.walk.next()
            }

            fn size_hint(&self) -> (usize, Option<usize>) {
                self.walk.size_hint()
            }
        }

        /// `next_back` takes the last item that remains off, for good.
        impl<'a> DoubleEndedIterator for $name<'a> {
            #[inline]
            fn next_back(&mut self) -> Option<$item> {
                self.walk.next_back()
            }
        }

        /// `next` returns `None` again after it did, until `prev` goes back.
        impl FusedIterator for $name<'_> {}

        /// Writes the items that remain.
        impl fmt::Debug for $name<'_> {
            fn fmt(&self, f: &mut fmt::Formatter<'_>) -> fmt::Result {
                f.debug_list().entries(self.clone()).finish()
            }
        }
    };
}

iterator! {
    /// The bytes of a text.
    Bytes(ByteSteps): u8
}

iterator! {
    /// The chars of a text.
    ///
    /// ```
    /// let rope = str_rope::Rope::from("one🐸two");
    /// let mut chars = rope.chars_at(3);
    /// assert_eq!((chars.next(), chars.prev(), chars.prev()), (Some('🐸'), Some('🐸'), Some('e')));
    /// assert_eq!(rope.chars_at(3).reversed().collect::<String>(), "eno");
    /// assert_eq!(rope.chars_at(3).rev().collect::<String>(), "owt🐸");
    /// ```
    Chars(CharSteps): char
}

iterator! {
    /// The chars of a text, each with the byte index where it begins.
    CharIndices(CharIndexSteps): (usize, char)
}

iterator! {
    /// The chunks of a text, each lent as a `&str` while the rope is borrowed. None is empty, and one after the other they
    /// are the text. Nothing says where a chunk ends: ropes of equal text may have other chunks, and the CR and the LF of
    /// one break may lie in two.
    ///
    /// ```
    /// let rope = str_rope::Rope::from("one two ".repeat(1000));
    /// let longest: &str = rope.chunks().flat_map(|chunk| chunk.split(' ')).max_by_key(|word| word.len()).unwrap();
    /// assert_eq!(rope.chunks().map(str::len).sum::<usize>(), 8000);
    /// assert!(longest.len() <= 3);
    /// ```
    ///
    /// A chunk lives no longer than the rope stays as it is:
    ///
    /// ```compile_fail,E0502
    /// # fn main() -> Result<(), str_rope::Error> {
    /// let mut rope = str_rope::Rope::from("one");
    /// let chunk = rope.chunks().next().unwrap();
    /// rope.insert(0, "x")?;
    /// assert_eq!(chunk, "one");
    /// # Ok(())
    /// # }
    /// ```
    Chunks(ChunkSteps): &'a str
}

iterator! {
    /// The lines of a text, each with its break.
    Lines(LineSteps): RopeSlice<'a>
}

/// Methods of the iterators whose places are byte indices.
macro_rules! byte_iterator {
    ($($name:ident: $steps:expr;)*) => {$(
        impl<'a> $name<'a> {
            /// Stands at a byte index of a slice, which is a boundary unless the items are bytes.
            pub(crate) fn new(slice: RopeSlice<'a>, byte_idx: usize) -> $name<'a> {
                let (bytes, held) = (slice.range(), Held::new(slice.rope()));
                $name {
                    walk: Walk::new($steps(held, bytes.start), bytes.start, bytes.start + byte_idx, bytes.end),
                    origin: bytes.start,
                }
            }

            /// Returns the byte index of the place: `next` goes on from there.
            pub fn byte_offset(&self) -> usize {
                self.walk.at() - self.origin
            }
        }
    )*};
}

byte_iterator! {
    Bytes: |held, _| ByteSteps(held);
    Chars: |held, _| CharSteps(held);
    CharIndices: |held, origin| CharIndexSteps { chars: CharSteps(held), origin };
    Chunks: |held, _| ChunkSteps(held);
}

impl<'a> Lines<'a> {
    /// Stands at a line of a slice, which has `end` lines.
    pub(crate) fn new(slice: RopeSlice<'a>, line_type: LineType, line_idx: usize, end: usize) -> Lines<'a> {
        Lines {
            walk: Walk::new(LineSteps::new(slice, line_type), 0, line_idx, end),
            origin: 0,
        }
    }

    /// Returns the line index of the place: `next` goes on from there.
    pub fn line_idx(&self) -> usize {
        self.walk.at() - self.origin
    }
}

impl ExactSizeIterator for Bytes<'_> {}

impl ExactSizeIterator for Lines<'_> {}

/// Methods over `whole`, which answer for the lifetime of the text.
macro_rules! iterator_methods {
    ($life:lifetime) => {
        /// Lends the part between two byte indices, with no copy. Takes two searches, O(log n).
        ///
        /// Returns [`Error::NotOrdered`](crate::Error) if the range ends before it starts, and `NotBoundary` if it starts or
        /// ends past the end or inside a char.
        ///
        /// ```
        /// use str_rope::{Error, Rope};
        ///
        /// let rope = Rope::from("one 🐸");
        /// assert_eq!(rope.slice(4..).unwrap(), "🐸");
        /// assert_eq!(rope.slice(..5), Err(Error::NotBoundary));
        /// assert_eq!(rope.slice(9..), Err(Error::NotOrdered));
        /// ```
        pub fn slice(
            &self,
            range: impl core::ops::RangeBounds<usize>,
        ) -> Result<$crate::RopeSlice<$life>, $crate::Error> {
            self.whole().part($crate::slice::bytes_of(range, self.len()))
        }

        /// Returns the text without the white space at its beginning, as `str::trim_start` does. Takes O(log n), and reads
        /// that white space.
        pub fn trim_start(&self) -> $crate::RopeSlice<$life> {
            let slice = self.whole();
            let first = slice.char_indices().find(|(_, char)| !char.is_whitespace());
            let bytes = slice.range();
            let start = first.map_or(bytes.end, |(at, _)| bytes.start + at);
            $crate::RopeSlice::new(slice.rope(), start, bytes.end)
        }

        /// Returns the text without the white space at its end, as `str::trim_end` does. Takes O(log n), and reads that
        /// white space.
        pub fn trim_end(&self) -> $crate::RopeSlice<$life> {
            let slice = self.whole();
            let last = slice.char_indices().rfind(|(_, char)| !char.is_whitespace());
            let start = slice.range().start;
            let end = last.map_or(start, |(at, char)| start + at + char.len_utf8());
            $crate::RopeSlice::new(slice.rope(), start, end)
        }

        /// Returns the text without the white space at both ends, as `str::trim` does. Takes O(log n), and reads that white
        /// space.
        ///
        /// ```
        /// let rope = str_rope::Rope::from("\r\n one two\u{2028}");
        /// assert_eq!(rope.trim(), "one two");
        /// ```
        pub fn trim(&self) -> $crate::RopeSlice<$life> {
            self.trim_start().trim_end()
        }

        /// Lends the whole text as one `&str` if it lies in one chunk; else returns `None`. Takes one search, O(log n).
        ///
        /// ```
        /// assert_eq!(str_rope::Rope::from("one").as_str(), Some("one"));
        /// assert_eq!(str_rope::Rope::from("one".repeat(1000)).as_str(), None);
        /// ```
        pub fn as_str(&self) -> Option<&$life str> {
            match self.chunk_at(0) {
                Some((text, _)) => (text.len() == self.len()).then_some(text),
                None => Some(""),
            }
        }

        /// Lends the chunk that a byte is in, with the byte index where it begins; from the end on, returns `None`. A slice
        /// lends that part of a chunk that lies in the slice. Takes one search, O(log n).
        ///
        /// ```
        /// let rope = str_rope::Rope::from("a🐸b");
        /// assert_eq!(rope.chunk_at(3), Some(("a🐸b", 0)));
        /// assert_eq!(rope.chunk_at(6), None);
        /// assert_eq!(rope.slice(1..5).unwrap().chunk_at(3), Some(("🐸", 0)));
        /// ```
        pub fn chunk_at(&self, byte_idx: usize) -> Option<(&$life str, usize)> {
            self.whole().chunk_of(byte_idx)
        }

        /// Goes over the chunks in order, each lent as a `&str`. Each takes O(log n) at most.
        pub fn chunks(&self) -> $crate::Chunks<$life> {
            $crate::Chunks::new(self.whole(), 0)
        }

        /// Goes over the chunks from the one that a byte is in; from the end on, over none. `prev` gives the chunks before
        /// it. Each takes O(log n) at most.
        ///
        /// ```
        /// let rope = str_rope::Rope::from("one two ".repeat(1000));
        /// let mut chunks = rope.chunks_at(5000);
        /// let start = chunks.byte_offset();
        /// assert!(start <= 5000 && 5000 < start + chunks.next().unwrap().len());
        /// ```
        pub fn chunks_at(&self, byte_idx: usize) -> $crate::Chunks<$life> {
            let start = self.chunk_at(byte_idx).map_or(self.len(), |(_, start)| start);
            $crate::Chunks::new(self.whole(), start)
        }

        /// Goes over the bytes in order. Each chunk takes O(log n) at most.
        pub fn bytes(&self) -> $crate::Bytes<$life> {
            $crate::Bytes::new(self.whole(), 0)
        }

        /// Goes over the bytes from a byte index on; from the end on, over none. `prev` gives the bytes before it. Each
        /// chunk takes O(log n) at most.
        pub fn bytes_at(&self, byte_idx: usize) -> $crate::Bytes<$life> {
            $crate::Bytes::new(self.whole(), byte_idx.min(self.len()))
        }

        /// Goes over the chars in order. Each chunk takes O(log n) at most.
        pub fn chars(&self) -> $crate::Chars<$life> {
            $crate::Chars::new(self.whole(), 0)
        }

        /// Goes over the chars from the one that a byte is in; from the end on, over none. `prev` gives the chars before it.
        /// Each chunk takes O(log n) at most.
        pub fn chars_at(&self, byte_idx: usize) -> $crate::Chars<$life> {
            $crate::Chars::new(self.whole(), self.floor_char_boundary(byte_idx))
        }

        /// Goes over the chars in order, each with the byte index where it begins. Each chunk takes O(log n) at most.
        ///
        /// ```
        /// let rope = str_rope::Rope::from("é🐸b");
        /// assert_eq!(rope.char_indices().collect::<Vec<_>>(), [(0, 'é'), (2, '🐸'), (6, 'b')]);
        /// ```
        pub fn char_indices(&self) -> $crate::CharIndices<$life> {
            $crate::CharIndices::new(self.whole(), 0)
        }

        /// Goes over the chars with their byte indices, from the char that a byte is in; from the end on, over none. `prev`
        /// gives the chars before it. Each chunk takes O(log n) at most.
        pub fn char_indices_at(&self, byte_idx: usize) -> $crate::CharIndices<$life> {
            $crate::CharIndices::new(self.whole(), self.floor_char_boundary(byte_idx))
        }
    };
}

pub(crate) use iterator_methods;
