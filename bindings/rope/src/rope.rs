//! A rope: how it is made, asked and changed.
use crate::errors::result_of;
use crate::indices::index_methods;
use crate::iter::iterator_methods;
use crate::library::*;
use crate::lines::line_methods;
use crate::slice::bytes_of;
use crate::{Encoding, Error, Range, RopeSlice};
use core::ops::RangeBounds;
use str_indices_positions::{conversions, questions};

/// A text in a balanced tree of chunks. A question looks at a number of places that is logarithmic in the number of chunks.
/// A change goes down the tree too, and copies what it puts in. A clone shares the chunks, and takes one step.
///
/// It may go to another thread, and many threads may ask one rope at once:
///
/// ```
/// fn shared<T: Send + Sync>(_: T) {}
/// shared(str_rope::Rope::new());
/// ```
pub struct Rope {
    handle: Handle,
}

// SAFETY: a rope has memory of the C library's heap alone, which threads share. The library writes to no memory that a
// rope shares with its clones, except the number of its owners, which it counts atomically. It keeps nothing of a rope
// elsewhere. str_rope.h promises it, and README.md says what of it is proved.
unsafe impl Send for Rope {}

// SAFETY: a call with `&self` takes the handle as `*const`, and such calls may run at once, as str_rope.h says.
unsafe impl Sync for Rope {}

impl Drop for Rope {
    fn drop(&mut self) {
        // SAFETY: the handle is this rope's own, and nobody has it afterwards.
        unsafe { str_rope_free(&mut self.handle) }
    }
}

impl Rope {
    /// The empty text, which takes no memory.
    ///
    /// ```
    /// assert!(str_rope::Rope::new().is_empty());
    /// ```
    pub const fn new() -> Rope {
        Rope { handle: Handle::EMPTY }
    }

    /// The handle for a question.
    pub(crate) fn handle(&self) -> *const Handle {
        &self.handle
    }

    /// The handle for a change.
    pub(crate) fn handle_mut(&mut self) -> *mut Handle {
        &mut self.handle
    }

    /// The whole text, for methods that a slice has too.
    pub(crate) fn whole(&self) -> RopeSlice<'_> {
        RopeSlice::new(self, 0, self.len())
    }

    /// Makes a rope of a text, which it copies. Takes time in the length of the text. Returns [`Error::NoMemory`] if memory is
    /// refused; `Rope::from` ends the program then.
    ///
    /// ```
    /// # fn main() -> Result<(), str_rope::Error> {
    /// assert_eq!(str_rope::Rope::from_str("one")?, "one");
    /// # Ok(())
    /// # }
    /// ```
    // The trait `FromStr` has it too, for `parse`; this one needs no import.
    #[allow(clippy::should_implement_trait)]
    pub fn from_str(text: &str) -> Result<Rope, Error> {
        let mut rope = Rope::new();
        rope.assign(text)?;
        Ok(rope)
    }

    /// Replaces the whole text by another. Takes time in the length of both, and memory for both until it is done. Returns
    /// [`Error::NoMemory`] if memory is refused; the text is then as it was.
    ///
    /// ```
    /// # fn main() -> Result<(), str_rope::Error> {
    /// let mut rope = "one\n".parse::<str_rope::Rope>()?;
    /// rope.assign("two\n")?;
    /// assert_eq!(rope, "two\n");
    /// # Ok(())
    /// # }
    /// ```
    pub fn assign(&mut self, text: &str) -> Result<(), Error> {
        // SAFETY: as `library` says.
        result_of(unsafe { str_rope_assign_utf8(self.handle_mut(), text.as_ptr(), text.len()) })
    }

    /// Makes a rope with the same text, in one step, whatever its length. Both share their chunks from then on, and a change of
    /// either leaves the other. Returns [`Error::NoMemory`] if memory is refused; `clone` ends the program then.
    ///
    /// ```
    /// # fn main() -> Result<(), str_rope::Error> {
    /// let mut rope: str_rope::Rope = "one".parse()?;
    /// let before = rope.try_clone()?;
    /// rope.insert(3, " two")?;
    /// assert_eq!((rope, before), ("one two".parse()?, "one".parse()?));
    /// # Ok(())
    /// # }
    /// ```
    pub fn try_clone(&self) -> Result<Rope, Error> {
        let mut copy = Rope::new();
        // SAFETY: as `library` says; the new rope is another one.
        result_of(unsafe { str_rope_snapshot(self.handle(), copy.handle_mut()) })?;
        Ok(copy)
    }

    /// Inserts a text at a byte index; past the end, and inside a char, returns [`Error::NotBoundary`]. Takes O(log n), and
    /// time in the length of what it inserts.
    ///
    /// Returns [`Error::TooLong`] if the text would have more than `isize::MAX` bytes, and [`Error::NoMemory`] if memory is
    /// refused. After an error the text is as it was.
    ///
    /// ```
    /// use str_rope::{Error, Rope};
    ///
    /// # fn main() -> Result<(), str_rope::Error> {
    /// let mut rope: Rope = "🐸b".parse()?;
    /// rope.insert(4, "a")?;
    /// assert_eq!(rope, "🐸ab");
    /// assert_eq!(rope.insert(1, "c"), Err(Error::NotBoundary));
    /// # Ok(())
    /// # }
    /// ```
    pub fn insert(&mut self, byte_idx: usize, text: &str) -> Result<(), Error> {
        // SAFETY: as `library` says.
        result_of(unsafe { str_rope_insert_utf8(self.handle_mut(), byte_idx, text.as_ptr(), text.len()) })
    }

    /// Inserts a char at a byte index; past the end, and inside a char, returns [`Error::NotBoundary`]. Takes O(log n), and has
    /// the other errors of [`Rope::insert`].
    ///
    /// ```
    /// # fn main() -> Result<(), str_rope::Error> {
    /// let mut rope: str_rope::Rope = "ac".parse()?;
    /// rope.insert_char(1, 'é')?;
    /// assert_eq!(rope, "aéc");
    /// # Ok(())
    /// # }
    /// ```
    pub fn insert_char(&mut self, byte_idx: usize, char: char) -> Result<(), Error> {
        self.insert(byte_idx, char.encode_utf8(&mut [0; 4]))
    }

    /// Removes the text between two byte indices; past the end, and inside a char, returns [`Error::NotBoundary`]. Takes
    /// O(log n), and a step for each chunk that it frees.
    ///
    /// Returns [`Error::NotOrdered`] if the range ends before it starts, and [`Error::NoMemory`] if memory is refused, which a
    /// removal of the whole text does not need. After an error the text is as it was.
    ///
    /// ```
    /// # fn main() -> Result<(), str_rope::Error> {
    /// let mut rope: str_rope::Rope = "one two".parse()?;
    /// rope.remove(3..)?;
    /// assert_eq!(rope, "one");
    /// # Ok(())
    /// # }
    /// ```
    pub fn remove(&mut self, range: impl RangeBounds<usize>) -> Result<(), Error> {
        let bytes = bytes_of(range, self.len());
        // SAFETY: as `library` says.
        result_of(unsafe { str_rope_remove(self.handle_mut(), bytes.start, bytes.end) })
    }

    /// Replaces the text between two byte indices by another, in one change; past the end, and inside a char, returns
    /// [`Error::NotBoundary`]. Takes the steps of [`Rope::remove`] and of [`Rope::insert`], and has their errors. After one the
    /// text is as it was.
    ///
    /// ```
    /// # fn main() -> Result<(), str_rope::Error> {
    /// let mut rope: str_rope::Rope = "one two".parse()?;
    /// rope.replace(..3, "no")?;
    /// assert_eq!(rope, "no two");
    /// # Ok(())
    /// # }
    /// ```
    pub fn replace(&mut self, range: impl RangeBounds<usize>, text: &str) -> Result<(), Error> {
        let bytes = bytes_of(range, self.len());
        // SAFETY: as `library` says.
        result_of(unsafe {
            str_rope_replace_utf8(self.handle_mut(), bytes.start, bytes.end, text.as_ptr(), text.len())
        })
    }

    /// Moves the text of another rope to the end of this one, and leaves the other empty. Takes O(log n), and copies a few
    /// chunks at most.
    ///
    /// Returns [`Error::TooLong`] if the text would have more than `isize::MAX` bytes, and [`Error::NoMemory`] if memory is
    /// refused. After an error both are as they were.
    ///
    /// ```
    /// # fn main() -> Result<(), str_rope::Error> {
    /// let mut rope: str_rope::Rope = "one ".parse()?;
    /// let mut rest = "two".parse()?;
    /// rope.append(&mut rest)?;
    /// assert_eq!(rope, "one two");
    /// assert_eq!(rest, "");
    /// # Ok(())
    /// # }
    /// ```
    pub fn append(&mut self, other: &mut Rope) -> Result<(), Error> {
        // SAFETY: as `library` says; two `&mut` are of two ropes.
        result_of(unsafe { str_rope_append(self.handle_mut(), other.handle_mut()) })
    }

    /// Cuts the text in two at a byte index, and returns the second part; past the end, and inside a char, returns
    /// [`Error::NotBoundary`]. Takes O(log n).
    ///
    /// Returns [`Error::NoMemory`] if memory is refused. After an error the text is as it was.
    ///
    /// ```
    /// # fn main() -> Result<(), str_rope::Error> {
    /// let mut rope: str_rope::Rope = "one two".parse()?;
    /// assert_eq!(rope.split_off(4)?, "two");
    /// assert_eq!(rope, "one ");
    /// # Ok(())
    /// # }
    /// ```
    pub fn split_off(&mut self, byte_idx: usize) -> Result<Rope, Error> {
        let mut rest = Rope::new();
        // SAFETY: as `library` says; the new rope is another one.
        result_of(unsafe { str_rope_split_off(self.handle_mut(), byte_idx, rest.handle_mut()) })?;
        Ok(rest)
    }

    /// Copies the bytes between two byte indices to the beginning of a room, and returns how many they are; past the end, and
    /// inside a char, returns [`Error::NotBoundary`]. Takes O(log n), and time in their number.
    ///
    /// Returns [`Error::NotOrdered`] if the range ends before it starts, and [`Error::TooLong`] if the room is shorter than the
    /// part. After an error the room is as it was.
    ///
    /// ```
    /// # fn main() -> Result<(), str_rope::Error> {
    /// let rope: str_rope::Rope = "one two".parse()?;
    /// let mut room = [b'.'; 5];
    /// assert_eq!(rope.copy_to(4.., &mut room), Ok(3));
    /// assert_eq!(&room, b"two..");
    /// # Ok(())
    /// # }
    /// ```
    pub fn copy_to(&self, range: impl RangeBounds<usize>, room: &mut [u8]) -> Result<usize, Error> {
        let bytes = bytes_of(range, self.len());
        let (out, len) = (room.as_mut_ptr(), room.len());
        // SAFETY: as `library` says, and the room may be written to.
        result_of(unsafe { str_rope_copy_to(self.handle(), bytes.start, bytes.end, out, len) })?;
        Ok(bytes.len())
    }

    /// Replaces the text in a range by another: one entry of the protocol's `contentChanges`, whose lines are those of
    /// `LineType::Crlf`. Positions past the end of a line or of the text are cut as by [`Rope::byte_of`], so it never returns
    /// [`Error::NotBoundary`].
    ///
    /// Each entry is meant in the text that the one before it left; a clone before the first brings the text back. If the entry
    /// has no range, its text is the whole one: call [`Rope::assign`]. Returns [`Error::NotOrdered`] if the range ends before
    /// it starts, and [`Error::TooLong`] and [`Error::NoMemory`] as [`Rope::replace`] does; after an error the text is as it
    /// was.
    ///
    /// ```
    /// use str_rope::{Encoding, Position, Range, Rope};
    ///
    /// # fn main() -> Result<(), str_rope::Error> {
    /// let mut rope: Rope = "a\r\n🐸b".parse()?;
    /// let (start, end) = (Position { line: 1, character: 2 }, Position { line: 1, character: 99 });
    /// rope.change(Encoding::Utf16, Range { start, end }, "ye")?;
    /// assert_eq!(rope, "a\r\n🐸ye");
    /// # Ok(())
    /// # }
    /// ```
    pub fn change(&mut self, encoding: Encoding, range: Range, text: &str) -> Result<(), Error> {
        // SAFETY: as `library` says.
        result_of(unsafe { str_rope_change_utf8(self.handle_mut(), encoding, range, text.as_ptr(), text.len()) })
    }

    /// Replaces the text in a range by another, as [`Rope::change`], if each of its positions names a place. If one names none,
    /// as [`Rope::exact_byte_of`] has it, returns [`Error::NotBoundary`], and the text is as it was.
    ///
    /// So a server notices a client that is out of step, and asks it for the whole text.
    ///
    /// ```
    /// use str_rope::{Encoding, Error, Position, Range, Rope};
    ///
    /// # fn main() -> Result<(), Error> {
    /// let mut rope: Rope = "one\ntwo".parse()?;
    /// let (start, past) = (Position { line: 1, character: 0 }, Position { line: 1, character: 4 });
    /// let refused = rope.change_exact(Encoding::Utf16, Range { start, end: past }, "2");
    /// assert_eq!(refused, Err(Error::NotBoundary));
    ///
    /// let end = Position { line: 1, character: 3 };
    /// rope.change_exact(Encoding::Utf16, Range { start, end }, "2")?;
    /// assert_eq!(rope, "one\n2");
    /// # Ok(())
    /// # }
    /// ```
    pub fn change_exact(&mut self, encoding: Encoding, range: Range, text: &str) -> Result<(), Error> {
        // SAFETY: as `library` says.
        result_of(unsafe { str_rope_change_exact(self.handle_mut(), encoding, range, text.as_ptr(), text.len()) })
    }
}

/// Questions. Those about lines and positions take a `LineType` first, which says what ends a line: the Language Server
/// Protocol 3.17 has `Crlf`. Their answers are those of the crate `str_indices_positions` for the whole text.
///
/// ```
/// use str_rope::{Encoding, LineType, Position, Range, Rope, Scheme};
///
/// # fn main() -> Result<(), str_rope::Error> {
/// let rope: Rope = "a\r\n🐸\u{2028}b".parse()?;
/// assert_eq!(Scheme::ALL.map(|scheme| rope.count(scheme)), [6, 7, 1, 1, 2]);
/// assert_eq!([2, 3, 99].map(|byte| rope.from_byte_idx(Scheme::Crlf, byte)), [0, 1, 1]);
/// assert_eq!([6, 7, 99].map(|byte| rope.from_byte_idx(Scheme::Utf16, byte)), [3, 5, 7]);
/// assert_eq!([4, 5, 99].map(|unit| rope.to_byte_idx(Scheme::Utf16, unit)), [3, 7, 11]);
/// assert_eq!([1, 2].map(|line| rope.to_byte_idx(Scheme::Lf, line)), [3, 11]);
/// assert_eq!([2, 5, 11, 12].map(|byte| rope.is_char_boundary(byte)), [true, false, true, false]);
///
/// let (lines, encoding) = (LineType::Crlf, Encoding::Utf16);
/// assert_eq!([0, 1, 9].map(|line| rope.line_content(lines, line)), [0..1, 3..11, 11..11]);
/// assert_eq!([0, 1, 9].map(|line| rope.line_end(lines, line)), [1, 11, 11]);
/// let types = [LineType::Lf, LineType::Crlf, LineType::Lines];
/// assert_eq!(types.map(|lines| rope.line_content(lines, 0)), [0..2, 0..1, 0..1]);
/// assert_eq!(types.map(|lines| rope.line_end(lines, 1)), [11, 11, 7]);
///
/// let at = |line, character| Position { line, character };
/// assert_eq!([2, 6, 7, 99].map(|byte| rope.position_of(lines, encoding, byte)), [at(0, 1), at(1, 0), at(1, 2), at(1, 4)]);
/// assert_eq!(rope.position_of(lines, Encoding::Utf8, 7), at(1, 4));
/// assert_eq!(rope.position_of(LineType::Lines, encoding, 10), at(2, 0));
/// let exact = [1, 2, 6, 7].map(|byte| rope.exact_position_of(lines, encoding, byte));
/// assert_eq!(exact, [Some(at(0, 1)), None, None, Some(at(1, 2))]);
///
/// let places = [at(1, 2), at(1, 1), at(0, 2), at(9, 0)];
/// assert_eq!(places.map(|place| rope.byte_of(lines, encoding, place)), [7, 3, 1, 11]);
/// assert_eq!(places.map(|place| rope.exact_byte_of(lines, encoding, place)), [Some(7), None, None, None]);
///
/// let frog = Range { start: at(1, 0), end: at(1, 2) };
/// assert_eq!(rope.range_of(lines, encoding, 3..7), frog);
/// assert_eq!(rope.byte_range(lines, encoding, frog), Some(3..7));
/// assert_eq!(rope.byte_range(lines, encoding, Range { start: frog.end, end: frog.start }), None);
/// # Ok(())
/// # }
/// ```
impl Rope {
    questions! {
        "str_rope_",
        Handle,
        count: "O(1)",
        from_byte_idx: "one search, O(log n)",
        to_byte_idx: "one search, O(log n)",
        is_char_boundary: "one search, O(log n)",
        line_content: "two searches, O(log n)",
        line_end: "one search, O(log n)",
        position_of: "at most four searches, O(log n)",
        exact_position_of: "at most four searches, O(log n)",
        range_of: "at most eight searches, O(log n)",
        byte_of: "at most four searches, O(log n)",
        exact_byte_of: "at most five searches, O(log n)",
        byte_range: "at most eight searches, O(log n)",
    }
}

/// Counts and conversions, by ropey's names.
///
/// ```
/// use str_rope::{LineType, Rope};
///
/// let rope = Rope::from("é🐸b");
/// assert_eq!((rope.len(), rope.len_chars(), rope.len_utf16()), (7, 3, 4));
/// assert_eq!([0, 1, 2, 5, 6, 99].map(|byte| rope.byte_to_char_idx(byte)), [0, 0, 1, 1, 2, 3]);
/// assert_eq!([0, 1, 2, 3, 99].map(|char| rope.char_to_byte_idx(char)), [0, 2, 6, 7, 7]);
/// assert_eq!([0, 1, 2, 5, 6, 99].map(|byte| rope.byte_to_utf16_idx(byte)), [0, 0, 1, 1, 3, 4]);
/// assert_eq!([0, 1, 2, 3, 99].map(|unit| rope.utf16_to_byte_idx(unit)), [0, 2, 2, 6, 7]);
///
/// let rope = Rope::from("a\r\nb\rc\u{2028}");
/// let types = [LineType::Lf, LineType::Crlf, LineType::Lines];
/// assert_eq!(types.map(|line_type| rope.len_lines(line_type)), [2, 3, 4]);
/// assert_eq!([0, 1, 2, 3, 99].map(|byte| rope.byte_to_line_idx(byte, LineType::Crlf)), [0, 0, 0, 1, 2]);
/// assert_eq!([0, 1, 2, 3].map(|line| rope.line_to_byte_idx(line, LineType::Crlf)), [0, 3, 5, 9]);
/// ```
impl Rope {
    conversions! { count: "O(1)", from_byte_idx: "one search, O(log n)", to_byte_idx: "one search, O(log n)" }
}

/// Bytes and chars at an index.
impl Rope {
    index_methods!();
}

/// Lines by a `LineType`.
impl Rope {
    line_methods!('_);
}

/// Parts and iterators.
impl Rope {
    iterator_methods!('_);
}
