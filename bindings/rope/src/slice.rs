//! A part of a rope's text, lent.
use crate::indices::index_methods;
use crate::iter::iterator_methods;
use crate::lines::{line_methods, takes_pairs};
use crate::{Error, LineType, Rope, Scheme};
use core::ops::{self, Bound, RangeBounds};
use str_indices_positions::conversions;

/// A part of a rope's text, which borrows the rope and copies nothing. Its methods answer for this part as a [`Rope`] with that
/// text alone answers: each index counts from where the part begins.
///
/// A part may begin or end between the CR and the LF of one break. Then it begins with an LF, or ends with a CR, which ends a
/// line of the part.
///
/// ```
/// use str_rope::{LineType, Rope};
///
/// # fn main() -> Result<(), str_rope::Error> {
/// let rope = Rope::from("one\r\ntwo 🐸\r\n");
/// let slice = rope.slice(5..13)?;
/// assert_eq!(slice, "two 🐸");
/// assert_eq!((slice.len(), slice.len_chars(), slice.len_utf16()), (8, 5, 6));
/// assert_eq!(rope.slice(..4)?.len_lines(LineType::Crlf), 2);
/// # Ok(())
/// # }
/// ```
///
/// It lives no longer than the rope stays as it is:
///
/// ```compile_fail,E0502
/// # fn main() -> Result<(), str_rope::Error> {
/// let mut rope = str_rope::Rope::from("one two");
/// let slice = rope.slice(..3)?;
/// rope.insert(0, "x")?;
/// assert_eq!(slice, "one");
/// # Ok(())
/// # }
/// ```
#[derive(Clone, Copy)]
pub struct RopeSlice<'a> {
    rope: &'a Rope,
    /// A boundary of the rope's text.
    start: usize,
    /// A boundary that is not before `start`.
    end: usize,
}

impl<'a> RopeSlice<'a> {
    /// The part between two boundaries that are in order.
    pub(crate) fn new(rope: &'a Rope, start: usize, end: usize) -> RopeSlice<'a> {
        RopeSlice { rope, start, end }
    }

    /// The rope that lends the text.
    pub(crate) fn rope(&self) -> &'a Rope {
        self.rope
    }

    /// Returns the byte indices of the rope's text between which the slice lies. Takes O(1).
    ///
    /// ```
    /// # fn main() -> Result<(), str_rope::Error> {
    /// let rope = str_rope::Rope::from("one two three");
    /// assert_eq!(rope.slice(4..)?.slice(..3)?.range(), 4..7);
    /// # Ok(())
    /// # }
    /// ```
    pub fn range(&self) -> ops::Range<usize> {
        self.start..self.end
    }

    /// Returns how many bytes the slice has. Takes O(1).
    pub fn len(&self) -> usize {
        self.end - self.start
    }

    /// Counts the chars, UTF-16 code units or line breaks of the slice. Takes two searches, O(log n).
    pub fn count(&self, scheme: Scheme) -> usize {
        self.from_byte_idx(scheme, self.len())
    }

    /// Counts the chars, UTF-16 code units or line breaks that end at a byte index or before it; past the end, all of them.
    /// Takes two searches, O(log n).
    pub fn from_byte_idx(&self, scheme: Scheme, byte_idx: usize) -> usize {
        let byte = self.in_rope(byte_idx);
        let found = self.rope.from_byte_idx(scheme, byte) - self.count_before(scheme);
        found + usize::from(byte == self.end && self.ends_inside_break(scheme))
    }

    /// Returns the byte index where the char, the char of the UTF-16 code unit, or the line of an index begins; past the last
    /// one, [`RopeSlice::len`]. Takes two searches, O(log n).
    pub fn to_byte_idx(&self, scheme: Scheme, idx: usize) -> usize {
        let byte = self
            .rope
            .to_byte_idx(scheme, self.count_before(scheme).saturating_add(idx));
        byte.clamp(self.start, self.end) - self.start
    }

    /// Tells whether a char begins at a byte index, or the slice ends there; past the end, `false`. Takes one search, O(log n).
    pub fn is_char_boundary(&self, byte_idx: usize) -> bool {
        byte_idx <= self.len() && self.rope.is_char_boundary(self.start + byte_idx)
    }

    /// Returns the byte indices of a line without its break; past the last line, an empty range at the end of the slice. Takes
    /// at most nine searches, O(log n).
    pub fn line_content(&self, lines: LineType, line_idx: usize) -> ops::Range<usize> {
        let before = self.count_before(lines.into());
        let bytes = self.rope.line_content(lines, before.saturating_add(line_idx));
        let inside = |byte: usize| byte.clamp(self.start, self.end) - self.start;
        inside(bytes.start)..inside(bytes.end)
    }

    /// Returns the byte index where the content of a line ends: before its break; for the last line, and past it,
    /// [`RopeSlice::len`]. Takes at most nine searches, O(log n).
    pub fn line_end(&self, lines: LineType, line_idx: usize) -> usize {
        self.line_content(lines, line_idx).end
    }

    /// Copies the bytes between two byte indices to the beginning of a room, and returns how many they are. Takes O(log n), and
    /// time in their number.
    ///
    /// Returns [`Error::NotOrdered`] if the range ends before it starts, [`Error::NotBoundary`] if it starts or ends past the
    /// end or inside a char, and [`Error::TooLong`] if the room is shorter than the part. The room is then as it was.
    pub fn copy_to(&self, range: impl RangeBounds<usize>, room: &mut [u8]) -> Result<usize, Error> {
        self.rope.copy_to(self.slice(range)?.range(), room)
    }

    /// Makes a rope of this text, which shares the chunks that lie inside the slice, and copies a few at its ends. Takes
    /// O(log n). Returns [`Error::NoMemory`] if memory is refused; `Rope::from` ends the program then.
    ///
    /// ```
    /// # fn main() -> Result<(), str_rope::Error> {
    /// let rope = str_rope::Rope::from("one two three");
    /// let mut part = rope.slice(4..7)?.to_rope()?;
    /// part.insert(3, "!")?;
    /// assert_eq!((part, rope), ("two!".parse()?, "one two three".parse()?));
    /// # Ok(())
    /// # }
    /// ```
    pub fn to_rope(&self) -> Result<Rope, Error> {
        if self.start == self.end {
            return Ok(Rope::new());
        }
        let mut rope = self.rope.try_clone()?;
        if self.end < rope.len() {
            rope.split_off(self.end)?;
        }
        if self.start == 0 {
            return Ok(rope);
        }
        rope.split_off(self.start)
    }

    /// The whole slice, for methods that a rope has too.
    pub(crate) fn whole(&self) -> RopeSlice<'a> {
        *self
    }

    /// How many chars, UTF-16 code units or line breaks the rope's text has before the slice.
    pub(crate) fn count_before(&self, scheme: Scheme) -> usize {
        match self.start {
            0 => 0,
            start => self.rope.from_byte_idx(scheme, start),
        }
    }

    /// The byte index of the rope's text that an index of the slice means. Past the slice's end it is that end.
    fn in_rope(&self, byte_idx: usize) -> usize {
        self.start.saturating_add(byte_idx).min(self.end)
    }

    /// The part of the slice that a range of it means.
    pub(crate) fn part(self, bytes: ops::Range<usize>) -> Result<RopeSlice<'a>, Error> {
        if bytes.end < bytes.start {
            return Err(Error::NotOrdered);
        }
        if !(self.is_char_boundary(bytes.start) && self.is_char_boundary(bytes.end)) {
            return Err(Error::NotBoundary);
        }
        Ok(RopeSlice::new(
            self.rope,
            self.start + bytes.start,
            self.start + bytes.end,
        ))
    }

    /// The chunk that a byte of the slice is in, as far as the slice has it, and where that begins.
    pub(crate) fn chunk_of(self, byte_idx: usize) -> Option<(&'a str, usize)> {
        if byte_idx >= self.len() {
            return None;
        }
        let (text, start) = self.rope.lend(self.start + byte_idx)?;
        let bytes = start.max(self.start)..(start + text.len()).min(self.end);
        Some((&text[bytes.start - start..bytes.end - start], bytes.start - self.start))
    }

    /// Whether the slice ends between the CR and the LF of one break. That CR, if the slice has it, ends a line of the slice.
    fn ends_inside_break(&self, scheme: Scheme) -> bool {
        let byte = |at| self.rope.byte(at);
        takes_pairs(scheme)
            && self.start < self.end
            && byte(self.end) == Some(b'\n')
            && byte(self.end - 1) == Some(b'\r')
    }
}

/// Counts and conversions, by ropey's names.
impl RopeSlice<'_> {
    conversions! {
        count: "two searches, O(log n)",
        from_byte_idx: "two searches, O(log n)",
        to_byte_idx: "two searches, O(log n)",
    }
}

/// Chars and bytes at an index.
impl<'a> RopeSlice<'a> {
    index_methods!();
}

/// Lines by a `LineType`.
impl<'a> RopeSlice<'a> {
    line_methods!('a);
}

/// Parts and iterators.
impl<'a> RopeSlice<'a> {
    iterator_methods!('a);
}

/// The byte indices that a range means in a text of that length.
pub fn bytes_of(range: impl RangeBounds<usize>, len: usize) -> ops::Range<usize> {
    // No text has a byte at `usize::MAX`, so an index that is cut to it is past the end as well.
    let start = match range.start_bound() {
        Bound::Included(&byte) => byte,
        Bound::Excluded(&byte) => byte.saturating_add(1),
        Bound::Unbounded => 0,
    };
    let end = match range.end_bound() {
        Bound::Included(&byte) => byte.saturating_add(1),
        Bound::Excluded(&byte) => byte,
        Bound::Unbounded => len,
    };
    start..end
}
