//! The index of a text that is lent, and how it is made.
use crate::library::*;
use crate::methods::{index_methods, index_questions, line_methods};
use alloc::sync::Arc;
use core::error;
use core::fmt;
use core::ptr::{self, NonNull};

/// The index of a text that is lent. A clone shares the marks, and takes one step.
///
/// The index takes 48 bytes for each kilobyte of the text and 80 besides, in one block. You may not change or drop the text
/// while there is an index of it:
///
/// ```compile_fail,E0505
/// use str_index::{LineType, TextIndex};
///
/// # fn main() -> Result<(), str_index::NoMemory> {
/// let text = String::from("one\ntwo");
/// let index = TextIndex::new(&text)?;
/// drop(text);
/// assert_eq!(index.line(1, LineType::Crlf), Some("two"));
/// # Ok(())
/// # }
/// ```
///
/// An [`OwnedIndex`](crate::OwnedIndex) holds its text instead. Lines that an index lends may outlive it, and several threads
/// may ask one index at once:
///
/// ```
/// use str_index::{LineType, TextIndex};
///
/// # fn main() -> Result<(), str_index::NoMemory> {
/// let text = String::from("one\ntwo");
/// let line = TextIndex::new(&text)?.line(1, LineType::Crlf);
/// assert_eq!(line, Some("two"));
///
/// let index = TextIndex::new(&text)?;
/// std::thread::scope(|scope| {
///     for line in 0..2 {
///         let index = &index;
///         scope.spawn(move || assert_eq!(index.line_content(LineType::Crlf, line).len(), 3));
///     }
/// });
/// # Ok(())
/// # }
/// ```
#[derive(Clone)]
pub struct TextIndex<'a> {
    handle: Arc<Handle<'a>>,
}

/// An index of the library, and its text, which stays lent until the index is freed.
struct Handle<'a> {
    index: NonNull<Opaque>,
    text: &'a str,
}

// SAFETY: all that an index has is its text, which is lent, and memory of the C library's heap, which threads share, so it
// may be freed by another thread than made it. The library keeps nothing of it elsewhere.
unsafe impl Send for Handle<'_> {}

// SAFETY: a question reads the index, its marks and its text, and writes to none of them, as `str_index.h` says. So any
// number of threads may ask at once.
unsafe impl Sync for Handle<'_> {}

impl Drop for Handle<'_> {
    fn drop(&mut self) {
        // SAFETY: the index is this handle's own, and nobody has it afterwards.
        unsafe { str_index_free(self.index.as_ptr()) }
    }
}

impl<'a> TextIndex<'a> {
    /// Makes the index of a text. Goes over the text once.
    ///
    /// Returns [`NoMemory`] if memory for the index is refused. Its clones share a count of some 40 bytes, in an `Arc`, which
    /// ends the program if memory for it is refused.
    ///
    /// ```
    /// # fn main() -> Result<(), str_index::NoMemory> {
    /// let index = str_index::TextIndex::new("one\ntwo")?;
    /// assert_eq!(index.text(), "one\ntwo");
    /// # Ok(())
    /// # }
    /// ```
    pub fn new(text: &'a str) -> Result<TextIndex<'a>, NoMemory> {
        let mut made = ptr::null_mut();
        // SAFETY: a `str` is all that the library wants of a text, and it is lent for as long as the index lives.
        let status = unsafe { str_index_make_utf8(&mut made, text.as_ptr(), text.len()) };
        match (status, NonNull::new(made)) {
            (OK, Some(index)) => Ok(TextIndex {
                handle: Arc::new(Handle { index, text }),
            }),
            (NO_MEMORY, None) => Err(NoMemory),
            _ => unreachable!("a `str` is not too long, and there is no other status: {status}"),
        }
    }

    /// Lends the text, which may be kept longer than the index. Takes O(1).
    pub fn text(&self) -> &'a str {
        self.handle.text
    }

    /// The index for a question, which is made and not freed yet; its text stays where and as it is.
    pub(crate) fn handle(&self) -> *const Opaque {
        self.handle.index.as_ptr()
    }

    /// This index, for methods that an index with its text has too.
    pub(crate) fn whole(&self) -> &TextIndex<'a> {
        self
    }
}

/// Questions. Those about lines and positions take a `LineType` first, which says what ends a line: the Language Server
/// Protocol 3.17 has `Crlf`. The text may be sliced at each byte index that is answered.
///
/// ```
/// use str_index::{Encoding, LineType, Position, Range, Scheme, TextIndex};
///
/// # fn main() -> Result<(), str_index::NoMemory> {
/// let index = TextIndex::new("a\r\n🐸\u{2028}b")?;
/// assert_eq!(Scheme::ALL.map(|scheme| index.count(scheme)), [6, 7, 1, 1, 2]);
/// assert_eq!([2, 3, 99].map(|byte| index.from_byte_idx(Scheme::Crlf, byte)), [0, 1, 1]);
/// assert_eq!([6, 7, 99].map(|byte| index.from_byte_idx(Scheme::Utf16, byte)), [3, 5, 7]);
/// assert_eq!([4, 5, 99].map(|unit| index.to_byte_idx(Scheme::Utf16, unit)), [3, 7, 11]);
/// assert_eq!([1, 2].map(|line| index.to_byte_idx(Scheme::Lf, line)), [3, 11]);
/// assert_eq!([2, 5, 11, 12].map(|byte| index.is_char_boundary(byte)), [true, false, true, false]);
///
/// let (lines, encoding) = (LineType::Crlf, Encoding::Utf16);
/// assert_eq!([0, 1, 9].map(|line| index.line_content(lines, line)), [0..1, 3..11, 11..11]);
/// assert_eq!([0, 1, 9].map(|line| index.line_end(lines, line)), [1, 11, 11]);
/// let types = [LineType::Lf, LineType::Crlf, LineType::Lines];
/// assert_eq!(types.map(|lines| index.line_content(lines, 0)), [0..2, 0..1, 0..1]);
/// assert_eq!(types.map(|lines| index.line_end(lines, 1)), [11, 11, 7]);
///
/// let at = |line, character| Position { line, character };
/// assert_eq!([2, 6, 7, 99].map(|byte| index.position_of(lines, encoding, byte)), [at(0, 1), at(1, 0), at(1, 2), at(1, 4)]);
/// assert_eq!(index.position_of(lines, Encoding::Utf8, 7), at(1, 4));
/// assert_eq!(index.position_of(LineType::Lines, encoding, 10), at(2, 0));
/// let exact = [1, 2, 6, 7].map(|byte| index.exact_position_of(lines, encoding, byte));
/// assert_eq!(exact, [Some(at(0, 1)), None, None, Some(at(1, 2))]);
///
/// let places = [at(1, 2), at(1, 1), at(0, 2), at(9, 0)];
/// assert_eq!(places.map(|place| index.byte_of(lines, encoding, place)), [7, 3, 1, 11]);
/// assert_eq!(places.map(|place| index.exact_byte_of(lines, encoding, place)), [Some(7), None, None, None]);
///
/// let frog = Range { start: at(1, 0), end: at(1, 2) };
/// assert_eq!(index.range_of(lines, encoding, 3..7), frog);
/// assert_eq!(index.byte_range(lines, encoding, frog), Some(3..7));
/// assert_eq!(index.byte_range(lines, encoding, Range { start: frog.end, end: frog.start }), None);
/// # Ok(())
/// # }
/// ```
impl TextIndex<'_> {
    index_questions!();
}

/// Counts, conversions and char boundaries, by ropey's names.
///
/// ```
/// use str_index::{LineType, TextIndex};
///
/// # fn main() -> Result<(), str_index::NoMemory> {
/// let index = TextIndex::new("é🐸b")?;
/// assert_eq!((index.len(), index.len_chars(), index.len_utf16()), (7, 3, 4));
/// assert_eq!([0, 1, 2, 5, 6, 99].map(|byte| index.byte_to_char_idx(byte)), [0, 0, 1, 1, 2, 3]);
/// assert_eq!([0, 1, 2, 3, 99].map(|char| index.char_to_byte_idx(char)), [0, 2, 6, 7, 7]);
/// assert_eq!([0, 1, 2, 5, 6, 99].map(|byte| index.byte_to_utf16_idx(byte)), [0, 0, 1, 1, 3, 4]);
/// assert_eq!([0, 1, 2, 3, 99].map(|unit| index.utf16_to_byte_idx(unit)), [0, 2, 2, 6, 7]);
///
/// let index = TextIndex::new("a\r\nb\rc\u{2028}")?;
/// let types = [LineType::Lf, LineType::Crlf, LineType::Lines];
/// assert_eq!(types.map(|line_type| index.len_lines(line_type)), [2, 3, 4]);
/// assert_eq!([0, 1, 2, 3, 99].map(|byte| index.byte_to_line_idx(byte, LineType::Crlf)), [0, 0, 0, 1, 2]);
/// assert_eq!([0, 1, 2, 3].map(|line| index.line_to_byte_idx(line, LineType::Crlf)), [0, 3, 5, 9]);
/// # Ok(())
/// # }
/// ```
impl TextIndex<'_> {
    index_methods!();
}

/// Lines by a `LineType`.
impl<'a> TextIndex<'a> {
    line_methods!('a);
}

/// Lends the text.
impl AsRef<str> for TextIndex<'_> {
    fn as_ref(&self) -> &str {
        self.text()
    }
}

/// Writes how long the text is, and not the text.
impl fmt::Debug for TextIndex<'_> {
    fn fmt(&self, f: &mut fmt::Formatter<'_>) -> fmt::Result {
        f.debug_struct("TextIndex")
            .field("len", &self.len())
            .finish_non_exhaustive()
    }
}

/// Memory for an index was refused.
#[derive(Clone, Copy, Debug, PartialEq, Eq, Hash)]
pub struct NoMemory;

impl fmt::Display for NoMemory {
    fn fmt(&self, f: &mut fmt::Formatter<'_>) -> fmt::Result {
        f.write_str("memory was refused")
    }
}

impl error::Error for NoMemory {}
