//! The lines of a text, one after the other.
use crate::{LineType, TextIndex};
use core::fmt;
use core::iter::FusedIterator;
use core::ops::Range;

/// The lines of a text, each lent with its break. They may outlive the index, and so may the iterator, as far as the text does:
///
/// ```
/// use str_index::{LineType, TextIndex};
///
/// # fn main() -> Result<(), str_index::NoMemory> {
/// let text = String::from("one\ntwo");
/// let mut lines = TextIndex::new(&text)?.lines(LineType::Lf);
/// assert_eq!((lines.next_back(), lines.next(), lines.next()), (Some("two"), Some("one\n"), None));
/// # Ok(())
/// # }
/// ```
#[derive(Clone)]
pub struct Lines<'a> {
    index: TextIndex<'a>,
    line_type: LineType,
    /// The lines that remain.
    lines: Range<usize>,
    /// The bytes of the lines that remain.
    bytes: Range<usize>,
}

impl<'a> Lines<'a> {
    /// The lines from one on.
    pub(crate) fn new(index: &TextIndex<'a>, line_idx: usize, line_type: LineType) -> Lines<'a> {
        let many = index.len_lines(line_type);
        Lines {
            index: index.clone(),
            line_type,
            lines: line_idx.min(many)..many,
            bytes: index.line_to_byte_idx(line_idx, line_type)..index.len(),
        }
    }

    /// Returns the line index of the line that `next` returns. If no line remains, it is one past the last that `next` had.
    pub fn line_idx(&self) -> usize {
        self.lines.start
    }
}

impl<'a> Iterator for Lines<'a> {
    type Item = &'a str;

    fn next(&mut self) -> Option<&'a str> {
        let line_idx = self.lines.next()?;
        let start = self.bytes.start;
        self.bytes.start = self.index.line_to_byte_idx(line_idx + 1, self.line_type);
        Some(&self.index.text()[start..self.bytes.start])
    }

    fn size_hint(&self) -> (usize, Option<usize>) {
        self.lines.size_hint()
    }
}

impl<'a> DoubleEndedIterator for Lines<'a> {
    fn next_back(&mut self) -> Option<&'a str> {
        let line_idx = self.lines.next_back()?;
        let end = self.bytes.end;
        self.bytes.end = self.index.line_to_byte_idx(line_idx, self.line_type);
        Some(&self.index.text()[self.bytes.end..end])
    }
}

impl ExactSizeIterator for Lines<'_> {}

impl FusedIterator for Lines<'_> {}

/// Writes the lines that remain.
impl fmt::Debug for Lines<'_> {
    fn fmt(&self, f: &mut fmt::Formatter<'_>) -> fmt::Result {
        f.debug_list().entries(self.clone()).finish()
    }
}
