//! An index that has its text.
use crate::library::Opaque;
use crate::methods::{index_methods, index_questions, line_methods};
use crate::{NoMemory, TextIndex};
use alloc::sync::Arc;
use core::fmt;

/// A text and its index in one value, which may be kept, and handed to another thread. It has all methods of a [`TextIndex`].
/// A clone shares the text and the marks, and takes one step.
///
/// ```
/// use str_index::{LineType, NoMemory, OwnedIndex};
///
/// # fn main() -> Result<(), NoMemory> {
/// let index = OwnedIndex::new("one\ntwo")?;
/// let shared = index.clone();
/// std::thread::spawn(move || assert_eq!(shared.len_lines(LineType::Crlf), 2)).join().unwrap();
/// assert_eq!(index.line(1, LineType::Crlf), Some("two"));
/// # Ok(())
/// # }
/// ```
///
/// A line that it lends lives no longer than it does. So it has no `Deref` to a `TextIndex`, whose lines may:
///
/// ```compile_fail,E0597
/// # use str_index::{LineType, NoMemory, OwnedIndex};
/// # fn main() -> Result<(), NoMemory> {
/// let line;
/// {
///     let index = OwnedIndex::new("one\ntwo")?;
///     line = index.line(1, LineType::Crlf);
/// }
/// assert_eq!(line, Some("two"));
/// # Ok(())
/// # }
/// ```
#[derive(Clone)]
pub struct OwnedIndex {
    // before the text, since fields are dropped in this order
    index: TextIndex<'static>,
    text: Arc<str>,
}

impl OwnedIndex {
    /// Makes the index of a text, as [`TextIndex::new`]. Copies no text of an `Arc<str>`; a `&str`, a `String` and a `Box<str>`
    /// are copied into one.
    ///
    /// Returns [`NoMemory`] if memory for the index is refused. An `Arc` ends the program if memory for it is refused.
    ///
    /// ```
    /// use std::sync::Arc;
    /// use str_index::OwnedIndex;
    ///
    /// # fn main() -> Result<(), str_index::NoMemory> {
    /// let text: Arc<str> = Arc::from("one\ntwo");
    /// let index = OwnedIndex::new(Arc::clone(&text))?;
    /// assert!(Arc::ptr_eq(index.text(), &text));
    /// assert_eq!(OwnedIndex::new(String::from("one"))?.len(), 3);
    /// # Ok(())
    /// # }
    /// ```
    pub fn new(text: impl Into<Arc<str>>) -> Result<OwnedIndex, NoMemory> {
        let text = text.into();
        // SAFETY: the text of an `Arc` stays where it is and as it is while there is one, and each clone of this value has
        // one, which it drops after its index. Nothing is lent for longer than this value is borrowed.
        let lent: &'static str = unsafe { &*Arc::as_ptr(&text) };
        let index = TextIndex::new(lent)?;
        Ok(OwnedIndex { index, text })
    }

    /// Returns the index alone, for a function that takes a `&TextIndex`. Takes O(1).
    ///
    /// ```
    /// use str_index::{OwnedIndex, TextIndex};
    ///
    /// fn units(index: &TextIndex<'_>) -> usize {
    ///     index.len_utf16()
    /// }
    ///
    /// # fn main() -> Result<(), str_index::NoMemory> {
    /// assert_eq!(units(OwnedIndex::new("🐸b")?.as_index()), 3);
    /// # Ok(())
    /// # }
    /// ```
    pub fn as_index(&self) -> &TextIndex<'_> {
        &self.index
    }

    /// Lends the text, which may be shared. Takes O(1).
    pub fn text(&self) -> &Arc<str> {
        &self.text
    }

    /// The index for a question.
    fn handle(&self) -> *const Opaque {
        self.index.handle()
    }

    /// The index alone, for methods that it has too.
    fn whole(&self) -> &TextIndex<'_> {
        &self.index
    }
}

/// Questions, as a [`TextIndex`] has them.
impl OwnedIndex {
    index_questions!();
}

/// Counts, conversions and char boundaries, by ropey's names.
impl OwnedIndex {
    index_methods!();
}

/// Lines by a `LineType`.
impl OwnedIndex {
    line_methods!('_);
}

/// Lends the text.
impl AsRef<str> for OwnedIndex {
    fn as_ref(&self) -> &str {
        &self.text
    }
}

/// Writes how long the text is, and not the text.
impl fmt::Debug for OwnedIndex {
    fn fmt(&self, f: &mut fmt::Formatter<'_>) -> fmt::Result {
        f.debug_struct("OwnedIndex")
            .field("len", &self.len())
            .finish_non_exhaustive()
    }
}
