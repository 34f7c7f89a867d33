//! A rope of a text that comes in pieces.
use crate::{Error, Rope};
use alloc::string::String;

/// How many bytes are collected before they become a part of the rope.
pub(crate) const PART: usize = 256 * 1024;

/// Makes a rope of a text that comes in pieces, of any length. It copies them together until they are some hundred kilobytes,
/// and moves these to the end of the rope: so the whole text is in memory once.
///
/// ```
/// use str_rope::RopeBuilder;
///
/// # fn main() -> Result<(), str_rope::Error> {
/// let mut builder = RopeBuilder::new();
/// for piece in ["one ", "", "two"] {
///     builder.append(piece)?;
/// }
/// assert_eq!(builder.finish()?, "one two");
/// # Ok(())
/// # }
/// ```
#[derive(Clone, Debug, Default)]
pub struct RopeBuilder {
    rope: Rope,
    /// The end of the text, which is not in the rope yet.
    part: String,
}

impl RopeBuilder {
    /// Makes a builder with no text, which takes no memory.
    pub const fn new() -> RopeBuilder {
        RopeBuilder {
            rope: Rope::new(),
            part: String::new(),
        }
    }

    /// Appends a piece to the text. Takes time in the length of the piece, and O(log n) for each part that is full.
    ///
    /// Returns [`Error::NoMemory`] if memory is refused, and [`Error::TooLong`] if the text would have more than `isize::MAX`
    /// bytes. After an error the text is as it was.
    pub fn append(&mut self, piece: &str) -> Result<(), Error> {
        if piece.len() > PART - self.part.len() {
            self.hand_over()?;
        }
        if piece.len() >= PART {
            return self.rope.append(&mut Rope::from_str(piece)?);
        }
        self.part.try_reserve(piece.len()).map_err(|_| Error::NoMemory)?;
        self.part.push_str(piece);
        Ok(())
    }

    /// Returns the rope of the text, or an error of [`RopeBuilder::append`].
    pub fn finish(mut self) -> Result<Rope, Error> {
        self.hand_over()?;
        Ok(self.rope)
    }

    /// Moves the collected part to the end of the rope.
    fn hand_over(&mut self) -> Result<(), Error> {
        self.rope.append(&mut Rope::from_str(&self.part)?)?;
        self.part.clear();
        Ok(())
    }
}
