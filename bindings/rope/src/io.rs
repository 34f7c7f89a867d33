//! Reading and writing a rope's text through `std::io`.
use crate::builder::PART;
use crate::{Error, Rope, RopeSlice};
use alloc::vec::Vec;
use core::{error, fmt, str};
use std::io::{self, Read, Write};

/// The bytes that a reader gave are not UTF-8. [`Rope::from_reader`] returns it inside an [`io::Error`].
#[derive(Clone, Copy, Debug, PartialEq, Eq, Hash)]
pub struct NotUtf8 {
    /// How many bytes before it are UTF-8, from the first one that was read.
    pub byte_idx: usize,
}

impl fmt::Display for NotUtf8 {
    fn fmt(&self, f: &mut fmt::Formatter<'_>) -> fmt::Result {
        write!(f, "the bytes are not UTF-8 from byte {} on", self.byte_idx)
    }
}

impl error::Error for NotUtf8 {}

impl From<NotUtf8> for io::Error {
    fn from(error: NotUtf8) -> io::Error {
        io::Error::new(io::ErrorKind::InvalidData, error)
    }
}

impl From<Error> for io::Error {
    fn from(error: Error) -> io::Error {
        match error {
            // Nothing is inside this one, for which there might be no memory either.
            Error::NoMemory => io::ErrorKind::OutOfMemory.into(),
            _ => io::Error::new(io::ErrorKind::InvalidInput, error),
        }
    }
}

impl Rope {
    /// Reads a text to its end, in parts of some hundred kilobytes, so that memory has it once. Takes time in its length.
    ///
    /// Returns the error of the reader; [`io::ErrorKind::InvalidData`] with [`NotUtf8`] inside if the bytes are not UTF-8; and
    /// [`io::ErrorKind::OutOfMemory`] if memory is refused.
    ///
    /// ```
    /// use str_rope::{NotUtf8, Rope};
    ///
    /// # fn main() -> std::io::Result<()> {
    /// assert_eq!(Rope::from_reader("one 🐸".as_bytes())?, "one 🐸");
    /// let error = Rope::from_reader(&b"one\xFF"[..]).unwrap_err();
    /// assert_eq!(error.get_ref().unwrap().downcast_ref(), Some(&NotUtf8 { byte_idx: 3 }));
    /// # Ok(())
    /// # }
    /// ```
    pub fn from_reader<R: Read>(mut reader: R) -> io::Result<Rope> {
        let mut room = Vec::new();
        room.try_reserve_exact(PART).map_err(|_| Error::NoMemory)?;
        let mut rope = Rope::new();
        loop {
            let missing = (PART - room.len()) as u64;
            let is_end = (&mut reader).take(missing).read_to_end(&mut room)? == 0;
            let text = whole_chars(&room, rope.len(), is_end)?;
            let len = text.len();
            rope.append(&mut Rope::from_str(text)?)?;
            if is_end {
                return Ok(rope);
            }
            room.drain(..len);
        }
    }

    /// Writes the text, chunk by chunk. Each chunk takes O(log n) at most. Returns the error of the writer.
    ///
    /// ```
    /// # fn main() -> std::io::Result<()> {
    /// let mut bytes = Vec::new();
    /// str_rope::Rope::from("one").write_to(&mut bytes)?;
    /// assert_eq!(bytes, b"one");
    /// # Ok(())
    /// # }
    /// ```
    pub fn write_to<W: Write>(&self, writer: W) -> io::Result<()> {
        self.whole().write_to(writer)
    }
}

impl RopeSlice<'_> {
    /// Writes the text, as [`Rope::write_to`] does.
    pub fn write_to<W: Write>(&self, mut writer: W) -> io::Result<()> {
        self.chunks().try_for_each(|chunk| writer.write_all(chunk.as_bytes()))
    }
}

/// The chars that lie in some bytes as a whole. The last one may be left out where more bytes come. The bytes begin at a byte
/// index of the text.
fn whole_chars(bytes: &[u8], start: usize, is_end: bool) -> Result<&str, NotUtf8> {
    let error = match str::from_utf8(bytes) {
        Ok(text) => return Ok(text),
        Err(error) => error,
    };
    let len = error.valid_up_to();
    if is_end || error.error_len().is_some() {
        return Err(NotUtf8 { byte_idx: start + len });
    }
    // These bytes are valid, so this is not refused.
    str::from_utf8(&bytes[..len]).map_err(|_| NotUtf8 { byte_idx: start })
}
