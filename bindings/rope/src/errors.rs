//! Why a call is refused.
use core::error;
use core::fmt;

/// Why a change, or a copy of a part, was refused. The text is then as it was.
///
/// A call asks for these in the order in which they stand here.
#[derive(Clone, Copy, Debug, PartialEq, Eq, Hash)]
pub enum Error {
    /// The end of a range is before its start.
    NotOrdered,
    /// A byte index is past the end, or inside a char; or a position names no place.
    NotBoundary,
    /// The text would have more than `isize::MAX` bytes; or the room for a part is shorter than the part.
    TooLong,
    /// Memory was refused.
    NoMemory,
}

impl fmt::Display for Error {
    fn fmt(&self, f: &mut fmt::Formatter<'_>) -> fmt::Result {
        f.write_str(match self {
            Error::NotOrdered => "the end of a range is before its start",
            Error::NotBoundary => "a place is past the end of the text or of its line, or inside a char",
            Error::TooLong => "the text, or a part of it, is too long",
            Error::NoMemory => "memory was refused",
        })
    }
}

impl error::Error for Error {}

/// The result that a status of the library stands for.
pub fn result_of(status: u32) -> Result<(), Error> {
    match status {
        0 => Ok(()),
        1 => Err(Error::NotOrdered),
        2 => Err(Error::NotBoundary),
        3 => Err(Error::TooLong),
        4 => Err(Error::NoMemory),
        _ => unreachable!("a `str` is UTF-8, and there is no other status: {status}"),
    }
}
