//! The answers of the libraries, as this crate, a rope and an index hand them on.
use crate::Position;
use core::ops;

/// The answer for none: no text is this long.
const NONE: usize = usize::MAX;

/// The byte indices of a part.
#[derive(Clone, Copy)]
#[repr(C)]
pub struct Bytes {
    start: usize,
    end: usize,
}

impl From<ops::Range<usize>> for Bytes {
    #[inline]
    fn from(bytes: ops::Range<usize>) -> Bytes {
        Bytes {
            start: bytes.start,
            end: bytes.end,
        }
    }
}

impl From<Bytes> for ops::Range<usize> {
    #[inline]
    fn from(bytes: Bytes) -> ops::Range<usize> {
        bytes.start..bytes.end
    }
}

/// A byte index, or `None`.
#[inline]
pub fn some_byte(byte: usize) -> Option<usize> {
    (byte != NONE).then_some(byte)
}

/// The byte indices of a part, or `None`.
#[inline]
pub fn some_bytes(bytes: Bytes) -> Option<ops::Range<usize>> {
    (bytes.start != NONE).then_some(bytes.into())
}

/// A position, or `None`.
#[inline]
pub fn some_position(position: Position) -> Option<Position> {
    (position.line != NONE).then_some(position)
}
