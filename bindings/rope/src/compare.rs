//! Equality, order and hashes of texts, which are those of their bytes. In which chunks a text lies makes no difference.
use crate::{Rope, RopeSlice};
use alloc::borrow::Cow;
use alloc::string::String;
use core::cmp::Ordering;
use core::hash::{Hash, Hasher};
use core::{iter, ptr};

/// How many bytes a hasher gets at once.
const HASHED: usize = 256;

/// Compares two texts by their pieces, none of which is empty but where its text is. A piece that both share is not read.
fn compare<'a, 'b>(mut one: impl Iterator<Item = &'a str>, mut other: impl Iterator<Item = &'b str>) -> Ordering {
    let (mut front, mut other_front): (&[u8], &[u8]) = (&[], &[]);
    loop {
        if front.is_empty() {
            front = one.next().unwrap_or_default().as_bytes();
        }
        if other_front.is_empty() {
            other_front = other.next().unwrap_or_default().as_bytes();
        }
        let len = front.len().min(other_front.len());
        if len == 0 {
            return front.len().cmp(&other_front.len());
        }
        let (part, other_part) = (&front[..len], &other_front[..len]);
        if !ptr::eq(part, other_part) && part != other_part {
            return part.cmp(other_part);
        }
        (front, other_front) = (&front[len..], &other_front[len..]);
    }
}

impl RopeSlice<'_> {
    /// Whether another slice has an equal text. It is answered at once where both are one part of one rope, or of other
    /// lengths.
    fn equals(&self, other: RopeSlice<'_>) -> bool {
        let is_same_part = ptr::eq(self.rope(), other.rope()) && self.range() == other.range();
        is_same_part || (self.len() == other.len() && self.compare(other).is_eq())
    }

    fn compare(&self, other: RopeSlice<'_>) -> Ordering {
        compare(self.chunks(), other.chunks())
    }

    fn equals_str(&self, text: &str) -> bool {
        self.len() == text.len() && self.compare_str(text).is_eq()
    }

    fn compare_str(&self, text: &str) -> Ordering {
        compare(self.chunks(), iter::once(text))
    }
}

/// Hands the bytes to the hasher in parts of one length, since equal texts may lie in other chunks. The hash is another one
/// than that of a `str`.
impl Hash for RopeSlice<'_> {
    fn hash<H: Hasher>(&self, state: &mut H) {
        let (mut part, mut filled) = ([0; HASHED], 0);
        for chunk in self.chunks() {
            let mut bytes = chunk.as_bytes();
            while !bytes.is_empty() {
                let (taken, rest) = bytes.split_at(bytes.len().min(HASHED - filled));
                part[filled..filled + taken.len()].copy_from_slice(taken);
                (bytes, filled) = (rest, filled + taken.len());
                if filled == HASHED {
                    state.write(&part);
                    filled = 0;
                }
            }
        }
        state.write(&part[..filled]);
        // As `str` does, so that the texts of a tuple do not run together.
        state.write_u8(0xFF);
    }
}

/// It is that of a slice with this text.
impl Hash for Rope {
    fn hash<H: Hasher>(&self, state: &mut H) {
        self.whole().hash(state);
    }
}

impl Eq for Rope {}

impl Eq for RopeSlice<'_> {}

impl Ord for Rope {
    fn cmp(&self, other: &Rope) -> Ordering {
        self.whole().compare(other.whole())
    }
}

impl Ord for RopeSlice<'_> {
    fn cmp(&self, other: &Self) -> Ordering {
        self.compare(*other)
    }
}

impl PartialEq for Rope {
    fn eq(&self, other: &Rope) -> bool {
        self.whole().equals(other.whole())
    }
}

impl PartialEq for RopeSlice<'_> {
    fn eq(&self, other: &Self) -> bool {
        self.equals(*other)
    }
}

impl PartialOrd for Rope {
    fn partial_cmp(&self, other: &Rope) -> Option<Ordering> {
        Some(self.cmp(other))
    }
}

impl PartialOrd for RopeSlice<'_> {
    fn partial_cmp(&self, other: &Self) -> Option<Ordering> {
        Some(self.cmp(other))
    }
}

/// Compares a rope and a slice with each other.
macro_rules! compare_lent {
    ($($one:ty, $other:ty;)*) => {$(
        impl PartialEq<$other> for $one {
            fn eq(&self, other: &$other) -> bool {
                self.whole().equals(other.whole())
            }
        }

        impl PartialOrd<$other> for $one {
            fn partial_cmp(&self, other: &$other) -> Option<Ordering> {
                Some(self.whole().compare(other.whole()))
            }
        }
    )*};
}

compare_lent! {
    Rope, RopeSlice<'_>;
    RopeSlice<'_>, Rope;
}

/// Compares ropes and slices with what derefs to a `str`, both ways.
macro_rules! compare_str {
    ($($lent:ty, $text:ty;)*) => {$(
        impl PartialEq<$text> for $lent {
            fn eq(&self, text: &$text) -> bool {
                self.whole().equals_str(text)
            }
        }

        impl PartialEq<$lent> for $text {
            fn eq(&self, lent: &$lent) -> bool {
                lent.whole().equals_str(self)
            }
        }

        impl PartialOrd<$text> for $lent {
            fn partial_cmp(&self, text: &$text) -> Option<Ordering> {
                Some(self.whole().compare_str(text))
            }
        }

        impl PartialOrd<$lent> for $text {
            fn partial_cmp(&self, lent: &$lent) -> Option<Ordering> {
                Some(lent.whole().compare_str(self).reverse())
            }
        }
    )*};
}

compare_str! {
    Rope, str;
    Rope, &str;
    Rope, String;
    Rope, Cow<'_, str>;
    RopeSlice<'_>, str;
    RopeSlice<'_>, &str;
    RopeSlice<'_>, String;
    RopeSlice<'_>, Cow<'_, str>;
}
