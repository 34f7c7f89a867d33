//! The traits of `std` that other crates expect of a text. `compare` has the ones that compare.
use crate::{Error, Rope, RopeBuilder, RopeSlice, MAX_CHUNK};
use alloc::alloc::{handle_alloc_error, Layout};
use alloc::borrow::Cow;
use alloc::string::String;
use core::fmt::{self, Write};
use core::str::FromStr;

/// Takes the result, or ends the program if memory was refused, as a `String` does.
fn or_abort<T>(result: Result<T, Error>) -> T {
    result.unwrap_or_else(|error| match error {
        Error::NoMemory => handle_alloc_error(Layout::new::<[u8; MAX_CHUNK]>()),
        _ => panic!("{error}"),
    })
}

impl Default for Rope {
    fn default() -> Rope {
        Rope::new()
    }
}

/// Makes a rope with the same text, in one step. Ends the program if memory is refused, as a `String` does;
/// [`Rope::try_clone`] returns the error.
impl Clone for Rope {
    fn clone(&self) -> Rope {
        or_abort(self.try_clone())
    }
}

/// As [`Rope::from_str`]. Returns [`Error::NoMemory`] if memory is refused.
impl FromStr for Rope {
    type Err = Error;

    fn from_str(text: &str) -> Result<Rope, Error> {
        Rope::from_str(text)
    }
}

/// Makes a rope of what derefs to a `str`.
macro_rules! from_text {
    ($($text:ty),*) => {$(
        /// Copies the text. Ends the program if memory is refused, as a `String` does; `parse` returns the error.
        impl From<$text> for Rope {
            fn from(text: $text) -> Rope {
                or_abort(Rope::from_str(&text))
            }
        }
    )*};
}

from_text!(&str, &String, String, Cow<'_, str>);

/// Shares the chunks that lie inside the slice. Ends the program if memory is refused, as a `String` does;
/// [`RopeSlice::to_rope`] returns the error.
impl From<RopeSlice<'_>> for Rope {
    fn from(slice: RopeSlice<'_>) -> Rope {
        or_abort(slice.to_rope())
    }
}

/// Copies the text into one block of memory.
impl From<RopeSlice<'_>> for String {
    fn from(slice: RopeSlice<'_>) -> String {
        let mut text = String::with_capacity(slice.len());
        text.extend(slice.chunks());
        text
    }
}

/// Copies the text into one block of memory.
impl From<&Rope> for String {
    fn from(rope: &Rope) -> String {
        rope.whole().into()
    }
}

/// Copies the text into one block of memory.
impl From<Rope> for String {
    fn from(rope: Rope) -> String {
        String::from(&rope)
    }
}

/// Lends the text if it lies in one chunk, and else copies it.
impl<'a> From<RopeSlice<'a>> for Cow<'a, str> {
    fn from(slice: RopeSlice<'a>) -> Cow<'a, str> {
        match slice.as_str() {
            Some(text) => Cow::Borrowed(text),
            None => Cow::Owned(slice.into()),
        }
    }
}

/// Lends the text if it lies in one chunk, and else copies it.
impl<'a> From<&'a Rope> for Cow<'a, str> {
    fn from(rope: &'a Rope) -> Cow<'a, str> {
        rope.whole().into()
    }
}

/// Makes or extends a rope by pieces that deref to a `str`.
macro_rules! from_pieces {
    ($($piece:ty),*) => {$(
        /// Ends the program if memory is refused, as a `String` does.
        impl<'a> FromIterator<$piece> for Rope {
            fn from_iter<I: IntoIterator<Item = $piece>>(pieces: I) -> Rope {
                let mut rope = Rope::new();
                rope.extend(pieces);
                rope
            }
        }

        /// Ends the program if memory is refused, as a `String` does.
        impl<'a> Extend<$piece> for Rope {
            fn extend<I: IntoIterator<Item = $piece>>(&mut self, pieces: I) {
                let mut builder = RopeBuilder::new();
                pieces.into_iter().for_each(|piece| or_abort(builder.append(&piece)));
                or_abort(builder.finish().and_then(|mut rest| self.append(&mut rest)));
            }
        }
    )*};
}

from_pieces!(&'a str, &'a String, String, Cow<'a, str>);

/// Ends the program if memory is refused, as a `String` does.
impl FromIterator<char> for Rope {
    fn from_iter<I: IntoIterator<Item = char>>(chars: I) -> Rope {
        let mut rope = Rope::new();
        rope.extend(chars);
        rope
    }
}

/// Ends the program if memory is refused, as a `String` does.
impl Extend<char> for Rope {
    fn extend<I: IntoIterator<Item = char>>(&mut self, chars: I) {
        let mut builder = RopeBuilder::new();
        let append = |char: char| or_abort(builder.append(char.encode_utf8(&mut [0; 4])));
        chars.into_iter().for_each(append);
        or_abort(builder.finish().and_then(|mut rest| self.append(&mut rest)));
    }
}

/// Appends text. Returns an error if [`Rope::insert`] does.
impl fmt::Write for Rope {
    fn write_str(&mut self, text: &str) -> fmt::Result {
        self.insert(self.len(), text).map_err(|_| fmt::Error)
    }
}

/// Writes the text, chunk by chunk. A width or a precision changes nothing.
impl fmt::Display for RopeSlice<'_> {
    fn fmt(&self, f: &mut fmt::Formatter<'_>) -> fmt::Result {
        self.chunks().try_for_each(|chunk| f.write_str(chunk))
    }
}

/// Writes the text, chunk by chunk. A width or a precision changes nothing.
impl fmt::Display for Rope {
    fn fmt(&self, f: &mut fmt::Formatter<'_>) -> fmt::Result {
        fmt::Display::fmt(&self.whole(), f)
    }
}

/// Writes the text as a `str` is written: in quotation marks, and with escapes.
impl fmt::Debug for RopeSlice<'_> {
    fn fmt(&self, f: &mut fmt::Formatter<'_>) -> fmt::Result {
        f.write_char('"')?;
        self.chunks().try_for_each(|chunk| write_escaped(f, chunk))?;
        f.write_char('"')
    }
}

/// Writes the text as a `str` is written: in quotation marks, and with escapes.
impl fmt::Debug for Rope {
    fn fmt(&self, f: &mut fmt::Formatter<'_>) -> fmt::Result {
        fmt::Debug::fmt(&self.whole(), f)
    }
}

fn write_escaped(f: &mut fmt::Formatter<'_>, text: &str) -> fmt::Result {
    text.chars().try_for_each(|char| match char {
        '\'' => f.write_char(char),
        _ => write!(f, "{}", char.escape_debug()),
    })
}
