//! The methods that both a rope and an index have, for their crates.

/// Defines the methods that ask a library one question each. `handle()` of their type is what the library wants, for as long as
/// `self` is borrowed; the names of its exports begin with the prefix. Behind a name stands what the method takes.
#[doc(hidden)]
#[macro_export]
macro_rules! questions {
    (
        $prefix:literal,
        $handle:ty,
        count: $count:literal,
        from_byte_idx: $from:literal,
        to_byte_idx: $to:literal,
        is_char_boundary: $is_boundary:literal,
        line_content: $line:literal,
        line_end: $line_end:literal,
        position_of: $position:literal,
        exact_position_of: $exact_position:literal,
        range_of: $range:literal,
        byte_of: $byte:literal,
        exact_byte_of: $exact_byte:literal,
        byte_range: $bytes:literal $(,)?
    ) => {
        /// Returns how many bytes the text has. Takes O(1).
        pub fn len(&self) -> usize {
            extern "C" {
                #[link_name = concat!($prefix, "len")]
                fn ask(handle: *const $handle) -> usize;
            }
            // SAFETY: as `questions` says.
            unsafe { ask(self.handle()) }
        }

        /// Counts the chars, UTF-16 code units or line breaks of the text.
        #[doc = concat!("Takes ", $count, ".")]
        pub fn count(&self, scheme: $crate::Scheme) -> usize {
            extern "C" {
                #[link_name = concat!($prefix, "count")]
                fn ask(handle: *const $handle, scheme: $crate::Scheme) -> usize;
            }
            // SAFETY: as `questions` says.
            unsafe { ask(self.handle(), scheme) }
        }

        /// Counts the chars, UTF-16 code units or line breaks that end at a byte index or before it; past the end, all of
        /// them. A byte inside a break is on the line that the break ends.
        #[doc = concat!("Takes ", $from, ".")]
        pub fn from_byte_idx(&self, scheme: $crate::Scheme, byte_idx: usize) -> usize {
            extern "C" {
                #[link_name = concat!($prefix, "from_byte_idx")]
                fn ask(handle: *const $handle, scheme: $crate::Scheme, byte_idx: usize) -> usize;
            }
            // SAFETY: as `questions` says.
            unsafe { ask(self.handle(), scheme, byte_idx) }
        }

        /// Returns the byte index where the char, the char of the UTF-16 code unit, or the line of an index begins; past the
        /// last one, `len()`.
        #[doc = concat!("Takes ", $to, ".")]
        pub fn to_byte_idx(&self, scheme: $crate::Scheme, idx: usize) -> usize {
            extern "C" {
                #[link_name = concat!($prefix, "to_byte_idx")]
                fn ask(handle: *const $handle, scheme: $crate::Scheme, idx: usize) -> usize;
            }
            // SAFETY: as `questions` says.
            unsafe { ask(self.handle(), scheme, idx) }
        }

        /// Tells whether a char begins at a byte index, or the text ends there; past the end, `false`.
        #[doc = concat!("Takes ", $is_boundary, ".")]
        pub fn is_char_boundary(&self, byte_idx: usize) -> bool {
            extern "C" {
                #[link_name = concat!($prefix, "is_char_boundary")]
                fn ask(handle: *const $handle, byte_idx: usize) -> bool;
            }
            // SAFETY: as `questions` says.
            unsafe { ask(self.handle(), byte_idx) }
        }

        /// Returns the byte indices of a line without its break; past the last line, an empty range at the end of the text.
        #[doc = concat!("Takes ", $line, ".")]
        pub fn line_content(&self, lines: $crate::LineType, line_idx: usize) -> core::ops::Range<usize> {
            extern "C" {
                #[link_name = concat!($prefix, "line")]
                fn ask(handle: *const $handle, lines: $crate::LineType, line_idx: usize) -> $crate::answers::Bytes;
            }
            // SAFETY: as `questions` says.
            unsafe { ask(self.handle(), lines, line_idx) }.into()
        }

        /// Returns the byte index where the content of a line ends: before its break; for the last line, and past it,
        /// `len()`.
        #[doc = concat!("Takes ", $line_end, ".")]
        pub fn line_end(&self, lines: $crate::LineType, line_idx: usize) -> usize {
            extern "C" {
                #[link_name = concat!($prefix, "line_end")]
                fn ask(handle: *const $handle, lines: $crate::LineType, line_idx: usize) -> usize;
            }
            // SAFETY: as `questions` says.
            unsafe { ask(self.handle(), lines, line_idx) }
        }

        /// Returns the position of a byte: its line, and the units from that line's beginning to the byte; past the end, the
        /// position of the text's end.
        #[doc = concat!("Takes ", $position, ".")]
        ///
        /// A byte inside a char has the position where the char begins, and the byte between the CR and the LF of one break
        /// that of the line's end.
        pub fn position_of(
            &self,
            lines: $crate::LineType,
            encoding: $crate::Encoding,
            byte_idx: usize,
        ) -> $crate::Position {
            extern "C" {
                #[link_name = concat!($prefix, "position_of")]
                fn ask(
                    handle: *const $handle,
                    lines: $crate::LineType,
                    encoding: $crate::Encoding,
                    byte_idx: usize,
                ) -> $crate::Position;
            }
            // SAFETY: as `questions` says.
            unsafe { ask(self.handle(), lines, encoding, byte_idx) }
        }

        /// Returns the position of a byte that is a place on a line; past the end, inside a char, and between the CR and the
        /// LF of one break, `None`. So a compiler notices a span that is wrong.
        #[doc = concat!("Takes ", $exact_position, ".")]
        pub fn exact_position_of(
            &self,
            lines: $crate::LineType,
            encoding: $crate::Encoding,
            byte_idx: usize,
        ) -> Option<$crate::Position> {
            extern "C" {
                #[link_name = concat!($prefix, "exact_position_of")]
                fn ask(
                    handle: *const $handle,
                    lines: $crate::LineType,
                    encoding: $crate::Encoding,
                    byte_idx: usize,
                ) -> $crate::Position;
            }
            // SAFETY: as `questions` says.
            $crate::answers::some_position(unsafe { ask(self.handle(), lines, encoding, byte_idx) })
        }

        /// Returns the positions of both ends of a span of bytes, each as `position_of` does, also if the end is before the
        /// start.
        #[doc = concat!("Takes ", $range, ".")]
        pub fn range_of(
            &self,
            lines: $crate::LineType,
            encoding: $crate::Encoding,
            span: core::ops::Range<usize>,
        ) -> $crate::Range {
            extern "C" {
                #[link_name = concat!($prefix, "range_of")]
                fn ask(
                    handle: *const $handle,
                    lines: $crate::LineType,
                    encoding: $crate::Encoding,
                    span: $crate::answers::Bytes,
                ) -> $crate::Range;
            }
            // SAFETY: as `questions` says.
            unsafe { ask(self.handle(), lines, encoding, span.into()) }
        }

        /// Returns the byte index where the char at a position begins; past the end of the line, that end, before its break,
        /// and past the last line, `len()`. An offset inside a char belongs to its char.
        #[doc = concat!("Takes ", $byte, ".")]
        pub fn byte_of(
            &self,
            lines: $crate::LineType,
            encoding: $crate::Encoding,
            position: $crate::Position,
        ) -> usize {
            extern "C" {
                #[link_name = concat!($prefix, "byte_of")]
                fn ask(
                    handle: *const $handle,
                    lines: $crate::LineType,
                    encoding: $crate::Encoding,
                    position: $crate::Position,
                ) -> usize;
            }
            // SAFETY: as `questions` says.
            unsafe { ask(self.handle(), lines, encoding, position) }
        }

        /// Returns the byte index of a position that names a place; past the last line, past the end of the line, and inside
        /// a char, `None`. So a server notices a client that is out of step.
        #[doc = concat!("Takes ", $exact_byte, ".")]
        pub fn exact_byte_of(
            &self,
            lines: $crate::LineType,
            encoding: $crate::Encoding,
            position: $crate::Position,
        ) -> Option<usize> {
            extern "C" {
                #[link_name = concat!($prefix, "exact_byte_of")]
                fn ask(
                    handle: *const $handle,
                    lines: $crate::LineType,
                    encoding: $crate::Encoding,
                    position: $crate::Position,
                ) -> usize;
            }
            // SAFETY: as `questions` says.
            $crate::answers::some_byte(unsafe { ask(self.handle(), lines, encoding, position) })
        }

        /// Returns the byte indices of a range, each as `byte_of` does, or `None` if its end is before its start.
        #[doc = concat!("Takes ", $bytes, ".")]
        pub fn byte_range(
            &self,
            lines: $crate::LineType,
            encoding: $crate::Encoding,
            range: $crate::Range,
        ) -> Option<core::ops::Range<usize>> {
            extern "C" {
                #[link_name = concat!($prefix, "byte_range")]
                fn ask(
                    handle: *const $handle,
                    lines: $crate::LineType,
                    encoding: $crate::Encoding,
                    range: $crate::Range,
                ) -> $crate::answers::Bytes;
            }
            // SAFETY: as `questions` says.
            $crate::answers::some_bytes(unsafe { ask(self.handle(), lines, encoding, range) })
        }
    };
}

/// Defines methods over `len`, `count`, `from_byte_idx` and `to_byte_idx`, by ropey's names. Behind a name stands what that
/// method takes.
#[doc(hidden)]
#[macro_export]
macro_rules! conversions {
    (count: $count:literal, from_byte_idx: $from:literal, to_byte_idx: $to:literal $(,)?) => {
        /// Tells whether the text has no byte. Takes O(1).
        pub fn is_empty(&self) -> bool {
            self.len() == 0
        }

        /// Returns how many chars (Unicode scalar values) the text has.
        #[doc = concat!("Takes ", $count, ".")]
        pub fn len_chars(&self) -> usize {
            self.count($crate::Scheme::Chars)
        }

        /// Returns how many UTF-16 code units the text has.
        #[doc = concat!("Takes ", $count, ".")]
        pub fn len_utf16(&self) -> usize {
            self.count($crate::Scheme::Utf16)
        }

        /// Returns how many lines the text has: one more than its line breaks. A text that ends in a break has an empty last
        /// line.
        #[doc = concat!("Takes ", $count, ".")]
        pub fn len_lines(&self, line_type: $crate::LineType) -> usize {
            // No sum that wraps: a text has at most `isize::MAX` bytes.
            self.count(line_type.into()) + 1
        }

        /// Returns the char index of the char that a byte is in; past the end, `len_chars()`.
        #[doc = concat!("Takes ", $from, ".")]
        pub fn byte_to_char_idx(&self, byte_idx: usize) -> usize {
            self.from_byte_idx($crate::Scheme::Chars, byte_idx)
        }

        /// Returns the index of the UTF-16 code unit with which the char that a byte is in begins; past the end,
        /// `len_utf16()`.
        #[doc = concat!("Takes ", $from, ".")]
        pub fn byte_to_utf16_idx(&self, byte_idx: usize) -> usize {
            self.from_byte_idx($crate::Scheme::Utf16, byte_idx)
        }

        /// Returns the line index of the line that a byte is on; past the end, that of the last line. A byte inside a break is
        /// on the line that the break ends.
        #[doc = concat!("Takes ", $from, ".")]
        pub fn byte_to_line_idx(&self, byte_idx: usize, line_type: $crate::LineType) -> usize {
            self.from_byte_idx(line_type.into(), byte_idx)
        }

        /// Returns the byte index where the char of a char index begins; past the last char, `len()`.
        #[doc = concat!("Takes ", $to, ".")]
        pub fn char_to_byte_idx(&self, char_idx: usize) -> usize {
            self.to_byte_idx($crate::Scheme::Chars, char_idx)
        }

        /// Returns the byte index where the char of a UTF-16 code unit begins; past the last unit, `len()`. Both units of a
        /// surrogate pair belong to one char.
        #[doc = concat!("Takes ", $to, ".")]
        pub fn utf16_to_byte_idx(&self, utf16_idx: usize) -> usize {
            self.to_byte_idx($crate::Scheme::Utf16, utf16_idx)
        }

        /// Returns the byte index where a line begins; past the last line, `len()`.
        #[doc = concat!("Takes ", $to, ".")]
        pub fn line_to_byte_idx(&self, line_idx: usize, line_type: $crate::LineType) -> usize {
            self.to_byte_idx(line_type.into(), line_idx)
        }
    };
}
