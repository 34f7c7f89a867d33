//! Chars and bytes at an index, which a rope and its slices have alike.

/// Methods over `len`, `slice` and `whole`.
macro_rules! index_methods {
    () => {
        /// Returns the greatest char boundary at a byte index or before it; past the end, `len()`. Takes one search,
        /// O(log n), and reads a char.
        ///
        /// ```
        /// let rope = str_rope::Rope::from("é🐸b");
        /// assert_eq!([1, 2, 5, 6, 99].map(|byte| rope.floor_char_boundary(byte)), [0, 2, 2, 6, 7]);
        /// ```
        pub fn floor_char_boundary(&self, byte_idx: usize) -> usize {
            let Some((text, start)) = self.whole().chunk_of(byte_idx) else {
                return self.len();
            };
            let is_boundary = |&at: &usize| text.is_char_boundary(at - start);
            // The chunk begins at a boundary.
            (start..=byte_idx).rev().find(is_boundary).unwrap_or(start)
        }

        /// Returns the least char boundary at a byte index or after it; past the end, `len()`. Takes one search, O(log n),
        /// and reads a char.
        ///
        /// ```
        /// let rope = str_rope::Rope::from("é🐸b");
        /// assert_eq!([0, 1, 2, 3, 99].map(|byte| rope.ceil_char_boundary(byte)), [0, 2, 2, 6, 7]);
        /// ```
        pub fn ceil_char_boundary(&self, byte_idx: usize) -> usize {
            let Some((text, start)) = self.whole().chunk_of(byte_idx) else {
                return self.len();
            };
            let end = start + text.len();
            let is_boundary = |&at: &usize| text.is_char_boundary(at - start);
            (byte_idx..end).find(is_boundary).unwrap_or(end)
        }

        /// Returns the byte at a byte index; from the end on, `None`. Takes one search, O(log n).
        ///
        /// ```
        /// let rope = str_rope::Rope::from("ab");
        /// assert_eq!([0, 1, 2].map(|byte| rope.byte(byte)), [Some(b'a'), Some(b'b'), None]);
        /// ```
        pub fn byte(&self, byte_idx: usize) -> Option<u8> {
            let (text, start) = self.whole().chunk_of(byte_idx)?;
            text.as_bytes().get(byte_idx - start).copied()
        }

        /// Returns the char that begins at a byte index; from the end on, and inside a char, `None`.
        /// `floor_char_boundary` tells where the char that a byte is in begins. Takes one search, O(log n).
        ///
        /// ```
        /// let rope = str_rope::Rope::from("🐸b");
        /// assert_eq!([0, 1, 4, 5].map(|byte| rope.char(byte)), [Some('🐸'), None, Some('b'), None]);
        /// ```
        pub fn char(&self, byte_idx: usize) -> Option<char> {
            let (text, start) = self.whole().chunk_of(byte_idx)?;
            text.get(byte_idx - start..)?.chars().next()
        }

        /// Copies the text between two byte indices into one block of memory. Takes O(log n), and O(log n) for each chunk.
        ///
        /// Returns [`Error::NotOrdered`](crate::Error) if the range ends before it starts, `NotBoundary` if it starts or ends
        /// past the end or inside a char, and `NoMemory` if memory is refused.
        ///
        /// ```
        /// use str_rope::{Error, Rope};
        ///
        /// let rope = Rope::from("one two");
        /// assert_eq!(rope.text_in(4..).as_deref(), Ok("two"));
        /// assert_eq!(rope.text_in(4..8), Err(Error::NotBoundary));
        /// ```
        pub fn text_in(
            &self,
            range: impl core::ops::RangeBounds<usize>,
        ) -> Result<alloc::string::String, $crate::Error> {
            let slice = self.slice(range)?;
            let mut text = alloc::string::String::new();
            text.try_reserve_exact(slice.len())
                .map_err(|_| $crate::Error::NoMemory)?;
            text.extend(slice.chunks());
            Ok(text)
        }
    };
}

pub(crate) use index_methods;
