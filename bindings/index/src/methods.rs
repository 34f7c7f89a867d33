//! The methods that both `TextIndex` and `OwnedIndex` have.

/// Questions, over `handle`.
macro_rules! index_questions {
    () => {
        str_indices_positions::questions! {
            "str_index_",
            $crate::library::Opaque,
            count: "O(1)",
            from_byte_idx: "O(1) and one read",
            to_byte_idx: "O(log n) and one read",
            is_char_boundary: "O(1)",
            line_content: "O(log n) and two reads",
            line_end: "O(log n) and one read",
            position_of: "O(log n) and two reads",
            exact_position_of: "O(log n) and two reads",
            range_of: "O(log n) and four reads",
            byte_of: "O(log n) and three reads",
            exact_byte_of: "O(log n) and four reads",
            byte_range: "O(log n) and six reads",
        }
    };
}

/// Counts, conversions and char boundaries, over the questions.
macro_rules! index_methods {
    () => {
        str_indices_positions::conversions! {
            count: "O(1)",
            from_byte_idx: "O(1) and one read",
            to_byte_idx: "O(log n) and one read",
        }

        /// Returns the greatest char boundary at a byte index or before it; past the end, `len()`. Takes O(1).
        ///
        /// ```
        /// let index = str_index::TextIndex::new("é🐸b").unwrap();
        /// assert_eq!([1, 2, 5, 6, 99].map(|byte| index.floor_char_boundary(byte)), [0, 2, 2, 6, 7]);
        /// ```
        pub fn floor_char_boundary(&self, byte_idx: usize) -> usize {
            let last = byte_idx.min(self.len());
            // The beginning is a boundary.
            (0..=last)
                .rev()
                .find(|&byte| self.is_char_boundary(byte))
                .unwrap_or(0)
        }

        /// Returns the least char boundary at a byte index or after it; past the end, `len()`. Takes O(1).
        ///
        /// ```
        /// let index = str_index::TextIndex::new("é🐸b").unwrap();
        /// assert_eq!([0, 1, 2, 3, 99].map(|byte| index.ceil_char_boundary(byte)), [0, 2, 2, 6, 7]);
        /// ```
        pub fn ceil_char_boundary(&self, byte_idx: usize) -> usize {
            let end = self.len();
            (byte_idx..end)
                .find(|&byte| self.is_char_boundary(byte))
                .unwrap_or(end)
        }
    };
}

/// Lines, over the questions and `whole`, which lends for the lifetime of the text.
macro_rules! line_methods {
    ($life:lifetime) => {
        /// Lends a line with its break; past the last line, returns `None`. Takes O(log n) and two reads.
        ///
        /// ```
        /// use str_index::{LineType, TextIndex};
        ///
        /// let index = TextIndex::new("a\r\nb\n").unwrap();
        /// let line = |line| index.line(line, LineType::Crlf);
        /// assert_eq!([0, 1, 2, 3].map(line), [Some("a\r\n"), Some("b\n"), Some(""), None]);
        /// ```
        pub fn line(&self, line_idx: usize, line_type: $crate::LineType) -> Option<&$life str> {
            if line_idx >= self.len_lines(line_type) {
                return None;
            }
            let [start, end] = [line_idx, line_idx + 1].map(|line| self.line_to_byte_idx(line, line_type));
            Some(&self.whole().text()[start..end])
        }

        /// Goes over the lines in order, each with its break. The last line has none, and is empty if the text ends in a
        /// break. Each line takes O(log n) and one read.
        ///
        /// ```
        /// use str_index::{LineType, TextIndex};
        ///
        /// let index = TextIndex::new("one\ntwo\n").unwrap();
        /// assert!(index.lines(LineType::Lf).eq(["one\n", "two\n", ""]));
        /// assert!(index.lines(LineType::Lf).rev().eq(["", "two\n", "one\n"]));
        /// assert_eq!(index.lines(LineType::Lf).len(), 3);
        /// ```
        pub fn lines(&self, line_type: $crate::LineType) -> $crate::Lines<$life> {
            self.lines_at(0, line_type)
        }

        /// Goes over the lines from a line index on; past the last line, over none. Each line takes O(log n) and one read.
        ///
        /// ```
        /// use str_index::{LineType, TextIndex};
        ///
        /// let index = TextIndex::new("one\ntwo\nthree").unwrap();
        /// assert!(index.lines_at(1, LineType::Lf).eq(["two\n", "three"]));
        /// assert_eq!(index.lines_at(3, LineType::Lf).next(), None);
        /// ```
        pub fn lines_at(&self, line_idx: usize, line_type: $crate::LineType) -> $crate::Lines<$life> {
            $crate::Lines::new(self.whole(), line_idx, line_type)
        }
    };
}

pub(crate) use {index_methods, index_questions, line_methods};
