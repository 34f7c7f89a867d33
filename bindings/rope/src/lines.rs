//! Lines by what ends them. A rope and its slices have them alike.
use crate::walk::Steps;
use crate::{LineType, RopeSlice, Scheme};

/// Whether a scheme takes CR LF for one break, and a CR alone for one too.
pub(crate) fn takes_pairs(scheme: Scheme) -> bool {
    matches!(scheme, Scheme::Crlf | Scheme::Lines)
}

/// Methods over `len_lines` and `whole`, which lend for the lifetime of the text.
macro_rules! line_methods {
    ($life:lifetime) => {
        /// Returns a line with its break, lent; past the last line, `None`. Takes two searches, O(log n).
        ///
        /// ```
        /// use str_rope::{LineType, Rope};
        ///
        /// let rope = Rope::from("a\r\nb\n");
        /// let line = |line| rope.line(line, LineType::Crlf).map(String::from);
        /// assert_eq!([0, 1, 2, 3].map(line), [Some("a\r\n".into()), Some("b\n".into()), Some("".into()), None]);
        /// ```
        pub fn line(&self, line_idx: usize, line_type: $crate::LineType) -> Option<$crate::RopeSlice<$life>> {
            self.lines_at(line_idx, line_type).next()
        }

        /// Goes over the lines in order, each with its break. The last line has none, and is empty if the text ends in a
        /// break. Each line takes one search, O(log n).
        ///
        /// ```
        /// use str_rope::{LineType, Rope};
        ///
        /// let rope = Rope::from("one\ntwo\n");
        /// let lines: Vec<_> = rope.lines(LineType::Lf).map(String::from).collect();
        /// assert_eq!(lines, ["one\n", "two\n", ""]);
        /// ```
        pub fn lines(&self, line_type: $crate::LineType) -> $crate::Lines<$life> {
            self.lines_at(0, line_type)
        }

        /// Goes over the lines from a line index on; past the last line, over none.
        /// [`Lines::prev`](crate::Lines::prev) gives the lines before it. Each line takes one search, O(log n).
        ///
        /// ```
        /// use str_rope::{LineType, Rope};
        ///
        /// let rope = Rope::from("one\ntwo\nthree");
        /// let mut lines = rope.lines_at(2, LineType::Lf);
        /// assert_eq!(lines.prev().unwrap(), "two\n");
        /// assert_eq!(lines.next().unwrap(), "two\n");
        /// assert_eq!(lines.next().unwrap(), "three");
        /// assert_eq!(lines.next(), None);
        /// ```
        pub fn lines_at(&self, line_idx: usize, line_type: $crate::LineType) -> $crate::Lines<$life> {
            let end = self.len_lines(line_type);
            $crate::Lines::new(self.whole(), line_type, line_idx.min(end), end)
        }
    };
}

pub(crate) use line_methods;

/// Goes from line to line, by the lines' numbers.
#[derive(Clone)]
pub(crate) struct LineSteps<'a> {
    slice: RopeSlice<'a>,
    scheme: Scheme,
    /// The line of the rope in which the slice begins.
    first: usize,
    /// A line of the slice, and the byte of the rope where it begins, if one is known.
    known: Option<(usize, usize)>,
}

impl<'a> LineSteps<'a> {
    pub fn new(slice: RopeSlice<'a>, line_type: LineType) -> LineSteps<'a> {
        let scheme = line_type.into();
        LineSteps {
            slice,
            scheme,
            first: slice.count_before(scheme),
            known: None,
        }
    }

    /// The byte of the rope where a line of the slice begins. Past the last one it is the slice's end.
    fn byte_of(&self, line: usize) -> usize {
        if let Some((_, byte)) = self.known.filter(|known| known.0 == line) {
            return byte;
        }
        let bytes = self.slice.range();
        let byte = self.slice.rope().to_byte_idx(self.scheme, self.first + line);
        byte.clamp(bytes.start, bytes.end)
    }
}

impl<'a> Steps for LineSteps<'a> {
    type Item = RopeSlice<'a>;
    const MOST: usize = 1;

    fn after(&mut self, at: usize, _end: usize) -> Option<(RopeSlice<'a>, usize)> {
        let (start, end) = (self.byte_of(at), self.byte_of(at + 1));
        self.known = Some((at + 1, end));
        Some((RopeSlice::new(self.slice.rope(), start, end), at + 1))
    }

    fn before(&mut self, at: usize, _start: usize) -> Option<(RopeSlice<'a>, usize)> {
        let (start, end) = (self.byte_of(at - 1), self.byte_of(at));
        self.known = Some((at - 1, start));
        Some((RopeSlice::new(self.slice.rope(), start, end), at - 1))
    }
}
