//! Blanks at the end of lines.
use crate::faults::Fault;
use crate::protocol::{Span, Units};
use std::ops;
use str_rope::{Error, LineType, Rope};

/// The most warnings that are sent for a document: a key that moves one sends all of them again.
const MOST_WARNINGS: usize = 200;

/// So many bytes before a line's end blanks are warned of, so that a change in a line of millions reads no more of it.
const LONGEST_WARNING: usize = 1000;

/// The first lines of a text that end in blanks, as far as lines were read.
#[derive(Default)]
pub struct Warnings {
    found: Vec<Span>,
    /// How many lines were read.
    read: usize,
    /// Whether no line with a warning was changed since the client was told. One that was may have the same offsets, and others
    /// in a client that keeps them in bytes.
    pub is_sent: bool,
}

impl Warnings {
    /// Takes in that a part of some lines was replaced by another text, by which the text came to have other lines: how
    /// many they were before. The lines before those, and the lines after them, have the content that they had.
    pub fn update(
        &mut self,
        rope: &Rope,
        units: Units,
        lines: ops::Range<usize>,
        lines_before: usize,
    ) -> Result<(), Fault> {
        if self.read <= lines.start {
            return Ok(());
        }
        let next_now = (rope.len_lines(units.lines) + lines.end)
            .saturating_sub(lines_before)
            .max(lines.start);
        let read_before = self.read;
        let after = self.found.split_off(self.before(lines.end));
        let first = self.before(lines.start);
        self.is_sent &= first == self.found.len();
        self.found.truncate(first);
        self.read = lines.start;
        self.read_to(rope, units, next_now)?;
        if self.read == next_now && lines.end <= read_before {
            for one in after {
                self.found.push(one.move_to(lines.end, next_now)?);
            }
            self.read = read_before - lines.end + next_now;
        }
        if self.found.len() > 2 * MOST_WARNINGS {
            self.found.truncate(MOST_WARNINGS);
            self.read = self.found[MOST_WARNINGS - 1].lines().end;
        }
        Ok(())
    }

    /// The first of them.
    pub fn first(&mut self, rope: &Rope, units: Units) -> Result<&[Span], Fault> {
        self.read_to(rope, units, rope.len_lines(units.lines))?;
        Ok(&self.found[..self.found.len().min(MOST_WARNINGS)])
    }

    /// How many are before a line.
    fn before(&self, line: usize) -> usize {
        self.found.partition_point(|one| one.lines().start < line)
    }

    /// Reads on up to a line, or until there are enough.
    fn read_to(&mut self, rope: &Rope, units: Units, line: usize) -> Result<(), Fault> {
        let missing = MOST_WARNINGS.saturating_sub(self.found.len());
        if self.read < line && missing > 0 {
            let found = blanks_in(rope, units, self.read..line, LONGEST_WARNING, missing)?;
            self.read = if found.len() < missing {
                line
            } else {
                found[missing - 1].lines().end
            };
            self.found.extend(found);
        }
        Ok(())
    }
}

/// Where some lines end in blanks: the first of these, at most `most`, and of each the last `longest` bytes. Of the last line
/// no more is read.
pub fn blanks_in(
    rope: &Rope,
    units: Units,
    lines: ops::Range<usize>,
    longest: usize,
    most: usize,
) -> Result<Vec<Span>, Fault> {
    let start_of = |line| rope.line_to_byte_idx(line, units.lines);
    let tail_of = |line| {
        let end = rope.line_end(units.lines, line);
        let start = end.saturating_sub(longest).max(start_of(line));
        rope.floor_char_boundary(start)..end
    };
    let mut found = Vec::new();
    if !lines.is_empty() {
        let last = lines.end - 1;
        if lines.start < last {
            let part = tail_of(lines.start).start..start_of(last);
            find_blanks(rope, units.lines, part, most, &mut found)?;
        }
        find_blanks(rope, units.lines, tail_of(last), most, &mut found)?;
    }
    let span = |bytes: ops::Range<usize>| {
        let start = bytes.start.max(bytes.end.saturating_sub(longest));
        units.span(rope, start..bytes.end)
    };
    found.into_iter().map(span).collect()
}

/// Looks for blanks before a break or the end of a part of a text, until the most that are wanted are found. CR LF is a break
/// also where LF alone ends a line.
fn find_blanks(
    rope: &Rope,
    lines: LineType,
    part: ops::Range<usize>,
    most: usize,
    found: &mut Vec<ops::Range<usize>>,
) -> Result<(), Error> {
    let mut start = None;
    let is_break = |at| lines != LineType::Lf || rope.byte(at + 1).unwrap_or(b'\n') == b'\n';
    for (at, byte) in (part.start..).zip(rope.slice(part.clone())?.bytes()) {
        match byte {
            b' ' | b'\t' => start = start.or(Some(at)),
            b'\n' => found.extend(start.take().map(|start| start..at)),
            b'\r' if is_break(at) => found.extend(start.take().map(|start| start..at)),
            _ => start = None,
        }
        if found.len() == most {
            return Ok(());
        }
    }
    found.extend(start.map(|start| start..part.end));
    Ok(())
}

#[cfg(test)]
mod tests {
    use super::*;
    use crate::protocol::Place;
    use str_rope::Encoding;

    /// Random numbers, by xorshift.
    struct Numbers(u64);

    impl Numbers {
        fn below(&mut self, limit: usize) -> usize {
            self.0 ^= self.0 << 13;
            self.0 ^= self.0 >> 7;
            self.0 ^= self.0 << 17;
            (self.0 % limit as u64) as usize
        }

        fn text(&mut self, pieces: usize) -> String {
            const PIECES: [&str; 10] = [" ", "\t", "\r", "\n", "\r\n", "a", "é", "世", "🐸", "  \n"];
            (0..self.below(pieces))
                .map(|_| PIECES[self.below(PIECES.len())])
                .collect()
        }
    }

    /// The first warnings of a whole text.
    fn all(rope: &Rope, units: Units) -> Vec<Span> {
        Warnings::default().first(rope, units).unwrap().to_vec()
    }

    /// Each encoding, by each kind of line.
    fn all_units() -> impl Iterator<Item = Units> {
        let encodings = [Encoding::Utf8, Encoding::Utf16, Encoding::Utf32];
        let by_lines = move |lines| encodings.map(|encoding| Units { encoding, lines });
        [LineType::Crlf, LineType::Lf].into_iter().flat_map(by_lines)
    }

    #[test]
    fn what_is_kept_is_what_the_whole_text_has() {
        let mut numbers = Numbers(59);
        for units in all_units() {
            let (mut rope, mut kept) = (Rope::new(), Warnings::default());
            for turn in 0..20_000 {
                let mut bytes = [numbers.below(rope.len() + 1), numbers.below(rope.len() + 1)];
                bytes.sort();
                let [start, end] = bytes.map(|byte| rope.floor_char_boundary(byte));
                let end = if numbers.below(8) == 0 {
                    end
                } else {
                    end.min(start + 40)
                };
                let end = rope.floor_char_boundary(end);
                let line = |byte| rope.byte_to_line_idx(byte, units.lines);
                let (lines, before) = (line(start)..line(end) + 1, rope.len_lines(units.lines));
                let text = numbers.text(if turn % 100 == 0 { 8_000 } else { 24 });
                rope.replace(start..end, &text).unwrap();
                kept.update(&rope, units, lines, before).unwrap();
                if numbers.below(3) == 0 {
                    assert_eq!(kept.first(&rope, units).unwrap(), all(&rope, units), "{rope:?}");
                }
            }
        }
    }

    #[test]
    fn what_is_found_is_by_hand() {
        let rope: Rope = "a \r\n🐸\t \r \n\n  ".parse().unwrap();
        let found = |units| {
            let numbers = |place: Place| (place.line, place.character);
            let one = |one: Span| (numbers(one.start), numbers(one.end).1);
            all(&rope, units).into_iter().map(one).collect::<Vec<_>>()
        };
        let expected = [
            [((0, 1), 2), ((1, 4), 6), ((2, 0), 1), ((4, 0), 2)],
            [((0, 1), 2), ((1, 2), 4), ((2, 0), 1), ((4, 0), 2)],
            [((0, 1), 2), ((1, 1), 3), ((2, 0), 1), ((4, 0), 2)],
        ];
        assert_eq!(all_units().map(found).take(3).collect::<Vec<_>>(), expected);
        // The CR alone ends no line.
        let by_lf: Vec<_> = all_units().map(found).skip(3).collect();
        assert_eq!(by_lf[0], [((0, 1), 2), ((1, 7), 8), ((3, 0), 2)]);
    }
}
