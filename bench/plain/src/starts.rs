//! Where lines start, in a list beside a text that does not change. Lines end in LF, CR or CRLF. The line of a byte is found by
//! halving, and its column in UTF-16 code units by going over the line. Nothing of it is proved.

use crate::leaf::{floor, Seen, STEP};

/// How many bytes are counted together: no more than a byte has room for.
const TOGETHER: usize = 127;

/// A text, and where its lines start. It has less than 4 GB.
pub struct Starts<'a> {
    text: &'a [u8],
    starts: Vec<u32>,
}

/// A line, and UTF-16 code units on it.
#[derive(Clone, Copy)]
pub struct Position {
    pub line: usize,
    pub character: usize,
}

/// How many UTF-16 code units begin at a byte.
#[inline(always)]
fn units_at(byte: u8) -> u8 {
    u8::from(byte & 0xc0 != 0x80) + u8::from(byte >= 0xf0)
}

/// The same of some bytes.
fn units_of(bytes: &[u8]) -> usize {
    let parts = bytes.chunks(TOGETHER);
    let counts = parts.map(|part| part.iter().map(|byte| units_at(*byte)).sum::<u8>());
    counts.map(usize::from).sum()
}

impl Starts<'_> {
    pub fn of(text: &str) -> Starts<'_> {
        let text = text.as_bytes();
        let mut starts = vec![0];
        for (i, part) in text.chunks(STEP).enumerate() {
            let seen = Seen::of_any(part);
            let mut ends = seen.lf | seen.cr;
            while ends != 0 {
                let at = i * STEP + ends.trailing_zeros() as usize;
                if text[at] == b'\n' || text.get(at + 1) != Some(&b'\n') {
                    starts.push(at as u32 + 1);
                }
                ends &= ends - 1;
            }
        }
        starts.shrink_to_fit();
        Starts { text, starts }
    }

    /// How many breaks the text has.
    pub fn breaks(&self) -> usize {
        self.starts.len() - 1
    }

    /// Where a line starts, and where its content ends.
    fn line(&self, line: usize) -> (usize, usize) {
        let place = |line| self.starts.get(line).map_or(self.text.len(), |start| *start as usize);
        let (start, end) = (place(line), place(line + 1));
        let content = &self.text[start..end];
        let content = content.strip_suffix(b"\n").unwrap_or(content);
        let content = content.strip_suffix(b"\r").unwrap_or(content);
        (start, start + content.len())
    }

    pub fn position_of(&self, byte: usize) -> Position {
        let byte = floor(self.text, byte.min(self.text.len()));
        let line = self.starts.partition_point(|start| *start as usize <= byte) - 1;
        let (start, end) = self.line(line);
        let character = units_of(&self.text[start..byte.min(end)]);
        Position { line, character }
    }

    pub fn byte_of(&self, position: Position) -> usize {
        let (start, end) = self.line(position.line);
        let mut left = position.character;
        let mut at = start;
        for part in self.text[start..end].chunks(TOGETHER) {
            let here = units_of(part);
            if left < here {
                return at + place_in(part, left);
            }
            left -= here;
            at += part.len();
        }
        end
    }
}

/// Where the character begins in which a unit is that some bytes have.
fn place_in(part: &[u8], unit: usize) -> usize {
    let mut units = 0;
    let found = part.iter().position(|byte| {
        units += usize::from(units_at(*byte));
        unit < units
    });
    found.unwrap_or(part.len())
}
