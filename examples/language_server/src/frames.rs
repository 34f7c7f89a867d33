//! Frames on a stream: each is a header that tells the length of its body in bytes, an empty line, and the body.
//!
//! Blanks may stand between two frames. Other bytes there are refused once, and the server looks for the next frame. No JSON
//! has a line that ends in `Content-Length: 12`, since a line break in a string is escaped. So such a line begins a frame wherever
//! it stands, also inside a body whose length was told too long.
use crate::faults::Fault;
use crate::system;
use std::io::{self, BufRead, ErrorKind, Write};
use std::mem;

/// The most bytes of a header.
pub const MOST_HEADER: usize = 4 << 10;

/// The most bytes of a body.
pub const MOST_BODY: usize = 256 << 20;

/// So much memory is kept for what comes, and more only as long as it is used.
const KEPT: usize = 1 << 20;

/// No more bytes than these come at once.
const MOST_READ: usize = 64 << 10;

/// The field that each header has, and one that it may have.
const LENGTH: &str = "Content-Length";
const TYPE: &str = "Content-Type";

/// A line with a length, and one with a type, is no longer than this, where a frame is looked for.
const LONGEST_LINE: usize = 64;
const LONGEST_TYPE: usize = 256;

/// The frames of an input.
pub struct Frames<R> {
    input: R,
    /// What was read.
    buffer: Vec<u8>,
    /// Where in it the next frame begins, or is looked for.
    at: usize,
    /// Where the last body begins, which ends at `at`.
    body: usize,
    /// Whether the next frame has to be looked for.
    is_searching: bool,
    /// Whether no frame came since something was refused.
    was_refused: bool,
}

/// A message that the server refuses, or bytes outside of frames.
pub struct Refused<'a> {
    pub fault: Fault,
    /// The message, where it is whole. Else several messages may have been in the bytes, or parts of them.
    pub body: Option<&'a [u8]>,
    /// A frame came since something else was refused.
    pub is_first: bool,
}

/// Why no frame was read.
enum Missing {
    /// The input ends.
    End,
    /// The bytes are no frame.
    NoFrame(Fault),
    /// The frame is whole, and its body is refused.
    NoMessage(Fault),
    Failed(io::Error),
}

impl From<io::Error> for Missing {
    fn from(error: io::Error) -> Missing {
        Missing::Failed(error)
    }
}

/// What a header tells.
#[derive(Default)]
struct Header {
    len: Option<usize>,
    /// Whether a type has the name of an encoding that is not UTF-8, if there is a type.
    is_other_text: Option<bool>,
}

impl<R: BufRead> Frames<R> {
    pub fn new(input: R) -> Frames<R> {
        Frames {
            input,
            buffer: Vec::new(),
            at: 0,
            body: 0,
            is_searching: false,
            was_refused: false,
        }
    }

    /// Whether nothing is there that could be served.
    pub fn is_idle(&self) -> bool {
        (self.is_searching || self.buffer[self.at..].trim_ascii().is_empty()) && !system::has_input()
    }

    /// The body of the next frame, or why there is none; `None` where the input ends before the frame does.
    pub fn next(&mut self) -> io::Result<Option<Result<&[u8], Refused<'_>>>> {
        let (fault, is_whole) = match self.frame() {
            Ok(()) => {
                self.was_refused = false;
                return Ok(Some(Ok(&self.buffer[self.body..self.at])));
            }
            Err(Missing::End) => return Ok(None),
            Err(Missing::Failed(error)) => return Err(error),
            Err(Missing::NoFrame(fault)) => (fault, false),
            Err(Missing::NoMessage(fault)) => (fault, true),
        };
        let is_first = !mem::replace(&mut self.was_refused, true);
        let body = is_whole.then(|| &self.buffer[self.body..self.at]);
        Ok(Some(Err(Refused { fault, body, is_first })))
    }

    /// Refuses the last body, which is no message. Where a frame begins inside it, its length is wrong, and that frame is next.
    pub fn refuse(&mut self, fault: Fault) -> Refused<'_> {
        let end = self.at;
        let inside = frame_in(&self.buffer, self.body).filter(|inside| *inside < end);
        self.at = inside.unwrap_or(end - length_begun(&self.buffer[self.body..end]));
        self.was_refused = true;
        Refused {
            fault,
            body: (self.at == end).then(|| &self.buffer[self.body..end]),
            is_first: true,
        }
    }

    /// Goes past the next frame, or to where one may begin after what is none.
    fn frame(&mut self) -> Result<(), Missing> {
        self.forget();
        if self.is_searching {
            self.find()?;
        }
        self.pass_blanks()?;
        let header = self.header();
        if let Err(Missing::NoFrame(_)) = header {
            // The line that was refused is not found again.
            self.at += 1;
            self.is_searching = true;
        }
        let (len, is_other_text) = header?;
        self.read_body(self.body + len)?;
        match is_other_text {
            true => Err(Missing::NoMessage(Fault::invalid_request(
                "a body is not said to be UTF-8",
            ))),
            false => Ok(()),
        }
    }

    fn pass_blanks(&mut self) -> Result<(), Missing> {
        loop {
            self.forget();
            let blanks = self.buffer[self.at..]
                .iter()
                .take_while(|byte| byte.is_ascii_whitespace());
            self.at += blanks.count();
            if self.at < self.buffer.len() {
                return Ok(());
            }
            self.fill()?;
        }
    }

    /// The length that the next header tells, and whether it says that the body is not UTF-8.
    fn header(&mut self) -> Result<(usize, bool), Missing> {
        let refused = |sentence| Err(Missing::NoFrame(Fault::invalid_request(sentence)));
        let mut header = Header::default();
        let mut start = self.at;
        loop {
            let end = self.line_end(start)?;
            if end - self.at > MOST_HEADER {
                return refused("a header is too long");
            }
            let line = self.buffer[start..end].trim_ascii_end();
            if length_before(line).is_some_and(|back| back < line.len()) {
                return refused("a frame begins inside a header");
            }
            if !line.is_empty() {
                header.take(line).map_err(Missing::NoFrame)?;
                start = end;
                continue;
            }
            let Some(len) = header.len else {
                return refused("a header has no Content-Length");
            };
            let missing = (end + len).saturating_sub(self.buffer.len());
            if missing > 0 && self.buffer.try_reserve_exact(missing + MOST_READ).is_err() {
                return Err(Missing::NoFrame(Fault::no_memory()));
            }
            self.body = end;
            return Ok((len, header.is_other_text == Some(true)));
        }
    }

    /// Where the line of a header ends, or more bytes than a header may have.
    fn line_end(&mut self, start: usize) -> Result<usize, Missing> {
        loop {
            if let Some(len) = self.buffer[start..].iter().position(|byte| *byte == b'\n') {
                return Ok(start + len + 1);
            }
            if self.buffer.len() - self.at > MOST_HEADER {
                return Ok(self.buffer.len());
            }
            self.fill()?;
        }
    }

    /// Reads on until the body is there, and goes to its end; or to a frame inside it, which tells that its length is wrong.
    fn read_body(&mut self, end: usize) -> Result<(), Missing> {
        let mut searched = self.body;
        while self.buffer.len() < end {
            if let Some(inside) = frame_in(&self.buffer, searched) {
                self.at = inside;
                return Err(Missing::NoFrame(Fault::parse_error("a frame begins inside a body")));
            }
            searched = self.body.max(self.buffer.len().saturating_sub(LONGEST_LINE));
            self.fill()?;
        }
        self.at = end;
        Ok(())
    }

    /// Goes to the next line that begins a frame. Bytes before it that are no blanks may have been a message, and are refused.
    fn find(&mut self) -> Result<(), Missing> {
        loop {
            let found = frame_in(&self.buffer, self.at);
            let to = found.unwrap_or(self.at.max(self.buffer.len().saturating_sub(LONGEST_LINE)));
            let passed = self.buffer[self.at..to].trim_ascii();
            let (is_blank, is_type) = (passed.is_empty(), is_type(passed));
            self.is_searching = found.is_none();
            if !is_type {
                self.at = to;
            }
            if !is_blank && !is_type {
                return Err(Missing::NoFrame(Fault::parse_error("bytes are in no frame")));
            }
            if found.is_some() {
                return Ok(());
            }
            self.forget();
            self.fill()?;
        }
    }

    /// Reads what comes.
    fn fill(&mut self) -> Result<(), Missing> {
        let read = loop {
            match self.input.fill_buf() {
                Err(error) if error.kind() == ErrorKind::Interrupted => {}
                read => break read?,
            }
        };
        let len = read.len();
        self.buffer.extend_from_slice(read);
        self.input.consume(len);
        match len {
            0 => Err(Missing::End),
            _ => Ok(()),
        }
    }

    /// Forgets what was served, where that is most of what was read.
    fn forget(&mut self) {
        if self.at >= self.buffer.len() / 2 {
            self.buffer.drain(..self.at);
            self.buffer.shrink_to(KEPT);
            (self.at, self.body) = (0, 0);
        }
    }
}

impl Header {
    /// Takes a line of the header. The protocol has two fields. What is neither may be the end of another message.
    fn take(&mut self, line: &[u8]) -> Result<(), Fault> {
        let refused = |sentence| Err(Fault::invalid_request(sentence));
        let was_there = match field(line) {
            Some((name, value)) if name.eq_ignore_ascii_case(LENGTH) => match length(value) {
                Some(len) => self.len.replace(len).is_some(),
                None => return refused("a Content-Length is none, or too long"),
            },
            Some((name, value)) if name.eq_ignore_ascii_case(TYPE) && !value.contains(':') => {
                self.is_other_text.replace(is_other_text(value)).is_some()
            }
            _ => return refused("a header has a line that is no field of the protocol"),
        };
        match was_there {
            true => refused("a header has a field twice"),
            false => Ok(()),
        }
    }
}

/// The name and the value of a field.
fn field(line: &[u8]) -> Option<(&str, &str)> {
    let (name, value) = std::str::from_utf8(line).ok()?.split_once(':')?;
    Some((name, value.trim()))
}

/// Whether some bytes are the other field of a header, which may stand before the length, or its beginning.
fn is_type(bytes: &[u8]) -> bool {
    let name = field(bytes).map(|(name, _)| name);
    bytes.len() <= LONGEST_TYPE && !bytes.contains(&b'\n') && name.is_some_and(|name| name.eq_ignore_ascii_case(TYPE))
}

/// The length of a body, where it is one that may be.
fn length(value: &str) -> Option<usize> {
    let is_number = value.bytes().all(|byte| byte.is_ascii_digit());
    let len = value.parse().ok().filter(|_| is_number)?;
    (len <= MOST_BODY).then_some(len)
}

/// Whether a Content-Type has the name of an encoding that is not UTF-8. The protocol has `utf8` too.
fn is_other_text(value: &str) -> bool {
    let lower = value.to_ascii_lowercase();
    let charset = lower.split(';').find_map(|part| part.trim().strip_prefix("charset="));
    charset.is_some_and(|name| !matches!(name.trim_matches('"'), "utf-8" | "utf8"))
}

/// Where a line begins, or a part of one, that tells a length: the first at a place or after it.
fn frame_in(bytes: &[u8], from: usize) -> Option<usize> {
    let mut start = from;
    while let Some(len) = bytes[start..].iter().position(|byte| *byte == b'\n') {
        let end = start + len;
        if let Some(back) = length_before(&bytes[start.max(end.saturating_sub(LONGEST_LINE))..end]) {
            return Some(end - back);
        }
        start = end + 1;
    }
    None
}

/// How many of the last of some bytes may begin the field for a length, if the next bytes go on so.
fn length_begun(bytes: &[u8]) -> usize {
    let begins = |len: &usize| {
        let last = &bytes[bytes.len() - len..];
        let (name, value) = last.split_at(LENGTH.len().min(*len));
        let is_value = |byte: &u8| byte.is_ascii_digit() || b": \r".contains(byte);
        LENGTH.as_bytes()[..name.len()].eq_ignore_ascii_case(name) && value.iter().all(is_value)
    };
    (1..=bytes.len().min(LONGEST_LINE)).rev().find(begins).unwrap_or(0)
}

/// How many bytes before the end of a line its field for the length begins, where it ends in one.
fn length_before(line: &[u8]) -> Option<usize> {
    let at = line
        .windows(LENGTH.len())
        .rposition(|name| name.eq_ignore_ascii_case(LENGTH.as_bytes()))?;
    let (_, value) = field(line[at..].trim_ascii_end())?;
    length(value).map(|_| line.len() - at)
}

/// Writes a frame.
pub fn write(output: &mut impl Write, body: &[u8]) -> io::Result<()> {
    write!(output, "{LENGTH}: {}\r\n\r\n", body.len())?;
    output.write_all(body)
}
