//! One open document: its text as a rope, or that the server does not know it.
use crate::blanks::{blanks_in, Warnings};
use crate::faults::Fault;
use crate::protocol::{self, Change, Changed, Fold, Object, Opened, Place, Span, Units};
use crate::system;
use serde::{Serialize, Serializer};
use serde_json::{json, Value};
use std::mem;
use str_rope::{Error, LineType, Position, Rope, Scheme};

/// The greatest number of the protocol.
const GREATEST: u32 = i32::MAX as u32;

/// The most edits, and the most folding ranges, that one answer has.
pub const MOST_EDITS: usize = 10_000;
const MOST_FOLDS: usize = 5_000;

/// A document that a client has open.
#[derive(Default)]
pub struct Document {
    /// The last version that the client told, if it told one.
    pub version: Option<i64>,
    /// None, where the document is out of step: no answer is given from a text that may be another than the client's.
    text: Option<Text>,
    /// Whether the client knows that it is out of step.
    is_reported: bool,
    /// The warnings that the client has.
    warnings: Vec<Span>,
    /// Whether the client knows that a CR stands alone.
    has_return: bool,
}

impl Document {
    /// Takes the document that a client opens.
    pub fn open(&mut self, units: Units, opened: &Opened<'_>) -> Result<(), Fault> {
        let version = protocol::version(opened.text_document.version)?;
        self.put(Text::of(units, &opened.text_document.text)?, version);
        Ok(())
    }

    /// Applies the changes of a `textDocument/didChange`: all of them, or the document is out of step.
    pub fn change(&mut self, units: Units, changed: &Changed<'_>) -> Result<(), Fault> {
        let text = self.text.take();
        let version = protocol::version(changed.text_document.version);
        let changes = &changed.content_changes;
        let whole = changes.iter().rposition(|Object(change)| change.range.is_none());
        let (mut text, rest, version) = match whole {
            Some(at) => (
                Text::of(units, &changes[at].0.text)?,
                &changes[at + 1..],
                version.unwrap_or_default(),
            ),
            None => (
                text.ok_or_else(Fault::out_of_step)?,
                &changes[..],
                self.next_version(version?)?,
            ),
        };
        for Object(change) in rest {
            text.change(change)?;
        }
        self.put(text, version);
        Ok(())
    }

    /// Takes the text that a client saved, where it is the whole one. Whether the server had another one, without knowing it.
    ///
    /// Emacs saves the part that a buffer is narrowed to. So the text is taken only where the file has it, or where it has but
    /// one break more at its end than the server's. A part of the server's text says nothing.
    pub fn save(&mut self, units: Units, uri: &str, saved: &str) -> Result<bool, Fault> {
        let had = self.text.as_ref();
        if had.is_some_and(|had| had.rope == *saved) {
            return Ok(false);
        }
        let is_in_step = had.is_some();
        if had.is_some_and(|had| had.lacks_a_break_of(saved)) || system::file_has(uri, saved) {
            self.put(Text::of(units, saved)?, None);
            return Ok(is_in_step);
        }
        match had {
            Some(had) if !had.rope.text_in(..)?.contains(saved) => Err(Fault::other_save()),
            _ => Ok(false),
        }
    }

    fn put(&mut self, text: Text, version: Option<i64>) {
        (self.text, self.version) = (Some(text), version);
        self.is_reported = false;
    }

    /// The version after a change: not older than the last one. The protocol has it increase after each change; but Neovim
    /// 0.7 sends changes that waited under the version of those before them.
    fn next_version(&self, version: Option<i64>) -> Result<Option<i64>, Fault> {
        match (version, self.version) {
            (Some(version), Some(last)) if version < last => Err(Fault::old_version(version, last)),
            _ => Ok(version.or(self.version)),
        }
    }

    /// The document is out of step from now on. Whether the client has to be told.
    pub fn lose(&mut self) -> bool {
        self.text = None;
        !mem::replace(&mut self.is_reported, true)
    }

    /// The text, or the error of each request about it.
    pub fn text(&self) -> Result<&Text, Fault> {
        self.text.as_ref().ok_or_else(Fault::out_of_step)
    }

    /// The warnings of the text, or the error of each request about it.
    pub fn warnings(&mut self) -> Result<&[Span], Fault> {
        self.text.as_mut().ok_or_else(Fault::out_of_step)?.warnings()
    }

    /// The warnings, where the client has others, or places them in another text.
    pub fn new_warnings(&mut self) -> Result<Option<&[Span]>, Fault> {
        let (warnings, is_sent) = match &mut self.text {
            Some(text) => {
                let is_sent = mem::replace(&mut text.warnings.is_sent, true);
                (text.warnings()?, is_sent)
            }
            None => (&[][..], true),
        };
        if self.warnings == warnings && (is_sent || warnings.is_empty()) {
            return Ok(None);
        }
        self.warnings = warnings.to_vec();
        Ok(Some(&self.warnings))
    }

    /// Whether the client has warnings of it.
    pub fn has_warnings(&self) -> bool {
        !self.warnings.is_empty()
    }

    /// Whether the text has come to have a CR that stands alone, which ends a line for the protocol.
    pub fn has_new_return(&mut self) -> bool {
        let has = self.text.as_ref().is_some_and(Text::has_lone_return);
        let had = mem::replace(&mut self.has_return, has);
        has && !had
    }
}

/// The text of a document, with its warnings.
pub struct Text {
    rope: Rope,
    units: Units,
    warnings: Warnings,
}

impl Text {
    fn of(units: Units, text: &str) -> Result<Text, Fault> {
        Ok(Text {
            rope: text.parse()?,
            units,
            warnings: Warnings::default(),
        })
    }

    /// Applies a change that has a range. It is refused where a position names no place: then the client has another text.
    fn change(&mut self, change: &Change<'_>) -> Result<(), Fault> {
        let range = change.range.ok_or_else(|| Fault::invalid("range"))?;
        if range.end < range.start {
            return Err(Error::NotOrdered.into());
        }
        let place = |place: Place| self.place(place.position()).ok_or(Error::NotBoundary);
        let (from, to) = (place(range.start)?, place(range.end)?);
        let line = |byte| self.rope.byte_to_line_idx(byte, self.units.lines);
        let lines = line(from)..line(to) + 1;
        let lines_before = self.rope.len_lines(self.units.lines);
        self.rope.replace(from..to, &change.text)?;
        self.warnings.update(&self.rope, self.units, lines, lines_before)
    }

    /// The byte that a position means, where it names a place. An offset past the end of a line is the line's end, by the
    /// protocol; but not where a CR stands alone, since there the client may count other lines. The beginning of the line
    /// after the last one, and the greatest position, are the text's end.
    fn place(&self, position: Position) -> Option<usize> {
        let Units { encoding, lines } = self.units;
        let len_lines = self.rope.len_lines(lines);
        let byte = self.rope.byte_of(lines, encoding, position);
        let is_end =
            position == Position::from_u32(GREATEST, GREATEST) || (position.line, position.character) == (len_lines, 0);
        let is_past_line =
            position.line < len_lines && byte == self.rope.line_end(lines, position.line) && !self.has_lone_return();
        let names_one = is_end || is_past_line || self.rope.position_of(lines, encoding, byte) == position;
        names_one.then_some(byte)
    }

    /// Whether a CR stands without an LF, where the protocol takes it for a line break, and some editors do not.
    fn has_lone_return(&self) -> bool {
        self.units.lines != LineType::Lf && self.rope.count(Scheme::Lf) < self.rope.count(Scheme::Crlf)
    }

    /// Whether another text is this one, and a line break.
    fn lacks_a_break_of(&self, other: &str) -> bool {
        let content = other.strip_suffix("\r\n").or_else(|| other.strip_suffix('\n'));
        content.is_some_and(|content| self.rope == *content)
    }

    fn warnings(&mut self) -> Result<&[Span], Fault> {
        self.warnings.first(&self.rope, self.units)
    }

    /// What a place is by each index, and the range of its char, as a `Hover`.
    pub fn hover(&self, place: Place) -> Result<Value, Fault> {
        let Units { encoding, lines } = self.units;
        let byte = self.rope.byte_of(lines, encoding, place.position());
        let index = |scheme| self.rope.from_byte_idx(scheme, byte);
        let (char, unit, line) = (
            index(Scheme::Chars),
            index(Scheme::Utf16),
            self.rope.byte_to_line_idx(byte, lines),
        );
        let value = format!("byte {byte}\nchar {char}\nUTF-16 code unit {unit}\nline {line}");
        let range = self
            .units
            .span(&self.rope, byte..self.rope.char_to_byte_idx(char + 1))?;
        Ok(json!({ "contents": { "kind": "plaintext", "value": value }, "range": range }))
    }

    /// The blanks at the end of all lines, or of those that a range touches: the first of them.
    pub fn blanks(&self, range: Option<Span>) -> Result<Vec<Span>, Fault> {
        let all = 0..self.rope.len_lines(self.units.lines);
        let lines = range.map_or(all.clone(), |range| range.lines());
        let lines = lines.start.min(all.end)..lines.end.min(all.end);
        blanks_in(&self.rope, self.units, lines, usize::MAX, MOST_EDITS)
    }

    /// The runs of two lines or more that are not blank.
    pub fn folds(&self) -> Result<Vec<Fold>, Fault> {
        let text = self.rope.text_in(..)?;
        let has_returns = self.units.lines != LineType::Lf;
        let lines = text.split('\n').flat_map(|line| {
            let line = line.strip_suffix('\r').unwrap_or(line);
            line.split(move |char| has_returns && char == '\r')
        });
        let mut next = 0;
        let folds = lines.chain([""]).enumerate().filter_map(|(line, content)| {
            let start_line = content
                .trim_ascii()
                .is_empty()
                .then(|| mem::replace(&mut next, line + 1))?;
            (start_line + 1 < line).then(|| Fold {
                start_line,
                end_line: line - 1,
            })
        });
        Ok(folds.take(MOST_FOLDS).collect())
    }
}

/// Written as a JSON string, chunk by chunk.
impl Serialize for Text {
    fn serialize<S: Serializer>(&self, serializer: S) -> Result<S::Ok, S::Error> {
        serializer.collect_str(&self.rope)
    }
}
