//! A checker of files, as a program to start from: it finds brackets without a partner and white space at the ends of lines,
//! and prints each as `FILE:LINE:COLUMN`, with the line and carets below it.
//!
//! `cargo run --example diagnostics [FILE...]`. It checks a text of its own if no file is given.
use std::error::Error;
use std::{env, fs, ops};
use str_index::{Encoding, LineType, NoMemory, OwnedIndex};

/// A line ends in LF, CR or CR LF, as in most editors.
const LINES: LineType = LineType::Crlf;

/// The program checks this text if no file is given.
const EXAMPLE: &str = "fn main() {\n\tlet é = [\"🐸\", (\"世界\"];  \r\n}}\n";

/// A file and its index, which stay in one value for as long as something is told of the file.
struct Source {
    name: String,
    index: OwnedIndex,
}

/// The bytes where something is wrong, and what.
struct Diagnostic {
    span: ops::Range<usize>,
    message: String,
}

impl Diagnostic {
    fn new(span: ops::Range<usize>, message: impl Into<String>) -> Diagnostic {
        Diagnostic {
            span,
            message: message.into(),
        }
    }
}

impl Source {
    fn new(name: impl Into<String>, text: String) -> Result<Source, NoMemory> {
        Ok(Source {
            name: name.into(),
            index: OwnedIndex::new(text)?,
        })
    }

    /// All that is wrong, in the order of the text.
    fn check(&self) -> Vec<Diagnostic> {
        let mut found = check_brackets(self.index.text());
        found.extend(self.check_ends());
        found.sort_by_key(|diagnostic| diagnostic.span.start);
        found
    }

    /// The white space at the ends of lines.
    fn check_ends(&self) -> Vec<Diagnostic> {
        let lines = 0..self.index.len_lines(LINES);
        let spans = lines.map(|line| {
            let content = self.index.line_content(LINES, line);
            let text = self.index.text()[content.clone()].trim_end();
            content.start + text.len()..content.end
        });
        let spans = spans.filter(|span| !span.is_empty());
        spans
            .map(|span| Diagnostic::new(span, "white space at the end of the line"))
            .collect()
    }

    /// A diagnostic as people read it: line and column from 1, and the column in chars.
    fn report(&self, diagnostic: &Diagnostic) -> String {
        let (index, span) = (&self.index, &diagnostic.span);
        let start = index.position_of(LINES, Encoding::Utf32, span.start);
        let content = index.line_content(LINES, start.line);
        // The carets stand below the first line of the span alone.
        let [from, to] = [span.start, span.end].map(|byte| byte.clamp(content.start, content.end));
        let [before, below] = [content.start..from, from..to].map(|part| columns(&index.text()[part]));
        let (line, column) = (start.line + 1, start.character + 1);
        let (name, message) = (&self.name, &diagnostic.message);
        let text = with_spaces(&index.text()[content]);
        let (margin, carets) = (" ".repeat(line.to_string().len()), "^".repeat(below.max(1)));
        format!(
            "{name}:{line}:{column}: {message}\n{line} | {text}\n{margin} | {:before$}{carets}",
            ""
        )
    }
}

/// A part of a line as it is printed: a tab takes four columns.
fn with_spaces(part: &str) -> String {
    part.replace('\t', "    ")
}

fn columns(part: &str) -> usize {
    with_spaces(part).chars().count()
}

/// The brackets without a partner.
fn check_brackets(text: &str) -> Vec<Diagnostic> {
    let (mut found, mut open) = (Vec::new(), Vec::new());
    for (byte, char) in text.char_indices() {
        match char {
            '(' => open.push((byte, ')')),
            '[' => open.push((byte, ']')),
            '{' => open.push((byte, '}')),
            ')' | ']' | '}' => match open.iter().rposition(|&(_, closing)| closing == char) {
                // Nothing closes the brackets that were opened after the partner.
                Some(partner) => found.extend(open.drain(partner..).skip(1).map(not_closed)),
                None => found.push(Diagnostic::new(byte..byte + 1, format!("`{char}` closes nothing"))),
            },
            _ => {}
        }
    }
    found.extend(open.into_iter().map(not_closed));
    found
}

fn not_closed((byte, closing): (usize, char)) -> Diagnostic {
    Diagnostic::new(byte..byte + 1, format!("no `{closing}` closes this bracket"))
}

fn main() -> Result<(), Box<dyn Error>> {
    let names: Vec<String> = env::args().skip(1).collect();
    let mut sources = Vec::new();
    for name in &names {
        sources.push(Source::new(name, fs::read_to_string(name)?)?);
    }
    if names.is_empty() {
        sources.push(Source::new("example", String::from(EXAMPLE))?);
    }
    for source in &sources {
        for diagnostic in source.check() {
            println!("{}", source.report(&diagnostic));
        }
    }
    Ok(())
}
