//! What the protocol has as JSON.
use crate::faults::Fault;
use crate::messages::Raw;
use serde::de::value::MapAccessDeserializer;
use serde::de::{MapAccess, Visitor};
use serde::{Deserialize, Deserializer, Serialize};
use std::borrow::Cow;
use std::marker::PhantomData;
use std::{fmt, ops};
use str_rope::{Encoding, LineType, Position, Rope};

/// The encodings that the server has, each with the protocol's name.
const ENCODINGS: [(&str, Encoding); 3] = [
    ("utf-8", Encoding::Utf8),
    ("utf-16", Encoding::Utf16),
    ("utf-32", Encoding::Utf32),
];

/// The clients that say who they are and end lines at LF alone, whatever the protocol says.
const LF_CLIENTS: [&str; 4] = ["Neovim", "Vim", "Emacs", "Eglot"];

/// How a client counts.
#[derive(Clone, Copy)]
pub struct Units {
    /// What an offset counts.
    pub encoding: Encoding,
    /// What ends a line.
    pub lines: LineType,
}

impl Units {
    fn place(self, rope: &Rope, byte: usize) -> Result<Place, Fault> {
        let (line, character) = rope.position_of(self.lines, self.encoding, byte).to_u32()?;
        Ok(Place { line, character })
    }

    /// What some bytes of a text are.
    pub fn span(self, rope: &Rope, bytes: ops::Range<usize>) -> Result<Span, Fault> {
        let (start, end) = (self.place(rope, bytes.start)?, self.place(rope, bytes.end)?);
        Ok(Span { start, end })
    }
}

/// A `Position`, in the protocol's numbers.
#[derive(Clone, Copy, Debug, PartialEq, PartialOrd, Deserialize, Serialize)]
pub struct Place {
    pub line: u32,
    pub character: u32,
}

impl Place {
    pub fn position(self) -> Position {
        Position::from_u32(self.line, self.character)
    }
}

/// A `Range`.
#[derive(Clone, Copy, Debug, PartialEq, Deserialize, Serialize)]
pub struct Span {
    #[serde(deserialize_with = "object")]
    pub start: Place,
    #[serde(deserialize_with = "object")]
    pub end: Place,
}

impl Span {
    /// The lines of which it has a part; where it is empty, its line.
    pub fn lines(self) -> ops::Range<usize> {
        let (start, end) = (self.start.position(), self.end.position());
        let has_last = end.character > 0 || start.line == end.line;
        start.line..end.line + usize::from(has_last)
    }

    /// The same, where what was a line came to be another one.
    pub fn move_to(mut self, line: usize, now: usize) -> Result<Span, Fault> {
        for place in [&mut self.start, &mut self.end] {
            place.line = u32::try_from(place.position().line - line + now)?;
        }
        Ok(self)
    }
}

/// What a client says of itself. Where it says something wrong, it said nothing.
#[derive(Deserialize)]
#[serde(rename_all = "camelCase")]
pub struct Initialize<'a> {
    #[serde(borrow)]
    process_id: Raw<'a>,
    #[serde(borrow)]
    client_info: Raw<'a>,
    #[serde(borrow)]
    capabilities: Raw<'a>,
}

#[derive(Deserialize)]
struct ClientInfo<'a> {
    #[serde(borrow)]
    name: Cow<'a, str>,
}

#[derive(Default, Deserialize)]
#[serde(rename_all = "camelCase")]
struct Capabilities<'a> {
    #[serde(borrow)]
    general: Option<General<'a>>,
    #[serde(borrow)]
    text_document: Option<OfDocuments<'a>>,
}

#[derive(Deserialize)]
#[serde(rename_all = "camelCase")]
struct General<'a> {
    #[serde(borrow)]
    position_encodings: Option<Vec<Raw<'a>>>,
}

#[derive(Deserialize)]
struct OfDocuments<'a> {
    #[serde(borrow)]
    diagnostic: Raw<'a>,
}

impl Initialize<'_> {
    /// The process that started the server.
    pub fn process(&self) -> Option<i64> {
        serde_json::from_str(self.process_id?.get()).ok()
    }

    /// The first encoding of the client's list that the server has, or the protocol's default.
    pub fn encoding(&self) -> Encoding {
        let list = self
            .capabilities()
            .general
            .and_then(|general| general.position_encodings);
        let known = |name: Raw| {
            let name = name?.get().trim_matches('"');
            ENCODINGS.iter().find(|row| row.0 == name)
        };
        list.into_iter()
            .flatten()
            .find_map(known)
            .map_or_else(Encoding::default, |row| row.1)
    }

    /// What ends a line for the client, where it says who it is.
    pub fn lines(&self) -> LineType {
        let info: Option<ClientInfo> = self.client_info.and_then(|info| serde_json::from_str(info.get()).ok());
        match info.is_some_and(|info| LF_CLIENTS.contains(&&*info.name)) {
            true => LineType::Lf,
            false => LineType::Crlf,
        }
    }

    /// Whether the client asks for warnings, so that none is sent without being asked for.
    pub fn asks_for_warnings(&self) -> bool {
        let of_documents = self.capabilities().text_document;
        of_documents.is_some_and(|of_documents| of_documents.diagnostic.is_some())
    }

    fn capabilities(&self) -> Capabilities<'_> {
        let capabilities = self.capabilities.and_then(|all| serde_json::from_str(all.get()).ok());
        capabilities.unwrap_or_default()
    }
}

/// A JSON object. By itself serde takes a list for a structure too.
pub struct Object<T>(pub T);

impl<'de, T: Deserialize<'de>> Deserialize<'de> for Object<T> {
    fn deserialize<D: Deserializer<'de>>(deserializer: D) -> Result<Object<T>, D::Error> {
        deserializer.deserialize_map(OfMap(PhantomData)).map(Object)
    }
}

struct OfMap<T>(PhantomData<T>);

impl<'de, T: Deserialize<'de>> Visitor<'de> for OfMap<T> {
    type Value = T;

    fn expecting(&self, f: &mut fmt::Formatter<'_>) -> fmt::Result {
        f.write_str("an object")
    }

    fn visit_map<A: MapAccess<'de>>(self, map: A) -> Result<T, A::Error> {
        T::deserialize(MapAccessDeserializer::new(map))
    }
}

fn object<'de, D: Deserializer<'de>, T: Deserialize<'de>>(deserializer: D) -> Result<T, D::Error> {
    Object::deserialize(deserializer).map(|object| object.0)
}

fn object_if_any<'de, D: Deserializer<'de>, T: Deserialize<'de>>(deserializer: D) -> Result<Option<T>, D::Error> {
    Option::<Object<T>>::deserialize(deserializer).map(|object| object.map(|object| object.0))
}

/// The parameters of each message about a document.
#[derive(Deserialize)]
#[serde(rename_all = "camelCase")]
struct About<'a> {
    #[serde(borrow, deserialize_with = "object")]
    text_document: Identifier<'a>,
}

#[derive(Deserialize)]
struct Identifier<'a> {
    #[serde(borrow)]
    uri: Cow<'a, str>,
}

#[derive(Deserialize)]
#[serde(rename_all = "camelCase")]
pub struct Opened<'a> {
    #[serde(borrow, deserialize_with = "object")]
    pub text_document: Item<'a>,
}

#[derive(Deserialize)]
pub struct Item<'a> {
    #[serde(borrow)]
    pub version: Raw<'a>,
    #[serde(borrow)]
    pub text: Cow<'a, str>,
}

#[derive(Deserialize)]
#[serde(rename_all = "camelCase")]
pub struct Changed<'a> {
    #[serde(borrow, deserialize_with = "object")]
    pub text_document: Versioned<'a>,
    #[serde(borrow)]
    pub content_changes: Vec<Object<Change<'a>>>,
}

#[derive(Deserialize)]
pub struct Versioned<'a> {
    #[serde(borrow)]
    pub version: Raw<'a>,
}

/// A change of a text.
#[derive(Deserialize)]
pub struct Change<'a> {
    /// None, where the text is the whole one.
    #[serde(default, deserialize_with = "object_if_any")]
    pub range: Option<Span>,
    #[serde(borrow)]
    pub text: Cow<'a, str>,
}

#[derive(Deserialize)]
pub struct Saved<'a> {
    #[serde(borrow)]
    pub text: Option<Cow<'a, str>>,
}

#[derive(Deserialize)]
pub struct At {
    #[serde(deserialize_with = "object")]
    pub position: Place,
}

#[derive(Deserialize)]
pub struct In {
    #[serde(deserialize_with = "object")]
    pub range: Span,
}

#[derive(Deserialize)]
pub struct Wanted<'a> {
    #[serde(borrow, deserialize_with = "object")]
    context: Context<'a>,
}

#[derive(Deserialize)]
struct Context<'a> {
    #[serde(borrow)]
    only: Option<Vec<Raw<'a>>>,
}

impl Wanted<'_> {
    /// Whether the client wants code actions of a kind, which has its quotes.
    pub fn wants(&self, kind: &str) -> bool {
        let only = self.context.only.as_ref();
        only.map_or(true, |only| only.iter().flatten().any(|one| one.get() == kind))
    }
}

/// The parameters of a message.
pub fn read<'a, T: Deserialize<'a>>(params: Raw<'a>) -> Result<T, Fault> {
    let params = params.ok_or_else(|| Fault::invalid("parameter that the method wants"))?;
    let object = serde_json::from_str::<Object<T>>(params.get());
    object.map_or_else(
        |_| Err(Fault::invalid("parameter that the method wants")),
        |object| Ok(object.0),
    )
}

/// The document that a message is about.
pub fn uri(params: Raw<'_>) -> Result<Cow<'_, str>, Fault> {
    Ok(read::<About>(params)?.text_document.uri)
}

/// The document that a refused message is about, where its bytes name that one alone.
pub fn uri_in(body: &[u8]) -> Option<String> {
    // A name may hide behind the escape of a letter, which no client writes.
    let has_escaped_letter = body
        .windows(5)
        .any(|bytes| bytes.starts_with(b"\\u00") && matches!(bytes[4], b'4'..=b'7'));
    let has_one_message = values(body, b"\"method\"").count() <= 1;
    let mut uris = values(body, b"\"uri\"").map(string);
    let uri = uris.next()??;
    let is_alone = uris.all(|other| other.as_ref() == Some(&uri));
    (is_alone && has_one_message && !has_escaped_letter).then_some(uri)
}

/// The bytes after the colon of each member called `name`, which has its quotes. JSON puts a backslash before a quote inside a
/// string, so no string has that name in it.
fn values<'a>(body: &'a [u8], name: &'a [u8]) -> impl Iterator<Item = &'a [u8]> {
    let is_name = move |at: &usize| body[*at..].starts_with(name);
    (0..body.len()).filter(is_name).filter_map(move |at| {
        let value = body[at + name.len()..].trim_ascii_start();
        value.strip_prefix(b":")
    })
}

/// The string at the beginning of some bytes.
fn string(bytes: &[u8]) -> Option<String> {
    serde_json::Deserializer::from_slice(bytes).into_iter().next()?.ok()
}

/// The version of a document, where it has one.
pub fn version(version: Raw<'_>) -> Result<Option<i64>, Fault> {
    let number = version.map(|number| serde_json::from_str(number.get()));
    number.transpose().map_err(|_| Fault::invalid("version"))
}

pub fn name_of(encoding: Encoding) -> &'static str {
    ENCODINGS
        .iter()
        .find(|row| row.1 == encoding)
        .map_or("utf-16", |row| row.0)
}

#[derive(Serialize)]
pub struct Diagnostics<'a> {
    pub uri: &'a str,
    #[serde(skip_serializing_if = "Option::is_none")]
    pub version: Option<i64>,
    pub diagnostics: Vec<Diagnostic>,
}

/// The warnings of a client that asked for them.
#[derive(Serialize)]
pub struct Report {
    pub kind: &'static str,
    pub items: Vec<Diagnostic>,
}

#[derive(Serialize)]
pub struct Diagnostic {
    range: Span,
    severity: u8,
    source: &'static str,
    message: &'static str,
}

/// The warnings of blanks at some places.
pub fn diagnostics(blanks: &[Span]) -> Vec<Diagnostic> {
    let diagnostic = |range: &Span| Diagnostic {
        range: *range,
        severity: 2,
        source: env!("CARGO_PKG_NAME"),
        message: "blanks at the end of a line",
    };
    blanks.iter().map(diagnostic).collect()
}

#[derive(Serialize)]
#[serde(rename_all = "camelCase")]
pub struct TextEdit {
    pub range: Span,
    pub new_text: &'static str,
}

/// What the server has of a document.
#[derive(Serialize)]
pub struct Whole<T> {
    pub text: T,
}

#[derive(Serialize)]
#[serde(rename_all = "camelCase")]
pub struct Fold {
    pub start_line: usize,
    pub end_line: usize,
}
