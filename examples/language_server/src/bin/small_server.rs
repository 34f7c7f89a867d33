//! A small language server, to be read: each open document is a rope, and a hover shows what a place is.
//!
//! It ends with a message where a frame or a message is not the protocol's. The package's other server goes on.
use serde_json::{json, Value};
use std::collections::HashMap;
use std::error::Error;
use std::io::{self, BufRead, Read, Write};
use std::process::ExitCode;
use str_rope::{Encoding, LineType, Position, Range, Rope, Scheme};

type Result<T> = std::result::Result<T, Box<dyn Error>>;

/// Positions count UTF-16 code units, the protocol's default.
const ENCODING: Encoding = Encoding::Utf16;

/// A line ends in LF, CR or CR LF, by the protocol.
const LINES: LineType = LineType::Crlf;

/// The protocol's `RequestFailed` and `MethodNotFound`.
const FAILED: i32 = -32803;
const NO_METHOD: i32 = -32601;

/// The open documents by their URI. One that is `None` is out of step: its client has another text.
#[derive(Default)]
struct Server {
    documents: HashMap<String, Option<Rope>>,
    is_shut_down: bool,
}

fn main() -> ExitCode {
    match serve(&mut io::stdin().lock(), &mut io::stdout().lock()) {
        Ok(true) => ExitCode::SUCCESS,
        Ok(false) => ExitCode::FAILURE,
        Err(error) => {
            eprintln!("small_server: {error}");
            ExitCode::FAILURE
        }
    }
}

/// Serves a client until it says `exit`. Whether it had said `shutdown` before.
fn serve(input: &mut impl BufRead, output: &mut impl Write) -> Result<bool> {
    let mut server = Server::default();
    loop {
        let message = read(input)?;
        let params = &message["params"];
        match (message["method"].as_str(), message.get("id")) {
            (Some("exit"), _) => return Ok(server.is_shut_down),
            (Some(method), Some(id)) => {
                let response = match server.request(method, params) {
                    Ok(result) => json!({ "jsonrpc": "2.0", "id": id, "result": result }),
                    Err((code, message)) => {
                        json!({ "jsonrpc": "2.0", "id": id, "error": { "code": code, "message": message } })
                    }
                };
                write(output, &response)?;
            }
            (Some(method), None) => {
                if let Some(sentence) = server.notification(method, params)? {
                    let params = json!({ "type": 1, "message": sentence });
                    write(
                        output,
                        &json!({ "jsonrpc": "2.0", "method": "window/showMessage", "params": params }),
                    )?;
                }
            }
            (None, _) => return Err("a message has no method".into()),
        }
    }
}

impl Server {
    /// Answers a request, or refuses it with a code and a sentence.
    fn request(&mut self, method: &str, params: &Value) -> std::result::Result<Value, (i32, String)> {
        match method {
            "initialize" => Ok(json!({ "capabilities": {
                // Documents are opened and closed, and 2 is: changes come by ranges.
                "textDocumentSync": { "openClose": true, "change": 2, "save": { "includeText": true } },
                "hoverProvider": true,
            } })),
            "shutdown" => {
                self.is_shut_down = true;
                Ok(Value::Null)
            }
            "textDocument/hover" => self.hover(params).map_err(|error| (FAILED, error.to_string())),
            _ => Err((NO_METHOD, format!("there is no method {method}"))),
        }
    }

    /// Takes a notification. A sentence is for the client's user.
    fn notification(&mut self, method: &str, params: &Value) -> Result<Option<String>> {
        match method {
            "textDocument/didOpen" => {
                let rope = string(&params["textDocument"]["text"])?.parse()?;
                self.documents.insert(uri(params)?, Some(rope));
                Ok(None)
            }
            "textDocument/didChange" => self.change(params),
            "textDocument/didSave" => self.save(params),
            "textDocument/didClose" => {
                self.documents.remove(&uri(params)?);
                Ok(None)
            }
            _ => Ok(None),
        }
    }

    /// Makes the changes of a message, each in the text that the one before it left. Where one names no place, the document is
    /// out of step until it is opened again, or a whole text comes.
    fn change(&mut self, params: &Value) -> Result<Option<String>> {
        let uri = uri(params)?;
        let document = self.documents.get_mut(&uri).ok_or("a document is not open")?;
        for event in params["contentChanges"]
            .as_array()
            .ok_or("there are no contentChanges")?
        {
            let text = string(&event["text"])?;
            let made = match (event.get("range"), &mut *document) {
                (None, _) => {
                    *document = Some(text.parse()?);
                    continue;
                }
                (Some(_), None) => return Ok(None),
                (Some(place), Some(rope)) => rope.change_exact(ENCODING, range(place)?, text),
            };
            if let Err(error) = made {
                *document = None;
                return Ok(Some(format!("{uri} is out of step: {error}. Open it again.")));
            }
        }
        Ok(None)
    }

    /// Compares the text that a client saved. It does not take one: some editors save the part that they show.
    fn save(&mut self, params: &Value) -> Result<Option<String>> {
        let uri = uri(params)?;
        let has_another = match (self.documents.get(&uri), params["text"].as_str()) {
            (Some(Some(rope)), Some(text)) => *rope != *text,
            _ => false,
        };
        Ok(has_another.then(|| format!("{uri} was saved with another text than the server's.")))
    }

    /// Tells what a place is by each index.
    fn hover(&self, params: &Value) -> Result<Value> {
        let document = self.documents.get(&uri(params)?).ok_or("the document is not open")?;
        let rope = document.as_ref().ok_or("the document is out of step: open it again")?;
        let byte = rope.byte_of(LINES, ENCODING, position(&params["position"])?);
        let char = rope.from_byte_idx(Scheme::Chars, byte);
        let line = rope.byte_to_line_idx(byte, LINES);
        Ok(json!({ "contents": format!("byte {byte}, char {char}, line {line}") }))
    }
}

fn range(range: &Value) -> Result<Range> {
    let (start, end) = (position(&range["start"])?, position(&range["end"])?);
    Ok(Range { start, end })
}

fn position(position: &Value) -> Result<Position> {
    let number = |name: &str| -> Result<usize> {
        let number = position[name].as_u64().ok_or("a position has no numbers")?;
        Ok(usize::try_from(number)?)
    };
    let (line, character) = (number("line")?, number("character")?);
    Ok(Position { line, character })
}

fn uri(params: &Value) -> Result<String> {
    Ok(string(&params["textDocument"]["uri"])?.to_string())
}

fn string(value: &Value) -> Result<&str> {
    Ok(value.as_str().ok_or("there is no string where the protocol has one")?)
}

/// Reads a message: a header that tells the length of its body in bytes, an empty line, and the body.
fn read(input: &mut impl BufRead) -> Result<Value> {
    let mut len = None;
    loop {
        let mut line = String::new();
        if input.read_line(&mut line)? == 0 {
            return Err("the input ends without an exit".into());
        }
        match line.trim_end().split_once(':') {
            Some((name, value)) if name.eq_ignore_ascii_case("Content-Length") => len = Some(value.trim().parse()?),
            Some(_) => {}
            None if line.trim_end().is_empty() => break,
            None => return Err(format!("a header has the line {line:?}").into()),
        }
    }
    let mut body = Vec::new();
    input
        .take(len.ok_or("a header has no Content-Length")?)
        .read_to_end(&mut body)?;
    Ok(serde_json::from_slice(&body)?)
}

fn write(output: &mut impl Write, message: &Value) -> Result<()> {
    let body = message.to_string();
    write!(output, "Content-Length: {}\r\n\r\n{body}", body.len())?;
    Ok(output.flush()?)
}
