//! The server: which message does what.
use crate::documents::{Document, Text, MOST_EDITS};
use crate::faults::Fault;
use crate::frames::Refused;
use crate::messages::{self, answer, notification, response, Answer, Kind, Raw};
use crate::protocol::{
    self, At, Changed, Diagnostics, In, Initialize, Opened, Report, Saved, Span, TextEdit, Units, Wanted, Whole,
};
use crate::system;
use serde_json::{json, Value};
use std::collections::{BTreeSet, HashMap};
use std::mem;
use std::process::ExitCode;
use str_rope::{Encoding, LineType};

pub struct Server {
    documents: HashMap<String, Document>,
    /// The documents of which the client may have other warnings than there are.
    changed: BTreeSet<String>,
    /// What ends a line, where the command line said it.
    lines: Option<LineType>,
    /// How the client counts, on which both agree when the server is initialized.
    units: Units,
    /// Whether the client asks for warnings.
    is_asked_for_warnings: bool,
    phase: Phase,
    /// Whether a document was closed, and its memory not given back.
    has_closed: bool,
    /// The bodies that are to be sent to the client.
    outbox: Vec<Vec<u8>>,
}

/// How far the server is in its life.
#[derive(PartialEq)]
enum Phase {
    Started,
    Initialized,
    ShutDown,
    Exited(bool),
}

/// The documents that a refused message may have changed.
enum Meant {
    One(String),
    Any,
}

impl Server {
    /// A server whose lines end as the command line says, if it does.
    pub fn new(lines: Option<LineType>) -> Server {
        Server {
            documents: HashMap::new(),
            changed: BTreeSet::new(),
            lines,
            units: Units {
                encoding: Encoding::default(),
                lines: LineType::Crlf,
            },
            is_asked_for_warnings: false,
            phase: Phase::Started,
            has_closed: false,
            outbox: Vec::new(),
        }
    }

    /// What is to be sent to the client since this was asked last.
    pub fn take_outgoing(&mut self) -> std::vec::Drain<'_, Vec<u8>> {
        self.outbox.drain(..)
    }

    /// How the program ends, where the client wants it to.
    pub fn exit_code(&self) -> Option<ExitCode> {
        match self.phase {
            Phase::Exited(true) => Some(ExitCode::SUCCESS),
            Phase::Exited(false) => Some(ExitCode::FAILURE),
            _ => None,
        }
    }

    /// Takes a body, unless it is no message.
    pub fn take(&mut self, body: &[u8]) -> Result<(), Fault> {
        let call = messages::read(body)?;
        let method = call.method.as_deref();
        let fault = match (call.kind, method) {
            (Kind::Request { id }, Some(method)) => {
                self.rest();
                let result = self.request(method, call.params);
                self.outbox.push(response(id, &result));
                result.err()
            }
            (Kind::Notification, Some(method)) => {
                let fault = self.handle_notification(method, call.params).err();
                if let Some(fault) = &fault {
                    self.tell("window/logMessage", 1, format!("{method}: {fault}"));
                }
                fault
            }
            (Kind::Invalid { id, fault }, _) => {
                self.outbox.push(response(id, &Err(fault.clone())));
                Some(fault)
            }
            _ => None,
        };
        if let Some((fault, meant)) = fault.zip(self.meant_by(method, call.params)) {
            self.lose(meant, &fault);
        }
        Ok(())
    }

    /// Takes what is no frame, or no message. It may have been a change of the document that it names, or of any.
    pub fn refuse(&mut self, refused: Refused<'_>) {
        let uri = refused.body.and_then(protocol::uri_in);
        if self.phase == Phase::Initialized {
            self.lose(uri.map_or(Meant::Any, Meant::One), &refused.fault);
        }
        if refused.is_first {
            self.outbox.push(response(None, &Err(refused.fault)));
        }
    }

    /// Does what waits until a request is served, or no message waits: sends warnings where they changed, tells of CRs that
    /// stand alone where they came, and gives memory back.
    pub fn rest(&mut self) {
        for uri in mem::take(&mut self.changed) {
            let Some(document) = self.documents.get_mut(&uri) else {
                continue;
            };
            let version = document.version;
            if !self.is_asked_for_warnings {
                match document.new_warnings() {
                    Ok(None) => {}
                    Ok(Some(warnings)) => self.outbox.push(diagnostics(&uri, version, warnings)),
                    Err(fault) => self
                        .outbox
                        .push(told("window/logMessage", 1, format!("{uri}: {fault}"))),
                }
            }
            if document.has_new_return() {
                let sentence = format!(
                    "{uri} has a CR without an LF: an editor that takes it for no line break means other lines"
                );
                self.outbox.push(told("window/logMessage", 2, sentence));
            }
        }
        if mem::take(&mut self.has_closed) {
            system::give_memory_back();
        }
    }

    /// Answers a request.
    fn request(&mut self, method: &str, params: Raw<'_>) -> Answer {
        match (&self.phase, method) {
            (Phase::Started, "initialize") => self.initialize(params),
            (Phase::Started, _) => Err(Fault::not_initialized()),
            (Phase::Initialized, "initialize") => Err(Fault::invalid_request("the server is initialized")),
            (Phase::Initialized, "shutdown") => {
                self.phase = Phase::ShutDown;
                answer(&())
            }
            (Phase::Initialized, "textDocument/hover") => {
                answer(&self.text(params)?.hover(protocol::read::<At>(params)?.position)?)
            }
            (Phase::Initialized, "textDocument/formatting") => answer(&self.edits(params, None)?),
            (Phase::Initialized, "textDocument/rangeFormatting") => answer(&self.edits_in_range(params)?),
            (Phase::Initialized, "textDocument/codeAction") => answer(&self.code_actions(params)?),
            (Phase::Initialized, "textDocument/diagnostic") => answer(&self.report(params)?),
            (Phase::Initialized, "textDocument/foldingRange") => answer(&self.text(params)?.folds()?),
            (Phase::Initialized, "pauskern/text") => {
                let text = self.text(params)?;
                answer(&Whole { text })
            }
            (Phase::Initialized, _) => Err(Fault::no_such_method(method)),
            _ => Err(Fault::invalid_request("the server is shut down")),
        }
    }

    /// Takes a notification, which has no response: where it is refused, the client's log is told. A request is answered
    /// before the next message is read, so there is nothing to do for `$/cancelRequest`.
    fn handle_notification(&mut self, method: &str, params: Raw<'_>) -> Result<(), Fault> {
        match (&self.phase, method) {
            (_, "exit") => {
                self.phase = Phase::Exited(self.phase == Phase::ShutDown);
                Ok(())
            }
            (Phase::Initialized, "textDocument/didOpen") => self.open(params),
            (Phase::Initialized, "textDocument/didChange") => self.change(params),
            (Phase::Initialized, "textDocument/didSave") => self.save(params),
            (Phase::Initialized, "textDocument/didClose") => self.close(params),
            _ => Ok(()),
        }
    }

    fn initialize(&mut self, params: Raw<'_>) -> Answer {
        let client: Initialize = protocol::read(params)?;
        self.units = Units {
            encoding: client.encoding(),
            lines: self.lines.unwrap_or(client.lines()),
        };
        self.is_asked_for_warnings = client.asks_for_warnings();
        self.phase = Phase::Initialized;
        if let Some(process) = client.process() {
            system::end_with(process);
        }
        let mut capabilities = json!({
            "positionEncoding": protocol::name_of(self.units.encoding),
            // Documents are opened and closed, and 2 is: changes come by ranges.
            "textDocumentSync": { "openClose": true, "change": 2, "save": { "includeText": true } },
            "hoverProvider": true,
            "codeActionProvider": { "codeActionKinds": ["quickfix"] },
            "documentFormattingProvider": true,
            "documentRangeFormattingProvider": true,
            "foldingRangeProvider": true,
        });
        if self.is_asked_for_warnings {
            capabilities["diagnosticProvider"] =
                json!({ "interFileDependencies": false, "workspaceDiagnostics": false });
        }
        answer(&json!({
            "capabilities": capabilities,
            "serverInfo": { "name": env!("CARGO_PKG_NAME"), "version": env!("CARGO_PKG_VERSION") },
        }))
    }

    fn open(&mut self, params: Raw<'_>) -> Result<(), Fault> {
        let uri = protocol::uri(params)?;
        let opened: Opened = protocol::read(params)?;
        let document = self.documents.entry(uri.to_string()).or_default();
        self.changed.insert(uri.to_string());
        if let Err(fault) = document.open(self.units, &opened) {
            self.lose(Meant::One(uri.into_owned()), &fault);
        }
        Ok(())
    }

    fn change(&mut self, params: Raw<'_>) -> Result<(), Fault> {
        let uri = protocol::uri(params)?;
        let document = open_document(self.documents.get_mut(&*uri))?;
        let changed: Changed = protocol::read(params)?;
        self.changed.insert(uri.to_string());
        if let Err(fault) = document.change(self.units, &changed) {
            self.lose(Meant::One(uri.into_owned()), &fault);
        }
        Ok(())
    }

    /// Takes the text that a client saved, where it is the whole one; so a document is open too that was saved under a new name.
    /// Where the server had another text, the client is told.
    fn save(&mut self, params: Raw<'_>) -> Result<(), Fault> {
        let uri = protocol::uri(params)?;
        let Some(text) = protocol::read::<Saved>(params)?.text else {
            return Ok(());
        };
        let is_open = self.documents.contains_key(&*uri);
        if !is_open && !system::file_has(&uri, &text) {
            return Err(Fault::invalid("open document"));
        }
        let document = self.documents.entry(uri.to_string()).or_default();
        self.changed.insert(uri.to_string());
        match document.save(self.units, &uri, &text) {
            Ok(false) => {}
            Ok(true) => {
                let sentence =
                    format!("{uri} was saved with another text than its changes made. The saved one is taken.");
                self.tell("window/showMessage", 2, sentence);
            }
            Err(fault) => self.lose(Meant::One(uri.into_owned()), &fault),
        }
        Ok(())
    }

    /// Forgets a document, and takes its warnings back.
    fn close(&mut self, params: Raw<'_>) -> Result<(), Fault> {
        let uri = protocol::uri(params)?;
        let document = open_document(self.documents.remove(&*uri))?;
        if document.has_warnings() {
            self.outbox.push(diagnostics(&uri, None, &[]));
        }
        self.has_closed = true;
        Ok(())
    }

    /// The edits that take the blanks out that the lines of a range end in. Where there may be more, the client is told.
    fn edits(&mut self, params: Raw<'_>, range: Option<Span>) -> Result<Vec<TextEdit>, Fault> {
        let blanks = self.text(params)?.blanks(range)?;
        if blanks.len() == MOST_EDITS {
            let sentence =
                format!("Only the first {MOST_EDITS} lines that end in blanks are changed at once. Format again.");
            self.tell("window/showMessage", 3, sentence);
        }
        let edit = |range| TextEdit { range, new_text: "" };
        Ok(blanks.into_iter().map(edit).collect())
    }

    fn edits_in_range(&mut self, params: Raw<'_>) -> Result<Vec<TextEdit>, Fault> {
        let range = protocol::read::<In>(params)?.range;
        self.edits(params, Some(range))
    }

    /// The one code action that there is takes the blanks out that the lines of a range end in.
    fn code_actions(&mut self, params: Raw<'_>) -> Result<Value, Fault> {
        let (uri, edits) = (protocol::uri(params)?, self.edits_in_range(params)?);
        if edits.is_empty() || !protocol::read::<Wanted>(params)?.wants("\"quickfix\"") {
            return Ok(json!([]));
        }
        let edit = json!({ "changes": { uri: edits } });
        Ok(json!([{ "title": "Take out the blanks at the end", "kind": "quickfix", "edit": edit }]))
    }

    fn report(&mut self, params: Raw<'_>) -> Result<Report, Fault> {
        let document = open_document(self.documents.get_mut(&*protocol::uri(params)?))?;
        let items = protocol::diagnostics(document.warnings()?);
        Ok(Report { kind: "full", items })
    }

    fn text(&self, params: Raw<'_>) -> Result<&Text, Fault> {
        open_document(self.documents.get(&*protocol::uri(params)?))?.text()
    }

    /// The documents that a refused message may have changed, if any.
    fn meant_by(&self, method: Option<&str>, params: Raw<'_>) -> Option<Meant> {
        let opens = method == Some("textDocument/didOpen");
        let may_change = matches!(method, None | Some("textDocument/didChange"));
        if self.phase != Phase::Initialized || !(opens || may_change) {
            return None;
        }
        match protocol::uri(params) {
            Err(_) => method.is_some().then_some(Meant::Any),
            Ok(uri) => (opens || self.documents.contains_key(&*uri)).then(|| Meant::One(uri.into_owned())),
        }
    }

    /// Documents are out of step from now on, and the client hears of each.
    fn lose(&mut self, meant: Meant, fault: &Fault) {
        let uris = match meant {
            Meant::One(uri) => vec![uri],
            Meant::Any => self.documents.keys().cloned().collect(),
        };
        for uri in uris {
            if self.documents.entry(uri.clone()).or_default().lose() {
                let sentence = format!("{uri} is out of step, since {fault}. Save it, or open it again.");
                self.tell("window/showMessage", 1, sentence);
            }
            self.changed.insert(uri);
        }
    }

    fn tell(&mut self, method: &str, kind: u8, sentence: String) {
        self.outbox.push(told(method, kind, sentence));
    }
}

fn open_document<T>(document: Option<T>) -> Result<T, Fault> {
    document.ok_or_else(|| Fault::invalid("open document"))
}

/// The body that sends warnings.
fn diagnostics(uri: &str, version: Option<i64>, blanks: &[Span]) -> Vec<u8> {
    let diagnostics = protocol::diagnostics(blanks);
    let params = Diagnostics {
        uri,
        version,
        diagnostics,
    };
    notification("textDocument/publishDiagnostics", params)
}

/// The body that tells people something.
fn told(method: &str, kind: u8, sentence: String) -> Vec<u8> {
    notification(method, json!({ "type": kind, "message": sentence }))
}
