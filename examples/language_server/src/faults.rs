//! Why a message is refused.
use serde::Serialize;
use std::fmt;
use std::num::TryFromIntError;

/// Why a message is refused, as the error of a response: a code of JSON-RPC or of the protocol, and a sentence for people.
#[derive(Clone, Debug, Serialize)]
pub struct Fault {
    code: i32,
    message: String,
}

impl Fault {
    pub fn parse_error(sentence: impl Into<String>) -> Fault {
        Fault::new(-32700, sentence)
    }

    pub fn invalid_request(sentence: &str) -> Fault {
        Fault::new(-32600, sentence)
    }

    pub fn no_such_method(method: &str) -> Fault {
        Fault::new(-32601, format!("there is no method {method}"))
    }

    pub fn invalid(what: &str) -> Fault {
        Fault::new(
            -32602,
            format!("there is no {what}, or it is not what the protocol says"),
        )
    }

    pub fn not_initialized() -> Fault {
        Fault::new(-32002, "the server is not initialized")
    }

    pub fn internal(sentence: impl Into<String>) -> Fault {
        Fault::new(-32603, sentence)
    }

    pub fn no_memory() -> Fault {
        Fault::from(str_rope::Error::NoMemory)
    }

    /// A request about a document whose text the server does not know: the protocol's `RequestFailed`.
    pub fn out_of_step() -> Fault {
        Fault::new(-32803, "the document is out of step: save it, or open it again")
    }

    /// A save of a text that neither the file nor the server has.
    pub fn other_save() -> Fault {
        Fault::new(-32602, "a text was saved that is not the file's")
    }

    pub fn old_version(version: i64, last: i64) -> Fault {
        Fault::new(-32602, format!("version {version} comes after version {last}"))
    }

    fn new(code: i32, sentence: impl Into<String>) -> Fault {
        let message = sentence.into();
        Fault { code, message }
    }
}

impl fmt::Display for Fault {
    fn fmt(&self, f: &mut fmt::Formatter<'_>) -> fmt::Result {
        f.write_str(&self.message)
    }
}

impl From<str_rope::Error> for Fault {
    fn from(error: str_rope::Error) -> Fault {
        match error {
            str_rope::Error::NoMemory => Fault::internal(error.to_string()),
            _ => Fault::new(-32602, error.to_string()),
        }
    }
}

impl From<TryFromIntError> for Fault {
    fn from(_: TryFromIntError) -> Fault {
        Fault::internal("a position is past what the protocol can say")
    }
}
