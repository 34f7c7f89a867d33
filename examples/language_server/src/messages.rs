//! Messages of JSON-RPC 2.0. Members of one that the server has no use for are looked at, and not kept.
use crate::faults::Fault;
use serde::{Deserialize, Deserializer, Serialize};
use serde_json::value::RawValue;
use std::borrow::Cow;
use std::str;

const VERSION: &str = "2.0";

/// JSON that was looked at, and not read; None, where it is not there.
pub type Raw<'a> = Option<&'a RawValue>;

/// A message, by what it asks for.
pub struct Call<'a> {
    pub kind: Kind<'a>,
    /// None, where it has none that is a string.
    pub method: Option<Cow<'a, str>>,
    pub params: Raw<'a>,
}

pub enum Kind<'a> {
    Request {
        id: Raw<'a>,
    },
    Notification,
    /// This server requests nothing, so it is of no use.
    Response,
    Invalid {
        id: Raw<'a>,
        fault: Fault,
    },
}

/// The members of a message.
#[derive(Default, Deserialize)]
struct Members<'a> {
    #[serde(borrow)]
    jsonrpc: Raw<'a>,
    #[serde(borrow, default, deserialize_with = "present")]
    id: Raw<'a>,
    #[serde(borrow)]
    method: Raw<'a>,
    #[serde(borrow)]
    params: Raw<'a>,
    #[serde(borrow, default, deserialize_with = "present")]
    result: Raw<'a>,
    #[serde(borrow)]
    error: Raw<'a>,
}

/// A member that is there, also where it is null.
fn present<'de, D: Deserializer<'de>>(value: D) -> Result<Raw<'de>, D::Error> {
    <&RawValue>::deserialize(value).map(Some)
}

/// The message of a body. Where memory is refused for a text in it, the program ends, so it is asked for first: a text with
/// escapes is there twice until it is read, and has room to grow.
pub fn read(body: &[u8]) -> Result<Call<'_>, Fault> {
    if Vec::<u8>::new().try_reserve_exact(3 * body.len()).is_err() {
        return Err(Fault::no_memory());
    }
    let refused = |error: serde_json::Error| match error.is_data() {
        true => Fault::invalid_request("a message has a member twice"),
        false => Fault::parse_error(format!("a body is no JSON: {error}")),
    };
    let text = str::from_utf8(body).map_err(|error| Fault::parse_error(format!("a body is not UTF-8: {error}")))?;
    if text.trim_start().starts_with('{') {
        return serde_json::from_str(text).map(call).map_err(refused);
    }
    let other: &RawValue = serde_json::from_str(text).map_err(refused)?;
    if other.get().starts_with('[') && other.get().contains('{') {
        return Err(Fault::invalid_request("the protocol has no batches"));
    }
    Ok(call(Members::default()))
}

/// What a message is by its members.
fn call(members: Members<'_>) -> Call<'_> {
    let Members { id, params, .. } = members;
    let method = members
        .method
        .and_then(|method| serde_json::from_str(method.get()).ok());
    let is_response = members.method.is_none() && (members.result.is_some() || members.error.is_some());
    let has_id = id.is_some_and(|id| begins_with(id, b"\"-0123456789n"));
    let wrong = match (&method, id) {
        _ if members.jsonrpc.map(RawValue::get) != Some("\"2.0\"") => Some("a message is not of JSON-RPC 2.0"),
        (_, Some(_)) if !has_id => Some("an id is neither a number nor a string"),
        (None, Some(_)) if is_response => None,
        (None, _) => Some("a message has no method"),
        _ if params.is_some_and(|params| !begins_with(params, b"{[")) => Some("params are no structure"),
        _ => None,
    };
    let kind = match (wrong, id) {
        (Some(sentence), _) => Kind::Invalid {
            id: id.filter(|_| has_id),
            fault: Fault::invalid_request(sentence),
        },
        (None, Some(_)) if is_response => Kind::Response,
        (None, Some(_)) => Kind::Request { id },
        (None, None) => Kind::Notification,
    };
    Call { kind, method, params }
}

fn begins_with(value: &RawValue, bytes: &[u8]) -> bool {
    bytes.contains(&value.get().as_bytes()[0])
}

/// What a request is answered with, as JSON.
pub type Answer = Result<Box<RawValue>, Fault>;

/// An answer that is no error.
pub fn answer(result: &impl Serialize) -> Answer {
    serde_json::value::to_raw_value(result).map_err(|error| Fault::internal(error.to_string()))
}

#[derive(Serialize)]
struct Response<'a> {
    jsonrpc: &'static str,
    id: Raw<'a>,
    #[serde(skip_serializing_if = "Option::is_none")]
    result: Raw<'a>,
    #[serde(skip_serializing_if = "Option::is_none")]
    error: Option<&'a Fault>,
}

#[derive(Serialize)]
struct Notification<'a, T> {
    jsonrpc: &'static str,
    method: &'a str,
    params: T,
}

/// The body of a response.
pub fn response(id: Raw<'_>, answer: &Answer) -> Vec<u8> {
    let (result, error) = (answer.as_deref().ok(), answer.as_ref().err());
    body(&Response {
        jsonrpc: VERSION,
        id,
        result,
        error,
    })
}

/// The body of a notification.
pub fn notification(method: &str, params: impl Serialize) -> Vec<u8> {
    body(&Notification {
        jsonrpc: VERSION,
        method,
        params,
    })
}

fn body(message: &impl Serialize) -> Vec<u8> {
    serde_json::to_vec(message).expect("it has strings, numbers and lists")
}
