//! What a message says of itself, lent from its tree: its kind with the keys that the kind requires. What is wrong has the
//! name that `dap` gives it.

use crate::framing::Fault;
use serde_json::Value;

pub const MAX_SEQ: u64 = (1 << 53) - 1;
const MAX_COMMAND: usize = 64;

pub struct Heading<'a> {
    pub seq: u64,
    pub kind: Kind<'a>,
}

pub enum Kind<'a> {
    Request {
        command: &'a str,
    },
    Response {
        command: &'a str,
        request_seq: u64,
        success: bool,
    },
    Event {
        event: &'a str,
    },
    /// A message of another type, which is told.
    Other(&'a str),
}

impl<'a> Heading<'a> {
    pub fn of(value: &'a Value) -> Result<Self, Fault> {
        let message = value.as_object().ok_or("NotObject")?;
        let text = |key: &str| message.get(key).and_then(Value::as_str);
        let whole = |key: &str| {
            message
                .get(key)
                .and_then(Value::as_u64)
                .filter(|&seq| seq <= MAX_SEQ)
        };
        let command = || {
            text("command")
                .filter(|command| command.len() <= MAX_COMMAND)
                .ok_or("BadCommand")
        };

        let seq = whole("seq").ok_or("BadSeq")?;
        let kind = match text("type").ok_or("BadType")? {
            "request" => Kind::Request {
                command: command()?,
            },
            "response" => {
                let command = command()?;
                let request_seq = whole("request_seq").ok_or("BadRequestSeq")?;
                let success = message
                    .get("success")
                    .and_then(Value::as_bool)
                    .ok_or("BadSuccess")?;
                if !matches!(
                    message.get("message"),
                    None | Some(Value::Null | Value::String(_))
                ) {
                    return Err("BadMessage");
                }
                Kind::Response {
                    command,
                    request_seq,
                    success,
                }
            }
            "event" => Kind::Event {
                event: text("event").ok_or("BadEvent")?,
            },
            other => Kind::Other(other),
        };
        Ok(Heading { seq, kind })
    }
}
