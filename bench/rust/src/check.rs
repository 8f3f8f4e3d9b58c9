//! Whether a transcript keeps seven rules: one pass over its lines, with a table for what each rule asks of those before.
//!
//! A line is `> ` and a message of the client, or `< ` and one of the adapter. The finding is the first line that breaks
//! a rule, and the least rule that it breaks; a line that is none, or no message, anywhere, is told in its place.

use crate::client::Command;
use crate::failed;
use crate::framing::Fault;
use crate::heading::{Heading, Kind};
use crate::known::Known;
use serde_json::{Map, Value};
use std::collections::{HashMap, HashSet};
use std::ffi::OsStr;
use std::fmt;
use std::io::Write;
use std::process::ExitCode;

#[derive(Clone, Copy, PartialEq, Eq)]
enum Side {
    Client,
    Adapter,
}

impl Side {
    fn opposite(self) -> Self {
        match self {
            Side::Client => Side::Adapter,
            Side::Adapter => Side::Client,
        }
    }
}

enum Verdict {
    Legal,
    Finding { line: usize, rule: usize },
}

impl fmt::Display for Verdict {
    fn fmt(&self, f: &mut fmt::Formatter) -> fmt::Result {
        match self {
            Verdict::Legal => write!(f, "legal"),
            Verdict::Finding { line, rule } => write!(f, "line {line} rule {rule}"),
        }
    }
}

struct Refused {
    fault: Fault,
    line: usize,
}

/// What is kept of one side.
#[derive(Default)]
struct End {
    messages: u64,
    /// The commands of its requests that wait, by their numbers.
    waiting: HashMap<u64, String>,
}

/// How far the client's first request is.
enum Opening {
    Fresh,
    Asked { seq: u64 },
    Answered,
}

/// What the lines so far say, none of which breaks a rule.
struct Past {
    any_seq: bool,
    ends: [End; 2],
    opening: Opening,
    /// The capabilities, once `initialize` has succeeded.
    offered: Option<Map<String, Value>>,
    known: Known,
    is_over: bool,
}

impl Past {
    fn new(any_seq: bool) -> Self {
        Past {
            any_seq,
            ends: Default::default(),
            opening: Opening::Fresh,
            offered: None,
            known: Known::default(),
            is_over: false,
        }
    }

    fn end(&mut self, side: Side) -> &mut End {
        &mut self.ends[side as usize]
    }

    /// The least rule that a message breaks, counted from 1.
    fn broken(&self, side: Side, heading: &Heading, message: &Value) -> Option<usize> {
        let asked = match heading.kind {
            Kind::Request { command } if side == Side::Client => Some(command),
            _ => None,
        };
        let broken = [
            !self.any_seq && heading.seq != self.ends[side as usize].messages + 1,
            self.is_out_of_place(side, heading),
            asked.map_or(false, |command| self.comes_too_early(command)),
            side == Side::Adapter && self.is_ready_too_early(heading),
            asked.map_or(false, |command| !self.offers(command)),
            asked.map_or(false, |command| self.names_unknown(command, message)),
            self.is_over && (side == Side::Adapter || asked.is_some()),
        ];
        broken.iter().position(|&rule| rule).map(|place| place + 1)
    }

    /// Whether a request has the number of one that waits, or a response has no such request with its command.
    fn is_out_of_place(&self, side: Side, heading: &Heading) -> bool {
        let waiting = |side: Side| &self.ends[side as usize].waiting;
        match heading.kind {
            Kind::Request { .. } => waiting(side).contains_key(&heading.seq),
            Kind::Response {
                command,
                request_seq,
                ..
            } => waiting(side.opposite())
                .get(&request_seq)
                .map_or(true, |asked| asked != command),
            _ => false,
        }
    }

    fn comes_too_early(&self, command: &str) -> bool {
        match self.opening {
            Opening::Fresh => command != "initialize",
            Opening::Asked { .. } => true,
            Opening::Answered => false,
        }
    }

    fn is_ready_too_early(&self, heading: &Heading) -> bool {
        let is_ready = matches!(
            heading.kind,
            Kind::Event {
                event: "initialized"
            }
        );
        is_ready && self.offered.is_none()
    }

    fn offers(&self, command: &str) -> bool {
        match Command::named(command).and_then(Command::gate) {
            None => true,
            Some(flag) => match &self.offered {
                None => false,
                Some(offered) => offered.get(flag) == Some(&Value::Bool(true)),
            },
        }
    }

    /// Whether a request names a whole number that was not given, or not since the debuggee went on.
    fn names_unknown(&self, command: &str, message: &Value) -> bool {
        let (key, known) = match command {
            "scopes" | "evaluate" | "completions" => ("frameId", &self.known.frames),
            "variables" | "setVariable" => ("variablesReference", &self.known.holders),
            _ => return false,
        };
        let named = message
            .get("arguments")
            .and_then(|arguments| arguments.get(key));
        named.map_or(false, |number| is_unknown(known, number))
    }

    /// Takes note of a message that breaks no rule.
    fn note(&mut self, side: Side, heading: &Heading, message: &Value) {
        self.end(side).messages += 1;
        let body = message.get("body");
        match heading.kind {
            Kind::Request { command } => {
                let waiting = &mut self.end(side).waiting;
                waiting.insert(heading.seq, command.to_owned());
                if side == Side::Client && matches!(self.opening, Opening::Fresh) {
                    self.opening = Opening::Asked { seq: heading.seq };
                }
            }
            Kind::Response {
                command,
                request_seq,
                success,
            } => {
                self.end(side.opposite()).waiting.remove(&request_seq);
                if side == Side::Adapter {
                    self.note_answer(request_seq);
                }
                if side == Side::Adapter && success {
                    self.note_success(command, body);
                }
            }
            Kind::Event { event } if side == Side::Adapter => self.note_event(event, body),
            _ => {}
        }
    }

    fn note_answer(&mut self, request_seq: u64) {
        match self.opening {
            Opening::Asked { seq } if seq == request_seq => self.opening = Opening::Answered,
            _ => {}
        }
    }

    fn note_success(&mut self, command: &str, body: Option<&Value>) {
        match command {
            "initialize" => {
                let offered = body.and_then(Value::as_object);
                self.offered = Some(offered.cloned().unwrap_or_default());
            }
            "disconnect" => self.is_over = true,
            "continue" | "next" | "stepIn" | "stepOut" | "stepBack" | "reverseContinue" => {
                self.known.clear();
            }
            _ => {
                if let (Some(command), Some(body)) = (Command::named(command), body) {
                    self.known.learn(command, body);
                }
            }
        }
    }

    fn note_event(&mut self, event: &str, body: Option<&Value>) {
        match event {
            "continued" | "exited" | "terminated" => self.known.clear(),
            "capabilities" => {
                let told = body
                    .and_then(|body| body.get("capabilities"))
                    .and_then(Value::as_object);
                if let (Some(offered), Some(told)) = (&mut self.offered, told) {
                    offered.extend(told.iter().map(|(flag, on)| (flag.clone(), on.clone())));
                }
            }
            _ => {}
        }
    }
}

/// Whether it is a whole number that is none of these.
fn is_unknown(known: &HashSet<u32>, number: &Value) -> bool {
    match number.as_u64() {
        Some(number) => u32::try_from(number).map_or(true, |number| !known.contains(&number)),
        None => number.is_i64(),
    }
}

/// A line without its end: a line feed, or a carriage return and a line feed.
fn text_of(line: &[u8]) -> &[u8] {
    match line {
        [text @ .., b'\r', b'\n'] | [text @ .., b'\n'] | text => text,
    }
}

fn split_side(text: &[u8]) -> Result<(Side, &[u8]), Fault> {
    match text {
        [b'>', b' ', body @ ..] => Ok((Side::Client, body)),
        [b'<', b' ', body @ ..] => Ok((Side::Adapter, body)),
        _ => Err("BadLine"),
    }
}

fn check(transcript: &[u8], any_seq: bool) -> Result<Verdict, Refused> {
    let mut past = Past::new(any_seq);
    let mut verdict = Verdict::Legal;
    let lines = transcript.split_inclusive(|&byte| byte == b'\n');
    for (place, text) in lines.map(text_of).enumerate() {
        if text.is_empty() {
            continue;
        }
        let line = place + 1;
        let refused = |fault| Refused { fault, line };
        let (side, body) = split_side(text).map_err(refused)?;
        let message = serde_json::from_slice(body).map_err(|_| refused("NotJson"))?;
        let heading = Heading::of(&message).map_err(refused)?;
        if let Verdict::Legal = verdict {
            match past.broken(side, &heading, &message) {
                Some(rule) => verdict = Verdict::Finding { line, rule },
                None => past.note(side, &heading, &message),
            }
        }
    }
    Ok(verdict)
}

/// Tells what `dap check` tells.
pub fn run(path: &OsStr, any_seq: bool) -> ExitCode {
    let transcript = match std::fs::read(path) {
        Ok(transcript) => transcript,
        Err(error) => return failed(error),
    };
    match check(&transcript, any_seq) {
        Ok(verdict) => match writeln!(std::io::stdout(), "{verdict}") {
            Err(error) => failed(error),
            Ok(()) if matches!(verdict, Verdict::Legal) => ExitCode::SUCCESS,
            Ok(()) => ExitCode::from(3),
        },
        Err(Refused { fault, line }) => {
            eprintln!("dap: {fault} at line {line}");
            ExitCode::from(3)
        }
    }
}
