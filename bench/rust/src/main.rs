//! The Rust baseline: what a Rust programmer writes for the tasks of `dap` with `serde_json`.
//!
//!     baseline show FILE                  one line for each message
//!     baseline frames FILE                framing alone: the count of frames and the sum of their body lengths
//!     baseline serve RECORDING            answers the requests of standard input on standard output
//!     baseline trees RECORDING            the same, with each message a tree on its way in and out
//!     baseline echo                       gives each body of standard input back on standard output
//!     baseline client REQUESTS ANSWERS    a client sends the requests of one file and takes the answers of the other
//!     baseline check FILE [--any-seq]     whether a transcript keeps the seven rules
//!
//! A file is read whole. Bodies are slices of it and are parsed to `serde_json::Value`. The lines gather in one
//! buffer that is written once. What is malformed gives a message on standard error and status 3; the lines of
//! the messages before it are written all the same. `serve.rs` says how the servers read and write, `session.rs`
//! what is answered, `client.rs` what a client does, `check.rs` what is checked.

mod answers;
mod call;
mod check;
mod client;
mod failure;
mod framing;
mod heading;
mod known;
mod recorded;
mod references;
mod replay;
mod serve;
mod session;

use framing::{Fault, Frames};
use heading::{Heading, Kind};
use serde_json::Value;
use session::Style;
use std::io::Write;
use std::process::ExitCode;

/// How a task ends: well, or by a fault at the offset of a frame.
type Outcome = Result<(), (Fault, usize)>;

type Task = fn(&[u8], &mut Vec<u8>) -> Outcome;

fn frames(input: &[u8], out: &mut Vec<u8>) -> Outcome {
    let mut frames = Frames::new(input);
    let (mut count, mut bytes) = (0u64, 0u64);
    while let Some(frame) = frames.next().map_err(|fault| (fault, frames.offset))? {
        count += 1;
        bytes += frame.body.len() as u64;
    }
    let _ = writeln!(out, "{count} {bytes}");
    Ok(())
}

fn show(input: &[u8], out: &mut Vec<u8>) -> Outcome {
    let mut frames = Frames::new(input);
    while let Some(frame) = frames.next().map_err(|fault| (fault, frames.offset))? {
        let value = serde_json::from_slice(frame.body).map_err(|_| ("NotJson", frame.offset))?;
        show_message(frame.offset, &value, out).map_err(|fault| (fault, frame.offset))?;
    }
    Ok(())
}

fn show_message(offset: usize, value: &Value, out: &mut Vec<u8>) -> Result<(), Fault> {
    let Heading { seq, kind } = Heading::of(value)?;
    // Writing to a vector cannot fail.
    match kind {
        Kind::Request { command } => {
            let _ = write!(out, "{offset} {seq} request ");
            push_plain(out, command);
        }
        Kind::Response {
            command,
            request_seq,
            success,
        } => {
            let _ = write!(out, "{offset} {seq} response ");
            push_plain(out, command);
            let outcome = if success { "ok" } else { "failed" };
            let _ = write!(out, " {request_seq} {outcome}");
            if let (false, Some(Value::String(why))) = (success, value.get("message")) {
                out.push(b' ');
                push_plain(out, why);
            }
        }
        Kind::Event { event } => {
            let _ = write!(out, "{offset} {seq} event ");
            push_plain(out, event);
        }
        Kind::Other(kind) => {
            let _ = write!(out, "{offset} {seq} other ");
            push_plain(out, kind);
        }
    }
    out.push(b'\n');
    Ok(())
}

/// Pushes a text with `?` for each control character, so that a line stays a line.
fn push_plain(out: &mut Vec<u8>, text: &str) {
    out.extend(
        text.bytes()
            .map(|byte| if byte.is_ascii_control() { b'?' } else { byte }),
    );
}

/// What is told where the system fails.
fn failed(error: std::io::Error) -> ExitCode {
    eprintln!("baseline: {error}");
    ExitCode::from(5)
}

fn main() -> ExitCode {
    let words: Vec<_> = std::env::args_os().skip(1).collect();
    let (task, path): (Task, _) = match &words[..] {
        [mode, path] if mode == "show" => (show, path),
        [mode, path] if mode == "frames" => (frames, path),
        [mode, recording] if mode == "serve" => return serve::serve(recording, Style::Types),
        [mode, recording] if mode == "trees" => return serve::serve(recording, Style::Trees),
        [mode] if mode == "echo" => return serve::echo(),
        [mode, requests, answers] if mode == "client" => return replay::client(requests, answers),
        [mode, path] if mode == "check" => return check::run(path, false),
        [mode, path, any_seq] if mode == "check" && any_seq == "--any-seq" => {
            return check::run(path, true);
        }
        [mode] if mode == "--version" => {
            println!("baseline {}", env!("CARGO_PKG_VERSION"));
            return ExitCode::SUCCESS;
        }
        _ => {
            eprintln!(
                "usage: baseline show|frames FILE | baseline serve|trees RECORDING | baseline echo | \
                 baseline client REQUESTS ANSWERS | baseline check FILE [--any-seq]"
            );
            return ExitCode::from(2);
        }
    };
    let input = match std::fs::read(path) {
        Ok(input) => input,
        Err(error) => return failed(error),
    };
    let mut out = Vec::new();
    let outcome = task(&input, &mut out);
    if let Err(error) = std::io::stdout().lock().write_all(&out) {
        return failed(error);
    }
    if let Err((fault, offset)) = outcome {
        eprintln!("baseline: {fault} at {offset}");
        return ExitCode::from(3);
    }
    ExitCode::SUCCESS
}
