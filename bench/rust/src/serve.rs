//! Two ends over standard input and standard output: the server, and one that gives each body back.
//!
//! Input is read in pieces as they come. What answers the requests of one piece gathers in one buffer that is
//! written by one call, before the next piece is read. So what is held is one piece, at most one frame that is not
//! whole yet, and the answers to one piece.

use crate::framing::{head, push_frame, Fault};
use crate::recorded::Recorded;
use crate::session::{Session, Style};
use std::ffi::OsStr;
use std::fs::File;
use std::io::{Error, Read, Write};
use std::os::unix::io::AsFd;
use std::process::ExitCode;

const PIECE: usize = 65536;
pub const MAX_BODY: usize = 4194304;
const MAX_HEADER: usize = 8192;

/// What an end does after a body.
pub enum Then {
    GoesOn,
    Ends,
}

enum Stop {
    System(Error),
    Malformed(Fault, u64),
}

impl From<Error> for Stop {
    fn from(error: Error) -> Self {
        Stop::System(error)
    }
}

/// Hands each body of standard input to `take`, which appends what answers it.
fn attend(mut take: impl FnMut(&[u8], &mut Vec<u8>) -> Result<Then, Fault>) -> Result<(), Stop> {
    // The streams of the standard library have buffers of their own; these are the bare files.
    let mut reader = File::from(std::io::stdin().as_fd().try_clone_to_owned()?);
    let mut writer = File::from(std::io::stdout().as_fd().try_clone_to_owned()?);
    let mut piece = vec![0; PIECE];
    let mut input = Vec::new();
    let mut out = Vec::new();
    let mut offset = 0;
    loop {
        let count = reader.read(&mut piece)?;
        if count == 0 {
            return if input.is_empty() {
                Ok(())
            } else {
                Err(Stop::Malformed("the input ends within a frame", offset))
            };
        }
        input.extend_from_slice(&piece[..count]);
        let mut used = 0;
        let then = loop {
            match next(&input[used..]) {
                Ok(None) => break Ok(Then::GoesOn),
                Ok(Some((start, length))) => {
                    let body = &input[used + start..][..length];
                    match take(body, &mut out) {
                        Ok(Then::GoesOn) => used += start + length,
                        then => break then,
                    }
                }
                Err(fault) => break Err(fault),
            }
        };
        writer.write_all(&out)?;
        out.clear();
        input.drain(..used);
        offset += used as u64;
        match then {
            Ok(Then::GoesOn) => {}
            Ok(Then::Ends) => return Ok(()),
            Err(fault) => return Err(Stop::Malformed(fault, offset)),
        }
    }
}

/// Where the body of the first frame starts and how long it is, once it is whole.
fn next(rest: &[u8]) -> Result<Option<(usize, usize)>, Fault> {
    match head(rest)? {
        None if rest.len() >= MAX_HEADER => Err("the header block is too long"),
        None => Ok(None),
        Some((start, _)) if start > MAX_HEADER => Err("the header block is too long"),
        Some((_, length)) if length > MAX_BODY => Err("the body is too long"),
        Some((start, length)) => Ok(Some((start, length)).filter(|_| rest.len() - start >= length)),
    }
}

fn status(ended: Result<(), Stop>) -> ExitCode {
    match ended {
        Ok(()) => ExitCode::SUCCESS,
        Err(Stop::Malformed(fault, offset)) => {
            eprintln!("baseline: {fault} at {offset}");
            ExitCode::from(3)
        }
        Err(Stop::System(error)) => {
            eprintln!("baseline: {error}");
            ExitCode::from(5)
        }
    }
}

pub fn serve(recording: &OsStr, style: Style) -> ExitCode {
    let recorded = match Recorded::open(recording) {
        Ok(recorded) => recorded,
        Err(error) => {
            eprintln!("baseline: {error}");
            return ExitCode::from(3);
        }
    };
    let mut session = Session::new(recorded, style);
    status(attend(|body, out| session.take(body, out)))
}

pub fn echo() -> ExitCode {
    status(attend(|body, out| {
        push_frame(out, body);
        Ok(Then::GoesOn)
    }))
}
