//! A client takes what an adapter wrote, from a file, and sends the requests that it answers, from another one.
//!
//! A request is sent once fewer than two are outstanding and the client accepts it; what it writes goes nowhere.

use crate::client::{Call, Client};
use crate::failed;
use crate::framing::{Fault, Frames};
use std::ffi::OsStr;
use std::io::Write;
use std::process::ExitCode;

const AT_ONCE: usize = 2;

/// Why nothing is told: a fault in one of the files, at the offset of a frame.
struct Refused {
    file: &'static str,
    fault: Fault,
    offset: usize,
}

struct Replay<'a> {
    client: Client,
    requests: Frames<'a>,
    /// The next one, which the client refused so far.
    next: Option<Call>,
    read: u64,
    sent: u64,
    /// What the client writes.
    out: Vec<u8>,
}

impl Replay<'_> {
    /// The next request of the file. What is none is passed over: the client answers the adapter itself.
    fn next_call(&mut self) -> Result<Option<Call>, Refused> {
        let refused = |fault, offset| Refused {
            file: "requests",
            fault,
            offset,
        };
        loop {
            let frame = self.requests.next();
            let frame = match frame.map_err(|fault| refused(fault, self.requests.offset))? {
                Some(frame) => frame,
                None => return Ok(None),
            };
            let message = serde_json::from_slice(frame.body);
            let message = message.map_err(|_| refused("NotJson", frame.offset))?;
            if let Some(call) = Call::of(message).map_err(|fault| refused(fault, frame.offset))? {
                self.read += 1;
                return Ok(Some(call));
            }
        }
    }

    /// Sends what can be sent now.
    fn send(&mut self) -> Result<(), Refused> {
        while self.client.outstanding() < AT_ONCE {
            let next = match self.next.take() {
                Some(call) => Some(call),
                None => self.next_call()?,
            };
            let call = match next {
                Some(call) => call,
                None => return Ok(()),
            };
            self.out.clear();
            if self.client.send(&call, &mut self.out).is_err() {
                self.next = Some(call);
                return Ok(());
            }
            self.sent += 1;
        }
        Ok(())
    }
}

/// Takes all answers, and tells how far the client came.
fn replay(requests: &[u8], answers: &[u8]) -> Result<String, Refused> {
    let mut replay = Replay {
        client: Client::new(),
        requests: Frames::new(requests),
        next: None,
        read: 0,
        sent: 0,
        out: Vec::new(),
    };
    let refused = |fault, offset| Refused {
        file: "answers",
        fault,
        offset,
    };
    let mut delivered = 0u64;
    replay.send()?;
    let mut frames = Frames::new(answers);
    while let Some(frame) = frames
        .next()
        .map_err(|fault| refused(fault, frames.offset))?
    {
        replay.out.clear();
        replay
            .client
            .take(frame.body, &mut replay.out)
            .map_err(|fault| refused(fault, frame.offset))?;
        delivered += 1;
        replay.send()?;
    }
    while replay.next_call()?.is_some() {}
    Ok(format!(
        "sent {} of {}, delivered {delivered}, outstanding {}, {:?}\n",
        replay.sent,
        replay.read,
        replay.client.outstanding(),
        replay.client.phase(),
    ))
}

pub fn client(requests: &OsStr, answers: &OsStr) -> ExitCode {
    let files = std::fs::read(requests).and_then(|asked| Ok((asked, std::fs::read(answers)?)));
    let (requests, answers) = match files {
        Ok(files) => files,
        Err(error) => return failed(error),
    };
    match replay(&requests, &answers) {
        Ok(told) => match std::io::stdout().lock().write_all(told.as_bytes()) {
            Ok(()) => ExitCode::SUCCESS,
            Err(error) => failed(error),
        },
        Err(Refused {
            file,
            fault,
            offset,
        }) => {
            eprintln!("baseline: the {file}: {fault} at {offset}");
            ExitCode::from(3)
        }
    }
}
