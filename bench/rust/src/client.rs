//! The client's end of a session, by the rules of the profile: what may be sent when, which message of the adapter
//! changes what, and what it does wrong.

use crate::answers::Response;
use crate::call::as_count;
use crate::failure::Failure;
use crate::framing::{push_frame, Fault};
use crate::heading::{Heading, Kind, MAX_SEQ};
use crate::known::Known;
use crate::serve::MAX_BODY;
use serde::de::value::{Error, StrDeserializer};
use serde::{Deserialize, Serialize};
use serde_json::{Map, Value};
use std::collections::HashMap;

const MOST_REQUESTS: usize = 64;
const MOST_REFERENCES: usize = 65536;

#[derive(Clone, Copy, Debug, PartialEq, Eq)]
pub enum Phase {
    Fresh,
    Initializing,
    Configuring,
    Running,
    Stopped,
    Resuming,
    Exited,
    Ended,
}

#[derive(Clone, Copy, PartialEq, Eq, Serialize, Deserialize)]
#[serde(rename_all = "camelCase")]
pub enum Command {
    Initialize,
    Launch,
    Attach,
    ConfigurationDone,
    Disconnect,
    Threads,
    Terminate,
    Cancel,
    SetBreakpoints,
    SetFunctionBreakpoints,
    SetExceptionBreakpoints,
    Continue,
    Next,
    StepIn,
    StepOut,
    Pause,
    StepBack,
    ReverseContinue,
    StackTrace,
    Scopes,
    Variables,
    Evaluate,
    Source,
    LoadedSources,
    SetVariable,
    Restart,
    Modules,
    ExceptionInfo,
    BreakpointLocations,
    Completions,
}

impl Command {
    pub fn named(name: &str) -> Option<Self> {
        Command::deserialize(StrDeserializer::<Error>::new(name)).ok()
    }

    /// Whether it may be sent in this phase; some commands wait for the event `initialized`.
    fn fits(self, phase: Phase, ready: bool) -> bool {
        use Phase::*;
        match self {
            Command::Initialize => phase == Fresh,
            Command::Launch | Command::Attach => phase == Configuring,
            Command::ConfigurationDone
            | Command::SetBreakpoints
            | Command::SetFunctionBreakpoints
            | Command::SetExceptionBreakpoints => {
                ready && matches!(phase, Configuring | Running | Stopped | Resuming)
            }
            Command::Disconnect
            | Command::Threads
            | Command::Source
            | Command::LoadedSources
            | Command::Modules
            | Command::BreakpointLocations
            | Command::Cancel => {
                matches!(phase, Configuring | Running | Stopped | Resuming | Exited)
            }
            Command::Terminate | Command::Restart => {
                matches!(phase, Configuring | Running | Stopped)
            }
            Command::Pause => matches!(phase, Running | Stopped | Resuming),
            _ => phase == Stopped,
        }
    }

    /// Whether it may be sent in a stop and at no other time.
    fn is_of_stops(self) -> bool {
        self.fits(Phase::Stopped, true) && !self.fits(Phase::Running, true)
    }

    /// Whether the debuggee leaves the place where it stopped.
    fn resumes(self) -> bool {
        matches!(
            self,
            Command::Continue
                | Command::Next
                | Command::StepIn
                | Command::StepOut
                | Command::StepBack
                | Command::ReverseContinue
                | Command::Terminate
                | Command::Restart
        )
    }

    /// The flag of the capabilities that it needs.
    pub fn gate(self) -> Option<&'static str> {
        Some(match self {
            Command::ConfigurationDone => "supportsConfigurationDoneRequest",
            Command::Terminate => "supportsTerminateRequest",
            Command::Cancel => "supportsCancelRequest",
            Command::SetFunctionBreakpoints => "supportsFunctionBreakpoints",
            Command::StepBack | Command::ReverseContinue => "supportsStepBack",
            Command::LoadedSources => "supportsLoadedSourcesRequest",
            Command::SetVariable => "supportsSetVariable",
            Command::Restart => "supportsRestartRequest",
            Command::Modules => "supportsModulesRequest",
            Command::ExceptionInfo => "supportsExceptionInfoRequest",
            Command::BreakpointLocations => "supportsBreakpointLocationsRequest",
            Command::Completions => "supportsCompletionsRequest",
            _ => return None,
        })
    }
}

/// What a request names.
#[derive(Clone, Copy)]
enum Reference {
    Frame(u32),
    Holder(u32),
}

/// What is to be sent. Its arguments are sent as they are.
pub struct Call {
    command: Command,
    uses: Option<Reference>,
    arguments: Option<Value>,
}

impl Call {
    /// The call that a message is, if it is a request.
    pub fn of(mut message: Value) -> Result<Option<Self>, Fault> {
        let command = match Heading::of(&message)?.kind {
            Kind::Request { command } => Command::named(command).ok_or("an unknown command")?,
            _ => return Ok(None),
        };
        let arguments = message.get_mut("arguments").map(Value::take);
        let arguments = arguments.filter(|arguments| !arguments.is_null());
        let number = |key| match arguments.as_ref().and_then(|given| given.get(key)) {
            None | Some(Value::Null) => Ok(None),
            Some(value) => as_count(value).map(Some).ok_or("a bad reference"),
        };
        let required = |key| number(key)?.ok_or("no reference");
        let uses = match command {
            Command::Scopes => Some(Reference::Frame(required("frameId")?)),
            Command::Evaluate | Command::Completions => number("frameId")?.map(Reference::Frame),
            Command::Variables | Command::SetVariable => {
                Some(Reference::Holder(required("variablesReference")?))
            }
            _ => None,
        };
        Ok(Some(Call {
            command,
            uses,
            arguments,
        }))
    }
}

/// A request as it is written. The fields stand in byte order of their keys.
#[derive(Serialize)]
struct Request<'a> {
    #[serde(skip_serializing_if = "Option::is_none")]
    arguments: Option<&'a Value>,
    command: Command,
    seq: u64,
    #[serde(rename = "type")]
    kind: &'static str,
}

/// Why a call is not sent. Nothing has changed then.
pub enum Refusal {
    Ended,
    WrongPhase,
    NotSupported,
    NotStopped,
    UnknownReference,
    TooLarge,
    Full,
    SeqExhausted,
}

pub struct Client {
    phase: Phase,
    ready: bool,
    capabilities: Map<String, Value>,
    /// The number of the request that made the phase Resuming.
    resumer: u64,
    known: Known,
    outstanding: HashMap<u64, Command>,
    seq: u64,
    body: Vec<u8>,
}

impl Client {
    pub fn new() -> Self {
        Client {
            phase: Phase::Fresh,
            ready: false,
            capabilities: Map::new(),
            resumer: 0,
            known: Known::default(),
            outstanding: HashMap::new(),
            seq: 0,
            body: Vec::new(),
        }
    }

    pub fn phase(&self) -> Phase {
        self.phase
    }

    /// How many requests are not answered yet.
    pub fn outstanding(&self) -> usize {
        self.outstanding.len()
    }

    /// Appends the request to `out` and gives its number.
    pub fn send(&mut self, call: &Call, out: &mut Vec<u8>) -> Result<u64, Refusal> {
        self.permit(call)?;
        let request = Request {
            arguments: call.arguments.as_ref(),
            command: call.command,
            seq: self.seq + 1,
            kind: "request",
        };
        self.write(&request);
        if self.body.len() > MAX_BODY {
            return Err(Refusal::TooLarge);
        }
        if self.outstanding.len() >= MOST_REQUESTS {
            return Err(Refusal::Full);
        }
        if self.seq >= MAX_SEQ {
            return Err(Refusal::SeqExhausted);
        }
        push_frame(out, &self.body);
        self.seq += 1;
        self.outstanding.insert(self.seq, call.command);
        match call.command {
            Command::Initialize => self.phase = Phase::Initializing,
            Command::Disconnect => self.forget_and(Phase::Ended),
            command if command.resumes() && self.phase == Phase::Stopped => {
                self.phase = Phase::Resuming;
                self.resumer = self.seq;
            }
            _ => {}
        }
        Ok(self.seq)
    }

    fn permit(&self, call: &Call) -> Result<(), Refusal> {
        let command = call.command;
        if self.phase == Phase::Ended {
            return Err(Refusal::Ended);
        }
        let waits = command.is_of_stops() && matches!(self.phase, Phase::Running | Phase::Resuming);
        if !command.fits(self.phase, self.ready) && !waits {
            return Err(Refusal::WrongPhase);
        }
        if command.gate().map_or(false, |flag| !self.offers(flag)) {
            return Err(Refusal::NotSupported);
        }
        if waits {
            return Err(Refusal::NotStopped);
        }
        let known = match &call.uses {
            None => true,
            Some(Reference::Frame(number)) => self.known.frames.contains(number),
            Some(Reference::Holder(number)) => self.known.holders.contains(number),
        };
        if known {
            Ok(())
        } else {
            Err(Refusal::UnknownReference)
        }
    }

    fn offers(&self, flag: &str) -> bool {
        matches!(self.capabilities.get(flag), Some(Value::Bool(true)))
    }

    /// Takes a body of the adapter's and gives the message that it is. What answers it is appended to `out`.
    pub fn take(&mut self, body: &[u8], out: &mut Vec<u8>) -> Result<Value, Fault> {
        let message = serde_json::from_slice(body).map_err(|_| "NotJson")?;
        let heading = Heading::of(&message)?;
        match heading.kind {
            Kind::Request { command } => self.decline(heading.seq, command, out)?,
            Kind::Response {
                command,
                request_seq,
                success,
            } => self.take_response(command, request_seq, success, message.get("body"))?,
            Kind::Event { event } => self.take_event(event, message.get("body")),
            Kind::Other(_) => {}
        }
        Ok(message)
    }

    fn decline(&mut self, request_seq: u64, command: &str, out: &mut Vec<u8>) -> Result<(), Fault> {
        if self.seq >= MAX_SEQ {
            return Err("no number is left");
        }
        self.seq += 1;
        let response = Response {
            body: Some(Failure::Unsupported.body()),
            command,
            message: Some(Failure::Unsupported.name()),
            request_seq,
            seq: self.seq,
            success: false,
            kind: "response",
        };
        self.write(&response);
        push_frame(out, &self.body);
        Ok(())
    }

    fn take_response(
        &mut self,
        command: &str,
        request_seq: u64,
        success: bool,
        body: Option<&Value>,
    ) -> Result<(), Fault> {
        let sent = *self
            .outstanding
            .get(&request_seq)
            .ok_or("a response to nothing")?;
        if Command::named(command) != Some(sent) {
            return Err("a response to another command");
        }
        if success && matches!(self.phase, Phase::Stopped | Phase::Resuming) {
            if let Some(body) = body {
                self.known.learn(sent, body);
                if self.known.len() > MOST_REFERENCES {
                    return Err("too many references");
                }
            }
        }
        self.outstanding.remove(&request_seq);
        if self.phase == Phase::Resuming && request_seq == self.resumer {
            if success {
                self.forget_and(Phase::Running);
            } else {
                self.phase = Phase::Stopped;
            }
            return Ok(());
        }
        match (sent, self.phase) {
            (Command::Initialize, Phase::Initializing) if success => {
                self.phase = Phase::Configuring;
                let offered = body.and_then(Value::as_object);
                self.capabilities = offered.cloned().unwrap_or_default();
            }
            (Command::Initialize, Phase::Initializing) => self.phase = Phase::Fresh,
            (Command::Launch | Command::Attach, Phase::Configuring) if success => {
                self.phase = Phase::Running;
            }
            _ => {}
        }
        Ok(())
    }

    fn take_event(&mut self, event: &str, body: Option<&Value>) {
        use Phase::*;
        match (event, self.phase) {
            ("initialized", _) => self.ready = true,
            ("capabilities", _) => {
                let told = body.and_then(|body| body.get("capabilities"));
                if let Some(told) = told.and_then(Value::as_object) {
                    let told = told.iter().map(|(flag, on)| (flag.clone(), on.clone()));
                    self.capabilities.extend(told);
                }
            }
            ("stopped", Configuring | Running) => self.phase = Stopped,
            ("stopped", Resuming) => self.forget_and(Stopped),
            ("continued", Stopped | Resuming) => self.forget_and(Running),
            ("exited" | "terminated", Configuring | Running | Stopped | Resuming) => {
                self.forget_and(Exited);
            }
            _ => {}
        }
    }

    /// Changes the phase; all references end.
    fn forget_and(&mut self, phase: Phase) {
        self.phase = phase;
        self.known.clear();
    }

    fn write(&mut self, message: &impl Serialize) {
        self.body.clear();
        // These types are written to a vector without fail.
        let _ = serde_json::to_writer(&mut self.body, message);
    }
}
