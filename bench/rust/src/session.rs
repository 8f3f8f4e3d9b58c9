//! What each message of a client comes to, and what is written for it.

use crate::answers::*;
use crate::call::{Call, Move, Options, SourceName, Window};
use crate::failure::Failure;
use crate::framing::{push_frame, Fault};
use crate::recorded::{Happened, Recorded, Source as RecordedSource};
use crate::references::References;
use crate::serve::{Then, MAX_BODY};
use serde::{Deserialize, Serialize};
use serde_json::{Map, Value};
use std::borrow::Cow;

const MAX_SEQ: u64 = (1 << 53) - 1;
const MAX_COMMAND: usize = 64;
const MAX_BREAKPOINTS: usize = 4096;

/// What a message is made of on its way in and out.
#[derive(Clone, Copy, PartialEq, Eq)]
pub enum Style {
    /// The types of this program, which read and write themselves.
    Types,
    /// A tree, `serde_json::Value`.
    Trees,
}

#[derive(Deserialize)]
struct Envelope<'a> {
    seq: u64,
    #[serde(rename = "type", borrow)]
    kind: Cow<'a, str>,
    #[serde(default, borrow)]
    command: Option<Cow<'a, str>>,
    event: Option<Value>,
    arguments: Option<Value>,
}

impl<'a> Envelope<'a> {
    fn read(style: Style, body: &'a [u8]) -> Result<Self, Fault> {
        match style {
            Style::Types => serde_json::from_slice(body).map_err(|_| "no message"),
            Style::Trees => Self::of_tree(serde_json::from_slice(body).map_err(|_| "NotJson")?),
        }
    }

    fn of_tree(mut tree: Map<String, Value>) -> Result<Self, Fault> {
        let text = |value| match value {
            Some(Value::String(text)) => Some(Cow::Owned(text)),
            _ => None,
        };
        Ok(Envelope {
            seq: tree.get("seq").and_then(Value::as_u64).ok_or("a bad seq")?,
            kind: text(tree.remove("type")).ok_or("a bad type")?,
            command: text(tree.remove("command")),
            event: tree.remove("event"),
            arguments: tree.remove("arguments").filter(|value| !value.is_null()),
        })
    }
}

struct Request<'a> {
    seq: u64,
    command: &'a str,
}

#[derive(Clone, Copy, PartialEq, Eq, PartialOrd)]
enum Phase {
    Fresh,
    Ready,
    Configured,
    Parked,
    Running,
    Stopped,
    Exited,
}

pub struct Session {
    phase: Phase,
    recorded: Recorded,
    references: References,
    next_breakpoint: u64,
    /// A launch that waits for `configurationDone`: its `seq` and command.
    parked: Option<(u64, String)>,
    options: Options,
    writer: Writer,
}

impl Session {
    pub fn new(recorded: Recorded, style: Style) -> Self {
        Session {
            phase: Phase::Fresh,
            recorded,
            references: References::default(),
            next_breakpoint: 1,
            parked: None,
            options: Options {
                first_line: 1,
                first_column: 1,
                paging: false,
            },
            writer: Writer {
                style,
                seq: 0,
                body: Vec::new(),
            },
        }
    }

    pub fn take(&mut self, body: &[u8], out: &mut Vec<u8>) -> Result<Then, Fault> {
        let message = Envelope::read(self.writer.style, body)?;
        if message.seq > MAX_SEQ {
            return Err("a bad seq");
        }
        match &*message.kind {
            "request" => {}
            "response" => return Err("a response to nothing"),
            "event" if !matches!(message.event, Some(Value::String(_))) => {
                return Err("a bad event")
            }
            _ => return Ok(Then::GoesOn),
        }
        let command = message
            .command
            .filter(|command| command.len() <= MAX_COMMAND);
        let command = command.ok_or("a bad command")?;
        let request = Request {
            seq: message.seq,
            command: &command,
        };
        Ok(self.handle(&request, message.arguments.as_ref(), out))
    }

    fn handle(&mut self, request: &Request, arguments: Option<&Value>, out: &mut Vec<u8>) -> Then {
        let told = self.references.count();
        let served = self.call(request.command, arguments).and_then(|call| {
            let last = matches!(call, Call::Disconnect);
            self.serve(request, call, out)?;
            Ok(last)
        });
        match served {
            Ok(true) => return Then::Ends,
            Ok(false) => {}
            Err(failure) => {
                // Nobody was told of what a refused answer named.
                self.references.take_back(told);
                self.writer.fail(request, &failure, out);
            }
        }
        self.poll(out);
        Then::GoesOn
    }

    /// The tests that hold of the name, the arguments and the phase, in their order.
    fn call<'a>(&self, command: &str, arguments: Option<&'a Value>) -> Result<Call<'a>, Failure> {
        match (self.phase, command) {
            (Phase::Fresh, "initialize" | "disconnect") => {}
            (Phase::Fresh, _) => return Err(Failure::NotInitialized),
            (_, "initialize") => return Err(Failure::AlreadyInitialized),
            _ => {}
        }
        let call = Call::read(command, arguments)?;
        let phase = self.phase;
        let fits = match call {
            Call::Initialize(_) | Call::Disconnect | Call::Cancel => true,
            Call::Launch => matches!(phase, Phase::Ready | Phase::Configured),
            Call::ConfigurationDone => matches!(phase, Phase::Ready | Phase::Parked),
            Call::Terminate | Call::Pause => matches!(phase, Phase::Running | Phase::Stopped),
            Call::SetBreakpoints { .. } | Call::SetExceptionBreakpoints => phase != Phase::Exited,
            Call::Threads | Call::Source { .. } | Call::LoadedSources => true,
            Call::StackTrace { .. }
            | Call::Scopes { .. }
            | Call::Variables { .. }
            | Call::Evaluate { .. }
            | Call::SetVariable { .. }
            | Call::Resume { .. } => match phase {
                Phase::Running => return Err(Failure::NotStopped),
                phase => phase == Phase::Stopped,
            },
        };
        if fits {
            Ok(call)
        } else {
            Err(Failure::WrongPhase)
        }
    }

    fn serve(&mut self, request: &Request, call: Call, out: &mut Vec<u8>) -> Result<(), Failure> {
        match call {
            Call::Initialize(options) => self.initialize(request, options, out),
            Call::Launch if self.phase == Phase::Ready => {
                self.phase = Phase::Parked;
                self.parked = Some((request.seq, request.command.to_owned()));
                Ok(())
            }
            Call::Launch => {
                self.start();
                self.writer.succeed(request, out)
            }
            Call::ConfigurationDone => self.configured(request, out),
            Call::Disconnect => {
                if let Some((seq, command)) = self.parked.take() {
                    self.writer.fail(
                        &Request {
                            seq,
                            command: &command,
                        },
                        &Failure::Cancelled,
                        out,
                    );
                }
                self.writer.succeed(request, out)
            }
            Call::Terminate => {
                self.end();
                self.writer.succeed(request, out)?;
                self.writer.event("terminated", None::<()>, out);
                Ok(())
            }
            Call::Cancel | Call::SetExceptionBreakpoints => self.writer.succeed(request, out),
            Call::SetBreakpoints { source, lines } => {
                self.set_breakpoints(request, source, &lines, out)
            }
            Call::Threads => self.threads(request, out),
            Call::StackTrace { thread, window } => self.stack_trace(request, thread, &window, out),
            Call::Scopes { frame } => self.scopes(request, frame, out),
            Call::Variables { reference, window } => {
                self.variables(request, reference, &window, out)
            }
            Call::Evaluate { expression, frame } => self.evaluate(request, expression, frame, out),
            Call::SetVariable {
                reference,
                name,
                value,
            } => self.set_variable(request, reference, name, value, out),
            Call::Source { reference } => self.source(request, reference, out),
            Call::LoadedSources => self.loaded_sources(request, out),
            Call::Pause => {
                if self.phase == Phase::Running {
                    self.recorded.pause();
                }
                self.writer.succeed(request, out)
            }
            Call::Resume { how, thread } => self.resume(request, how, thread, out),
        }
    }

    fn initialize(
        &mut self,
        request: &Request,
        options: Options,
        out: &mut Vec<u8>,
    ) -> Result<(), Failure> {
        self.options = options;
        self.phase = Phase::Ready;
        let capabilities = Capabilities {
            supports_cancel_request: true,
            supports_configuration_done_request: true,
            supports_loaded_sources_request: true,
            supports_set_variable: true,
            supports_step_back: true,
            supports_terminate_request: true,
        };
        self.writer.answer(request, capabilities, out)?;
        self.writer.event("initialized", None::<()>, out);
        Ok(())
    }

    fn configured(&mut self, request: &Request, out: &mut Vec<u8>) -> Result<(), Failure> {
        self.writer.succeed(request, out)?;
        match self.parked.take() {
            None => {
                self.phase = Phase::Configured;
                Ok(())
            }
            Some((seq, command)) => {
                self.start();
                self.writer.succeed(
                    &Request {
                        seq,
                        command: &command,
                    },
                    out,
                )
            }
        }
    }

    fn start(&mut self) {
        self.recorded.start();
        self.phase = Phase::Running;
    }

    fn end(&mut self) {
        self.recorded.end();
        self.references.clear();
        self.phase = Phase::Exited;
    }

    fn resume(
        &mut self,
        request: &Request,
        how: Move,
        thread: i64,
        out: &mut Vec<u8>,
    ) -> Result<(), Failure> {
        self.recorded
            .thread_of(thread)
            .ok_or(Failure::UnknownThread)?;
        self.recorded.resume(how);
        self.references.clear();
        self.phase = Phase::Running;
        match how {
            Move::Continue => self.writer.answer(
                request,
                Continued {
                    all_threads_continued: true,
                },
                out,
            ),
            _ => self.writer.succeed(request, out),
        }
    }

    /// Nothing changes before the answer has been measured.
    fn set_breakpoints(
        &mut self,
        request: &Request,
        source: SourceName,
        asked: &[u32],
        out: &mut Vec<u8>,
    ) -> Result<(), Failure> {
        if self.recorded.others(&source) + asked.len() > MAX_BREAKPOINTS {
            return Err(Failure::TooManyBreakpoints);
        }
        let raise = 1 - u64::from(self.options.first_line);
        let lines: Vec<_> = asked.iter().map(|&line| u64::from(line) + raise).collect();
        let there = 1..=self.recorded.lines_of(&source);
        let breakpoints = asked
            .iter()
            .zip(&lines)
            .zip(self.next_breakpoint..)
            .map(|((&line, raised), id)| Breakpoint {
                id,
                line,
                verified: there.contains(raised),
            })
            .collect();
        self.writer
            .answer(request, Breakpoints { breakpoints }, out)?;
        self.next_breakpoint += lines.len() as u64;
        self.recorded.set_lines(source, lines);
        Ok(())
    }

    fn threads(&mut self, request: &Request, out: &mut Vec<u8>) -> Result<(), Failure> {
        let threads = self.recorded.threads().iter();
        let threads = threads
            .map(|thread| Thread {
                id: thread.id,
                name: &thread.name,
            })
            .collect();
        self.writer.answer(request, Threads { threads }, out)
    }

    fn stack_trace(
        &mut self,
        request: &Request,
        thread: i64,
        window: &Window,
        out: &mut Vec<u8>,
    ) -> Result<(), Failure> {
        let thread = self
            .recorded
            .thread_of(thread)
            .ok_or(Failure::UnknownThread)?;
        let ids: Vec<_> = thread.frames.clone().collect();
        let mut stack_frames = Vec::new();
        for &id in window.of(&ids) {
            let frame = self.recorded.frame(id);
            stack_frames.push(StackFrame {
                column: self.options.first_column,
                id: self.references.of_frame(id)?,
                line: frame.line - 1 + self.options.first_line,
                name: &frame.name,
                source: told(frame.source, &self.recorded.sources()[frame.source]),
            });
        }
        self.writer.answer(
            request,
            StackTrace {
                stack_frames,
                total_frames: ids.len(),
            },
            out,
        )
    }

    fn scopes(&mut self, request: &Request, frame: u32, out: &mut Vec<u8>) -> Result<(), Failure> {
        let frame = self.references.frame(frame)?;
        let mut scopes = Vec::new();
        for scope in &self.recorded.frame(frame).scopes {
            let variables_reference = self.references.of_holder(scope.holder)?;
            scopes.push(Scope {
                expensive: false,
                name: &scope.name,
                variables_reference,
            });
        }
        self.writer.answer(request, Scopes { scopes }, out)
    }

    fn variables(
        &mut self,
        request: &Request,
        reference: u32,
        window: &Window,
        out: &mut Vec<u8>,
    ) -> Result<(), Failure> {
        let children = self.recorded.children(self.references.holder(reference)?);
        let children = if self.options.paging {
            window.of(children)
        } else {
            children
        };
        let mut variables = Vec::with_capacity(children.len());
        for child in children {
            let variables_reference = child
                .holder
                .map_or(Ok(0), |holder| self.references.of_holder(holder))?;
            variables.push(Variable {
                name: &child.name,
                value: &child.value,
                variables_reference,
            });
        }
        self.writer.answer(request, Variables { variables }, out)
    }

    fn evaluate(
        &mut self,
        request: &Request,
        expression: &str,
        frame: Option<u32>,
        out: &mut Vec<u8>,
    ) -> Result<(), Failure> {
        let frame = self.references.frame(frame.ok_or(Failure::Debuggee)?)?;
        let found = self
            .recorded
            .evaluate(frame, expression)
            .ok_or(Failure::Debuggee)?;
        let variables_reference = found
            .holder
            .map_or(Ok(0), |holder| self.references.of_holder(holder))?;
        self.writer.answer(
            request,
            Evaluated {
                result: &found.value,
                variables_reference,
            },
            out,
        )
    }

    /// Nothing changes before the answer has been measured.
    fn set_variable(
        &mut self,
        request: &Request,
        reference: u32,
        name: &str,
        value: &str,
        out: &mut Vec<u8>,
    ) -> Result<(), Failure> {
        let holder = self.references.holder(reference)?;
        let place = self.recorded.place_of(holder, name);
        let place = place.ok_or(Failure::Debuggee)?;
        self.writer.answer(request, Assigned { value }, out)?;
        self.recorded.assign(holder, place, value);
        Ok(())
    }

    fn source(
        &mut self,
        request: &Request,
        reference: u32,
        out: &mut Vec<u8>,
    ) -> Result<(), Failure> {
        let place = (reference as usize).checked_sub(1);
        let source = place
            .and_then(|place| self.recorded.sources().get(place))
            .ok_or(Failure::UnknownSource)?;
        self.writer.answer(
            request,
            Content {
                content: &source.text,
            },
            out,
        )
    }

    fn loaded_sources(&mut self, request: &Request, out: &mut Vec<u8>) -> Result<(), Failure> {
        let sources = self.recorded.sources().iter().enumerate();
        let sources = sources.map(|(place, source)| told(place, source)).collect();
        self.writer.answer(request, LoadedSources { sources }, out)
    }

    /// Tells what happens until the debuggee stops, is held or is gone.
    fn poll(&mut self, out: &mut Vec<u8>) {
        while self.phase == Phase::Running {
            match self.recorded.poll() {
                None => return,
                Some(Happened::Output(output)) => {
                    let output = Output {
                        category: "stdout",
                        output: &output,
                    };
                    self.writer.event("output", Some(output), out);
                }
                Some(Happened::Stopped { reason, thread }) => {
                    self.phase = Phase::Stopped;
                    let stopped = Stopped {
                        all_threads_stopped: true,
                        reason,
                        thread_id: thread,
                    };
                    self.writer.event("stopped", Some(stopped), out);
                }
                Some(Happened::Exited { code }) => {
                    self.end();
                    self.writer
                        .event("exited", Some(Exited { exit_code: code }), out);
                    self.writer.event("terminated", None::<()>, out);
                }
            }
        }
    }
}

fn told(place: usize, source: &RecordedSource) -> Source<'_> {
    Source {
        name: &source.name,
        path: source.path.as_deref(),
        source_reference: place + 1,
    }
}

/// Numbers the messages and writes them.
struct Writer {
    style: Style,
    seq: u64,
    body: Vec<u8>,
}

impl Writer {
    fn succeed(&mut self, request: &Request, out: &mut Vec<u8>) -> Result<(), Failure> {
        self.respond(request, None::<()>, None, out)
    }

    fn answer(
        &mut self,
        request: &Request,
        body: impl Serialize,
        out: &mut Vec<u8>,
    ) -> Result<(), Failure> {
        self.respond(request, Some(body), None, out)
    }

    fn fail(&mut self, request: &Request, failure: &Failure, out: &mut Vec<u8>) {
        // It is short.
        let _ = self.respond(request, Some(failure.body()), Some(failure.name()), out);
    }

    fn respond(
        &mut self,
        request: &Request,
        body: Option<impl Serialize>,
        message: Option<&'static str>,
        out: &mut Vec<u8>,
    ) -> Result<(), Failure> {
        let response = Response {
            body,
            command: request.command,
            message,
            request_seq: request.seq,
            seq: self.seq + 1,
            success: message.is_none(),
            kind: "response",
        };
        self.write(&response, out)
    }

    fn event(&mut self, event: &'static str, body: Option<impl Serialize>, out: &mut Vec<u8>) {
        let event = Event {
            body,
            event,
            seq: self.seq + 1,
            kind: "event",
        };
        // It is short.
        let _ = self.write(&event, out);
    }

    fn write(&mut self, message: &impl Serialize, out: &mut Vec<u8>) -> Result<(), Failure> {
        self.body.clear();
        // These types are written to a vector without fail, and so are their trees.
        let _ = match self.style {
            Style::Types => serde_json::to_writer(&mut self.body, message),
            Style::Trees => serde_json::to_value(message)
                .and_then(|tree| serde_json::to_writer(&mut self.body, &tree)),
        };
        if self.body.len() > MAX_BODY {
            return Err(Failure::TooLarge);
        }
        push_frame(out, &self.body);
        self.seq += 1;
        Ok(())
    }
}
