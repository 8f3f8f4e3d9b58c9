//! A request's command with its arguments, as the profile reads them: unknown keys are read over, `null` counts as
//! absent, and what is bad is named by the first bad key.

use crate::failure::Failure;
use serde_json::Value;

const MAX_SEQ: u64 = (1 << 53) - 1;
const MAX_COUNT: u64 = (1 << 31) - 1;

pub enum Call<'a> {
    Initialize(Options),
    Launch,
    ConfigurationDone,
    Disconnect,
    Terminate,
    Cancel,
    SetBreakpoints {
        source: SourceName,
        lines: Vec<u32>,
    },
    SetExceptionBreakpoints,
    Threads,
    StackTrace {
        thread: i64,
        window: Window,
    },
    Scopes {
        frame: u32,
    },
    Variables {
        reference: u32,
        window: Window,
    },
    Evaluate {
        expression: &'a str,
        frame: Option<u32>,
    },
    SetVariable {
        reference: u32,
        name: &'a str,
        value: &'a str,
    },
    Source {
        reference: u32,
    },
    LoadedSources,
    Pause,
    Resume {
        how: Move,
        thread: i64,
    },
}

/// What `initialize` says.
pub struct Options {
    pub first_line: u32,
    pub first_column: u32,
    pub paging: bool,
}

#[derive(Clone, PartialEq, Eq, Hash)]
pub enum SourceName {
    Path(String),
    Reference(u32),
}

/// A part of a list; a count of 0 asks for all that follow.
pub struct Window {
    start: u32,
    count: u32,
}

impl Window {
    pub fn of<'a, T>(&self, all: &'a [T]) -> &'a [T] {
        let from = all.get(self.start as usize..).unwrap_or(&[]);
        match self.count as usize {
            0 => from,
            count => &from[..count.min(from.len())],
        }
    }
}

#[derive(Clone, Copy, PartialEq, Eq)]
pub enum Move {
    Continue,
    Next,
    StepIn,
    StepOut,
    StepBack,
    ReverseContinue,
}

impl<'a> Call<'a> {
    pub fn read(command: &str, arguments: Option<&'a Value>) -> Result<Self, Failure> {
        let given = || Arguments::required(arguments);
        let resume = |how| {
            let thread = given()?.thread()?;
            Ok(Call::Resume { how, thread })
        };
        match command {
            "initialize" => Arguments::optional(arguments)?
                .options()
                .map(Call::Initialize),
            "launch" | "attach" => Arguments::optional(arguments).map(|_| Call::Launch),
            "configurationDone" => Ok(Call::ConfigurationDone),
            "disconnect" => Ok(Call::Disconnect),
            "terminate" => Ok(Call::Terminate),
            "cancel" => {
                // Each request is answered before the next is taken, so there is none that could be cancelled.
                Arguments::optional(arguments)?.seq("requestId")?;
                Ok(Call::Cancel)
            }
            "setBreakpoints" => {
                let (source, lines) = given()?.breakpoints()?;
                Ok(Call::SetBreakpoints { source, lines })
            }
            "setExceptionBreakpoints" => {
                given()?.texts("filters")?;
                Ok(Call::SetExceptionBreakpoints)
            }
            "threads" => Ok(Call::Threads),
            "stackTrace" => {
                let given = given()?;
                let thread = given.thread()?;
                let window = given.window("startFrame", "levels")?;
                Ok(Call::StackTrace { thread, window })
            }
            "scopes" => {
                let frame = given()?.required_count("frameId")?;
                Ok(Call::Scopes { frame })
            }
            "variables" => {
                let given = given()?;
                let reference = given.required_count("variablesReference")?;
                let window = given.window("start", "count")?;
                Ok(Call::Variables { reference, window })
            }
            "evaluate" => {
                let given = given()?;
                let expression = given.required_text("expression")?;
                let frame = given.count("frameId")?;
                Ok(Call::Evaluate { expression, frame })
            }
            "setVariable" => {
                let given = given()?;
                let reference = given.required_count("variablesReference")?;
                let name = given.required_text("name")?;
                let value = given.required_text("value")?;
                Ok(Call::SetVariable {
                    reference,
                    name,
                    value,
                })
            }
            "source" => {
                let reference = Arguments::optional(arguments)?.source_number()?;
                Ok(Call::Source { reference })
            }
            "loadedSources" => Ok(Call::LoadedSources),
            "pause" => given()?.thread().map(|_| Call::Pause),
            "continue" => resume(Move::Continue),
            "next" => resume(Move::Next),
            "stepIn" => resume(Move::StepIn),
            "stepOut" => resume(Move::StepOut),
            "stepBack" => resume(Move::StepBack),
            "reverseContinue" => resume(Move::ReverseContinue),
            "setFunctionBreakpoints"
            | "restart"
            | "modules"
            | "exceptionInfo"
            | "breakpointLocations"
            | "completions" => Err(Failure::Unsupported),
            _ => Err(Failure::UnknownCommand),
        }
    }
}

/// The arguments, an object or nothing.
#[derive(Clone, Copy)]
struct Arguments<'a>(Option<&'a Value>);

impl<'a> Arguments<'a> {
    fn required(given: Option<&'a Value>) -> Result<Self, Failure> {
        match given {
            Some(Value::Object(_)) => Ok(Arguments(given)),
            _ => Err(Failure::BadArguments("arguments")),
        }
    }

    fn optional(given: Option<&'a Value>) -> Result<Self, Failure> {
        match given {
            None => Ok(Arguments(None)),
            _ => Self::required(given),
        }
    }

    /// What `read` makes of the value at a key; none where the key is absent.
    fn read<T>(
        self,
        key: &'static str,
        read: impl Fn(&'a Value) -> Option<T>,
    ) -> Result<Option<T>, Failure> {
        match at(self.0, key) {
            None => Ok(None),
            Some(value) => read(value).map(Some).ok_or(Failure::BadArguments(key)),
        }
    }

    fn text(self, key: &'static str) -> Result<Option<&'a str>, Failure> {
        self.read(key, Value::as_str)
    }

    fn required_text(self, key: &'static str) -> Result<&'a str, Failure> {
        self.text(key)?.ok_or(Failure::BadArguments(key))
    }

    fn truth(self, key: &'static str) -> Result<Option<bool>, Failure> {
        self.read(key, Value::as_bool)
    }

    fn count(self, key: &'static str) -> Result<Option<u32>, Failure> {
        self.read(key, as_count)
    }

    fn required_count(self, key: &'static str) -> Result<u32, Failure> {
        self.count(key)?.ok_or(Failure::BadArguments(key))
    }

    fn seq(self, key: &'static str) -> Result<Option<u64>, Failure> {
        self.read(key, |value| value.as_u64().filter(|&seq| seq <= MAX_SEQ))
    }

    fn thread(self) -> Result<i64, Failure> {
        let whole = |value: &Value| value.as_i64().filter(|id| id.unsigned_abs() <= MAX_SEQ);
        self.read("threadId", whole)?
            .ok_or(Failure::BadArguments("threadId"))
    }

    fn texts(self, key: &'static str) -> Result<(), Failure> {
        let texts = |value: &Value| {
            value
                .as_array()
                .filter(|all| all.iter().all(Value::is_string))
                .map(|_| ())
        };
        self.read(key, texts)?.ok_or(Failure::BadArguments(key))
    }

    fn window(self, start: &'static str, count: &'static str) -> Result<Window, Failure> {
        let start = self.count(start)?.unwrap_or(0);
        let count = self.count(count)?.unwrap_or(0);
        Ok(Window { start, count })
    }

    fn options(self) -> Result<Options, Failure> {
        self.text("adapterID")?;
        let lines_from_1 = self.truth("linesStartAt1")?.unwrap_or(true);
        let columns_from_1 = self.truth("columnsStartAt1")?.unwrap_or(true);
        let paging = self.truth("supportsVariablePaging")?.unwrap_or(false);
        self.truth("supportsRunInTerminalRequest")?;
        Ok(Options {
            first_line: lines_from_1.into(),
            first_column: columns_from_1.into(),
            paging,
        })
    }

    /// The source's name and the lines: those of `breakpoints` where it is there, else those of `lines`.
    fn breakpoints(self) -> Result<(SourceName, Vec<u32>), Failure> {
        let source = self.read("source", as_source)?.and_then(Source::name);
        let source = source.ok_or(Failure::BadArguments("source"))?;
        let line = |breakpoint: &Value| {
            breakpoint
                .as_object()
                .and_then(|object| object.get("line"))
                .and_then(as_count)
        };
        let breakpoints = self.read("breakpoints", |value| {
            value.as_array()?.iter().map(line).collect()
        })?;
        let lines = self.read("lines", |value| {
            value.as_array()?.iter().map(as_count).collect()
        })?;
        Ok((source, breakpoints.or(lines).unwrap_or_default()))
    }

    fn source_number(self) -> Result<u32, Failure> {
        let inner = self
            .read("source", as_source)?
            .map_or(0, |source| source.reference);
        let outer = self.count("sourceReference")?.unwrap_or(0);
        Ok(if inner > 0 { inner } else { outer })
    }
}

struct Source<'a> {
    path: Option<&'a str>,
    reference: u32,
}

impl Source<'_> {
    /// The path, be it empty, else the number; 0 is none.
    fn name(self) -> Option<SourceName> {
        match self {
            Source {
                path: Some(path), ..
            } => Some(SourceName::Path(path.to_owned())),
            Source { reference: 0, .. } => None,
            Source { reference, .. } => Some(SourceName::Reference(reference)),
        }
    }
}

fn as_source(value: &Value) -> Option<Source<'_>> {
    value.as_object()?;
    let given = Arguments(Some(value));
    let path = given.text("path").ok()?;
    let reference = given.count("sourceReference").ok()?.unwrap_or(0);
    Some(Source { path, reference })
}

fn at<'a>(object: Option<&'a Value>, key: &str) -> Option<&'a Value> {
    object?.get(key).filter(|value| !value.is_null())
}

/// A count, a line or a reference.
pub fn as_count(value: &Value) -> Option<u32> {
    value
        .as_u64()
        .filter(|&count| count <= MAX_COUNT)
        .map(|count| count as u32)
}
