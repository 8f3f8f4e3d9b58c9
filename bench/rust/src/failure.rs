//! Why a request fails.

use crate::answers::{ErrorBody, ErrorMessage};

pub enum Failure {
    NotInitialized,
    AlreadyInitialized,
    UnknownCommand,
    Unsupported,
    BadArguments(&'static str),
    NotStopped,
    WrongPhase,
    UnknownThread,
    StaleReference,
    TooManyReferences,
    Cancelled,
    Debuggee,
    UnknownSource,
    TooManyBreakpoints,
    TooLarge,
    ReferencesExhausted,
}

impl Failure {
    /// The number, the short name and the text. Only the text of bad arguments depends on the request.
    fn row(&self) -> (u32, &'static str, &'static str) {
        match self {
            Failure::NotInitialized => (1001, "notInitialized", "The session is not initialized."),
            Failure::AlreadyInitialized => (
                1002,
                "alreadyInitialized",
                "The session is already initialized.",
            ),
            Failure::UnknownCommand => (1003, "unknownCommand", "The command is not known."),
            Failure::Unsupported => (1004, "unsupported", "The command is not supported."),
            Failure::BadArguments(_) => (1005, "badArguments", ""),
            Failure::NotStopped => (1006, "notStopped", "The debuggee is not stopped."),
            Failure::WrongPhase => (
                1007,
                "wrongPhase",
                "The request does not fit the state of the session.",
            ),
            Failure::UnknownThread => (1008, "unknownThread", "The thread does not exist."),
            Failure::StaleReference => (
                1009,
                "staleReference",
                "The reference is not valid in this stop.",
            ),
            Failure::TooManyReferences => {
                (1010, "tooManyReferences", "Too many references are in use.")
            }
            Failure::Cancelled => (1012, "cancelled", "The request was cancelled."),
            Failure::Debuggee => (1013, "debuggee", "The debuggee refused."),
            Failure::UnknownSource => (1014, "unknownSource", "The source does not exist."),
            Failure::TooManyBreakpoints => {
                (1015, "tooManyBreakpoints", "Too many breakpoints are set.")
            }
            Failure::TooLarge => (1016, "tooLarge", "The response would be too large."),
            Failure::ReferencesExhausted => (
                1017,
                "referencesExhausted",
                "No reference numbers are left.",
            ),
        }
    }

    pub fn name(&self) -> &'static str {
        self.row().1
    }

    pub fn body(&self) -> ErrorBody {
        let (id, _, text) = self.row();
        let format = match self {
            Failure::BadArguments(key) => {
                format!("The argument {key} is missing or malformed.").into()
            }
            _ => text.into(),
        };
        ErrorBody {
            error: ErrorMessage { format, id },
        }
    }
}
