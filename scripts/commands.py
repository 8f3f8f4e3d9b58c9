"""The commands, failures and events of docs/PROFILE.md, as all models, cases and random walks of the scripts read them.

It is written by hand from that document, and never read out of the crates' sources: so a model that reads it is still another
account than theirs, and a fault in it shows as a difference from the program.

What may share it: whatever is compared with the program, slow_check.py among them. What may not: the bytes that a case wants
of a worked example, which are written out beside it, and scripts/shapes.txt, of which rows of a crate are printed.

A line of TABLE is a command of the client, the flag that gates it (without `supports`), the adapter's phases in which it is
served, the client's phases in which it may be sent, the references that a success gives, and the keys of its arguments in the
order in which they are tested. The one command of the adapter is TERMINAL.

- `A-B` are the phases from A to B, in the order of ADAPTER_PHASES or CLIENT_PHASES. A command without the adapter's is never
  served. `ready`: it is sent once the event `initialized` came.
- `frame stackFrames.id`: numbers of this kind, at this key of each element of a list of the body, or at the key of the body.
- A key is its name, with `!` where it is required, and the kind of its value, in brackets for a list. Of the kinds `frame`
  and `variables` it is the reference that the command uses. `=0`: what it counts as where it is absent; 0 is not written.
"""
import collections

ADAPTER_PHASES = "Fresh Ready Configured Parked Asked Running Stopped Exited".split()
CLIENT_PHASES = "Fresh Configuring Running Stopped Resuming Exited".split()
TABLE = """
initialize | | Fresh | Fresh | | adapterID text, linesStartAt1 boolean, columnsStartAt1 boolean, supportsVariablePaging boolean, supportsRunInTerminalRequest boolean
launch | | Ready Configured | Configuring | |
attach | | Ready Configured | Configuring | |
configurationDone | ConfigurationDoneRequest | Ready Parked | ready Configuring-Resuming | |
disconnect | | Fresh-Exited | Configuring-Exited | |
threads | | Ready-Exited | Configuring-Exited | |
terminate | TerminateRequest | Running Stopped | Configuring Running Stopped | |
cancel | CancelRequest | Ready-Exited | Configuring-Exited | | requestId seq
setBreakpoints | | Ready-Stopped | ready Configuring-Resuming | | source! NamedSource, breakpoints [breakpoint], lines [line]
setFunctionBreakpoints | FunctionBreakpoints | | ready Configuring-Resuming | | breakpoints! [function]
setExceptionBreakpoints | | Ready-Stopped | ready Configuring-Resuming | | filters! [text]
continue | | Stopped | Stopped | | threadId! thread
next | | Stopped | Stopped | | threadId! thread
stepIn | | Stopped | Stopped | | threadId! thread
stepOut | | Stopped | Stopped | | threadId! thread
pause | | Running Stopped | Running Stopped Resuming | | threadId! thread
stepBack | StepBack | Stopped | Stopped | | threadId! thread
reverseContinue | StepBack | Stopped | Stopped | | threadId! thread
stackTrace | | Stopped | Stopped | frame stackFrames.id | threadId! thread, startFrame count=0, levels count=0
scopes | | Stopped | Stopped | variables scopes.variablesReference | frameId! frame
variables | | Stopped | Stopped | variables variables.variablesReference | variablesReference! variables, start count=0, count count=0
evaluate | | Stopped | Stopped | variables variablesReference | expression! text, frameId frame
source | | Ready-Exited | Configuring-Exited | | source Source, sourceReference count=0
loadedSources | LoadedSourcesRequest | Ready-Exited | Configuring-Exited | |
setVariable | SetVariable | Stopped | Stopped | variables variablesReference | variablesReference! variables, name! text, value! text
restart | RestartRequest | | Configuring Running Stopped | |
modules | ModulesRequest | | Configuring-Exited | | startModule count=0, moduleCount count=0
exceptionInfo | ExceptionInfoRequest | | Stopped | | threadId! thread
breakpointLocations | BreakpointLocationsRequest | | Configuring-Exited | | source! NamedSource, line! line, endLine line
completions | CompletionsRequest | | Stopped | | text! text, column! count, frameId frame, line line
"""
Command = collections.namedtuple("Command", "gate served sent needs_ready gives keys")
Key = collections.namedtuple("Key", "name kind is_required has_default")


def phases_of(text, order):
    ends = [word.partition("-") for word in text.split() if word != "ready"]
    return {phase for first, _, last in ends for phase in order[order.index(first) : order.index(last or first) + 1]}


def key_of(text):
    name, kind = text.split()
    return Key(name.removesuffix("!"), kind.removesuffix("=0"), name.endswith("!"), kind.endswith("=0"))


def command_of(gate, served, sent, gives, keys):
    kind, _, path = gives.partition(" ")
    return Command(
        f"supports{gate}" if gate else None,
        phases_of(served, ADAPTER_PHASES),
        phases_of(sent, CLIENT_PHASES),
        "ready" in sent.split(),
        (kind, *path.rpartition(".")[::2]) if gives else None,
        [key_of(one) for one in keys.split(",") if one],
    )


ROWS = [[cell.strip() for cell in line.split("|")] for line in TABLE.strip().splitlines()]
COMMANDS = {name: command_of(*cells) for name, *cells in ROWS}
TERMINAL = "runInTerminal"
RESUMING = ("continue", "next", "stepIn", "stepOut", "stepBack", "reverseContinue")
BACK = ("stepBack", "reverseContinue")
# The flag of each command that has one; those that the adapter offers, which are those of what it serves.
GATES = {name: command.gate for name, command in COMMANDS.items() if command.gate}
OFFERED = sorted({gate for name, gate in GATES.items() if COMMANDS[name].served})
CAPABILITIES = dict.fromkeys(OFFERED, True)
# The kinds of references, each with the least number; the key that holds one in a request, and its kind; the kind that a
# success gives, and the list and the key that have it.
LEAST = {"frame": 0, "variables": 1}
USED = {name: (key.name, key.kind) for name, command in COMMANDS.items() for key in command.keys if key.kind in LEAST}
GIVEN = {name: command.gives for name, command in COMMANDS.items() if command.gives}

# The events that end the debuggee, and those that end the references; others that the models know.
GONE = ("exited", "terminated")
ENDING = ("continued", *GONE)
EVENTS = ("initialized", *ENDING, "stopped", "output")

# What a failure has as its `message`, its number and its text.
FAILURES = {
    "notInitialized": (1001, "The session is not initialized."),
    "alreadyInitialized": (1002, "The session is already initialized."),
    "unknownCommand": (1003, "The command is not known."),
    "unsupported": (1004, "The command is not supported."),
    "badArguments": (1005, "The argument {} is missing or malformed."),
    "notStopped": (1006, "The debuggee is not stopped."),
    "wrongPhase": (1007, "The request does not fit the state of the session."),
    "unknownThread": (1008, "The thread does not exist."),
    "staleReference": (1009, "The reference is not valid in this stop."),
    "tooManyReferences": (1010, "Too many references are in use."),
    "busy": (1011, "Too many requests are waiting."),
    "cancelled": (1012, "The request was cancelled."),
    "debuggee": (1013, "The debuggee refused."),
    "unknownSource": (1014, "The source does not exist."),
    "tooManyBreakpoints": (1015, "Too many breakpoints are set."),
    "tooLarge": (1016, "The response would be too large."),
    "referencesExhausted": (1017, "No reference numbers are left."),
    "terminalRefused": (1018, "The terminal refused."),
}


def failure(name, key=None):
    """The members of a response that fails by this name."""
    number, text = FAILURES[name]
    return {"success": False, "message": name, "body": {"error": {"format": text.format(key), "id": number}}}


def body_giving(command, number):
    """A body of a success that gives this reference, behind an element that gives none; and the reference's kind."""
    kind, array, key = GIVEN[command]
    return kind, {array: [{}, {key: number}]} if array else {key: number}
