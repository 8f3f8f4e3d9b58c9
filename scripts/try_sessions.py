"""Groups of scripts/try-program: sessions with breakpoints, stacks, scopes, variables, values, set ones too, sources, and a
terminal that the client is asked for.

Rows are a command, its arguments and all the messages that come for it, written out by hand, or a response of the client.
Longer sessions, and random ones, are compared with scripts/session_model.py to the byte.
"""
import os
import random

from commands import CAPABILITIES as FLAGS
from commands import TERMINAL, failure
from random_sessions import Guided, mixed_session, random_recording
from session_model import RUN_IN_TERMINAL, written
from trial import DAP, HERE, RECORDING, RECORDINGS, expect, fault, file_of, fine, frame, frames_of, output_of, recording_of
from trial import request, run

FOLLOW = os.path.join(HERE, "scripts", "follow-session")


# The messages that come for a request, each by the request's number and command: a success, a failure, an event.
def ok(body=None):
    told = {"type": "response", "success": True, **({} if body is None else {"body": body})}
    return lambda seq, command: {**told, "request_seq": seq, "command": command}


def fails(name, key=None):
    return lambda seq, command: {"type": "response", **failure(name, key), "request_seq": seq, "command": command}


def tells(event, body=None):
    told = {"type": "event", "event": event, **({} if body is None else {"body": body})}
    return lambda seq, command: told


def launched(seq):
    """The success of a launch that waited."""
    return lambda _, __: ok()(seq, "launch")


def asks_for_terminal():
    return lambda _, __: {"type": "request", "command": TERMINAL, "arguments": RUN_IN_TERMINAL}


def answered(request_seq, success=True, command=TERMINAL, **more):
    """A row's command and arguments for a response of the client."""
    told = {"type": "response", "request_seq": request_seq, "success": success, "command": command}
    return {**told, **more}, None


def stopped(reason):
    return tells("stopped", {"allThreadsStopped": True, "reason": reason, "threadId": 1})


def rows(name, told, path=RECORDING, words=(), fault=None):
    """A session from rows of a command, its arguments, and the messages that come; these are numbered from 1."""
    requests, answers, count = [], [], 0
    for seq, (command, arguments, *messages) in enumerate(told, 1):
        requests.append({**command, "seq": seq} if isinstance(command, dict) else request(seq, command, arguments))
        made = [message(seq, command) for message in messages]
        answers.append(b"".join(frame(written({**one, "seq": count + k})) for k, one in enumerate(made, 1)))
        count += len(made)
    same(name, path, requests, answers, words, fault)


def same(name, path, requests, answers, words, fault_name=None):
    """What comes for each message. Where it is something else, the first such message is told."""
    status, out, err = run(["serve", path, *words], b"".join(frames_of(requests)))
    at = 0
    for one, answer in zip(requests, answers):
        if not out.startswith(answer, at):
            return expect(f"{name}: {one}", out[at : at + len(answer) + 200], answer)
        at += len(answer)
    expect(name, (status, out[at:], err), fault(fault_name) if fault_name else fine())


def compare(guided, name):
    same(name, guided.path, guided.requests, guided.answers, guided.words, guided.fault)


# Rows over examples/recordings/a.json. Its first moment has `x`, and `p` with `a`; the second has two frames; the last waits.
THREAD = {"threadId": 1}
SOURCE_A = {"name": "a.c", "path": "/a.c", "sourceReference": 1}
PATH_A, NUMBER_A = {"path": "/a.c"}, {"sourceReference": 1}
GO = tells("output", {"category": "stdout", "output": "go\n"})
GONE = tells("exited", {"exitCode": 0}), tells("terminated")
GOES_ON = ok({"allThreadsContinued": True})
INITIALIZED = [("initialize", {"adapterID": "rec"}, ok(FLAGS), tells("initialized"))]
STARTED = [("launch", None), ("configurationDone", None, ok(), launched(2), GO, stopped("entry"))]
STOPPED = INITIALIZED + STARTED
STEP_IN, NEXT = [(command, THREAD, ok(), stopped("step")) for command in ("stepIn", "next")]
CONTINUE, HELD, EXIT = [("continue", THREAD, GOES_ON, *more) for more in ([stopped("breakpoint")], [], GONE)]
BACK, BACK_TO_START = [("reverseContinue", THREAD, ok(), stopped(reason)) for reason in ("breakpoint", "entry")]
PAUSE = ("pause", THREAD, ok(), stopped("pause"))
TERMINATE = ("terminate", None, ok(), tells("terminated"))


def stack(*frames, total=None, column=1, source=SOURCE_A):
    told = [{"column": column, "id": n, "line": line, "name": name, "source": source} for n, name, line in frames]
    return ok({"stackFrames": told, "totalFrames": len(told) if total is None else total})


def scopes(*told):
    return ok({"scopes": [{"expensive": False, "name": name, "variablesReference": n} for name, n in told]})


def variables(*told):
    return ok({"variables": [{"name": name, "value": value, "variablesReference": n} for name, value, n in told]})


def value(result, number=0):
    return ok({"result": result, "variablesReference": number})


def number(n):
    return {"variablesReference": n}


def in_frame(n, text):
    return {"expression": text, "frameId": n}


def assigning(n, name, text):
    return {"variablesReference": n, "name": name, "value": text}


def set_lines(source, lines, *told):
    return ("setBreakpoints", {"source": source, "breakpoints": [{"line": line} for line in lines]}, *told)


def placed(*told):
    return ok({"breakpoints": [{"id": n, "line": line, "verified": is_there} for n, line, is_there in told]})


STALE = fails("staleReference")
LOOK = [("stackTrace", THREAD, stack((1, "main", 1))), ("scopes", {"frameId": 1}, scopes(("Locals", 2)))]
X, P = ("x", "1", 0), ("p", "P", 3)
ASKED_IN_A_STOP = [("stackTrace", THREAD), ("scopes", {"frameId": 1}), ("variables", number(1))]
ASKED_IN_A_STOP += [("evaluate", {"expression": "x"})]
NOT_IN_A_STOP = [
    ("before initialize", [], "notInitialized", []),
    ("before the start", INITIALIZED, "wrongPhase", []),
    ("while it runs", [*STOPPED, HELD], "notStopped", [PAUSE]),
    ("after the exit", [*STOPPED, HELD, PAUSE, EXIT], "wrongPhase", []),
    ("after the end", [*STOPPED, TERMINATE], "wrongPhase", []),
]


def references():
    """Numbers in a stop and in the next one, what has none, and what may be asked when."""
    rows("references: in a stop and in the next", [
        *STOPPED, *LOOK,
        ("scopes", {"frameId": 1}, scopes(("Locals", 2))),
        ("variables", number(2), variables(X, P)),
        ("variables", number(3), variables(("a", "7", 0))),
        ("evaluate", in_frame(1, "p"), value("P", 3)),
        ("evaluate", in_frame(1, "q"), fails("debuggee")),
        ("next", {"threadId": 2}, fails("unknownThread")),
        ("pause", THREAD, ok()),
        *LOOK, NEXT,
        ("variables", number(2), STALE),
        ("stackTrace", THREAD, stack((4, "main", 2))),
        ("scopes", {"frameId": 4}, scopes()),
        ("scopes", {"frameId": 1}, STALE),
    ])
    rows("references: of the other kind, not given yet, and none", [
        *STOPPED, *LOOK,
        *[("scopes", {"frameId": n}, STALE) for n in (0, 2, 3, 2147483647)],
        *[("variables", number(n), STALE) for n in (0, 1, 3, 2147483647)],
        *[("evaluate", in_frame(n, "x"), STALE) for n in (0, 2, 3)],
        ("evaluate", {"expression": "x"}, fails("debuggee")),
        ("evaluate", in_frame(None, "x"), fails("debuggee")),
        ("stackTrace", {"threadId": 2}, fails("unknownThread")),
        ("variables", number(2), variables(X, P)),
    ])
    rows("references: not stopped", [*STOPPED, HELD, ("stackTrace", THREAD, fails("notStopped")), PAUSE, EXIT])
    for name, before, refusal, after in NOT_IN_A_STOP:
        rows(f"references: {name}", [*before, *[(*one, fails(refusal)) for one in ASKED_IN_A_STOP], *after])
    bad = ("scopes", {"frameId": -1}, fails("badArguments", "frameId"))
    rows("references: bad arguments come before the phase", [*INITIALIZED, bad])
    few_references()
    windows()
    names()


def few_references():
    """As many as may be live, and the greatest number. What a refused answer named is taken back."""
    many, none_left = fails("tooManyReferences"), fails("referencesExhausted")
    two, greatest = ("--max-references", "2"), ("--max-reference", "2")
    rows("references: two at most", [
        *STOPPED, *LOOK,
        ("variables", number(2), many),
        ("evaluate", in_frame(1, "p"), many),
        *LOOK,
        ("evaluate", in_frame(1, "x"), value("1")),
        NEXT,
        ("stackTrace", THREAD, stack((3, "main", 2))),
    ], words=two)
    rows("references: one at most", [
        *STOPPED, STEP_IN,
        ("stackTrace", THREAD, many),
        ("stackTrace", {"threadId": 1, "startFrame": 1}, stack((1, "main", 1), total=2)),
        ("stackTrace", {"threadId": 1, "levels": 1}, many),
        ("stackTrace", {"threadId": 1, "startFrame": 1, "levels": 9}, stack((1, "main", 1), total=2)),
    ], words=("--max-references", "1"))
    rows(
        "references: 2 is the greatest",
        [*STOPPED, *LOOK, ("variables", number(2), none_left), *LOOK, NEXT, *[("stackTrace", THREAD, none_left)] * 2],
        words=greatest,
    )
    rows("references: too many before none left", [*STOPPED, *LOOK, ("variables", number(2), many)], words=two + greatest)


def windows():
    """Parts of a stack; parts of variables, which only a client that announced them gets."""
    f, main = (1, "f", 3), (2, "main", 1)
    for start, levels, frames in [
        (None, None, [f, main]),
        (0, 0, [f, main]),
        (0, 1, [f]),
        (1, 0, [(1, "main", 1)]),
        (1, 1, [(1, "main", 1)]),
        (2, 0, []),
        (2147483647, 2147483647, []),
    ]:
        asked = {"threadId": 1, "startFrame": start, "levels": levels}
        rows(f"stackTrace: from {start}, {levels} levels", [*STOPPED, STEP_IN, ("stackTrace", asked, stack(*frames, total=2))])
    for paging in (True, False):
        look = [("initialize", {"supportsVariablePaging": paging}, ok(FLAGS), tells("initialized")), *STARTED, *LOOK]
        for start, count, part in [(None, None, [X, P]), (0, 0, [X, P]), (0, 1, [X]), (1, 0, [P]), (1, 9, [P]), (2, 1, [])]:
            asked = {"variablesReference": 2, "start": start, "count": count}
            told = variables(*(part if paging else [X, P]))
            rows(f"variables: from {start}, {count}, announced: {paging}", [*look, ("variables", asked, told)])
        # A variable that is not told takes no number.
        told = variables(X) if paging else fails("tooManyReferences")
        given = [*look, ("variables", {"variablesReference": 2, "count": 1}, told)]
        rows(f"variables: one, and two numbers at most, announced: {paging}", given, words=("--max-references", "2"))


def names():
    """The first variable of a name counts, of all scopes in their order; what has no children has the number 0."""
    held = [{"name": "c", "value": "4"}]
    first = [{"name": "v", "value": "1"}, {"name": "w", "value": "2", "variables": held}, {"name": "v", "value": "7"}]
    second = [{"name": "w", "value": "3"}, {"name": "u", "value": "5", "variables": []}, {"name": "v", "value": "6"}]
    there = [{"name": "A", "variables": first}, {"name": "B", "variables": second}, {"name": "C"}]
    rows("references: the first variable of a name", [
        *INITIALIZED,
        ("launch", None),
        ("configurationDone", None, ok(), launched(2), stopped("entry")),
        ("stackTrace", THREAD, stack((1, "main", 1), source={"name": "a", "sourceReference": 1})),
        ("evaluate", in_frame(1, "v"), value("1")),
        ("evaluate", in_frame(1, "u"), value("5")),
        ("evaluate", in_frame(1, "w"), value("2", 2)),
        *[("evaluate", in_frame(1, text), fails("debuggee")) for text in ("c", "A", "W", "", "w ", "w.c")],
        ("scopes", {"frameId": 1}, scopes(("A", 3), ("B", 4), ("C", 5))),
        ("variables", number(3), variables(("v", "1", 0), ("w", "2", 2), ("v", "7", 0))),
        ("variables", number(4), variables(("w", "3", 0), ("u", "5", 0), ("v", "6", 0))),
        ("variables", number(5), variables()),
        ("variables", number(2), variables(("c", "4", 0))),
    ], made_recording("names", [{"name": "a", "text": "a"}], there))


def values():
    """A value that is set is shown until a move succeeds; the first variable of the name is set, in that holder alone."""
    set_x, is_set = [("setVariable", assigning(2, "x", "9"), ok({"value": "9"}))], variables(("x", "9", 0), P)
    there = [*STOPPED, *LOOK, ("variables", number(2), variables(X, P)), ("variables", number(3), variables(("a", "7", 0)))]
    bad = [
        (None, "arguments"),
        ({"name": 1, "value": 1}, "variablesReference"),
        ({"variablesReference": 2, "value": 1}, "name"),
        ({"variablesReference": 2, "name": "x", "value": None}, "value"),
    ]
    rows("values: set, seen, and lost by a step there and back", [
        *there, *set_x,
        ("setVariable", assigning(2, "p", "Q"), ok({"value": "Q"})),
        ("setVariable", assigning(2, "y", "9"), fails("debuggee")),
        ("variables", number(2), variables(("x", "9", 0), ("p", "Q", 3))),
        ("evaluate", in_frame(1, "x"), value("9")),
        ("evaluate", in_frame(1, "p"), value("Q", 3)),
        NEXT,
        *[("stepBack", THREAD, ok(), stopped("step"))] * 2,
        ("stackTrace", THREAD, stack((4, "main", 1))),
        ("evaluate", in_frame(4, "x"), value("1")),
        ("setVariable", assigning(2, "x", "9"), STALE),
        ("scopes", {"frameId": 4}, scopes(("Locals", 5))),
        ("variables", number(5), variables(X, ("p", "P", 6))),
    ])
    rows("values: kept by what is refused, set again, set in a variable, and lost where it stops at once", [
        *there, *set_x,
        ("next", {"threadId": 2}, fails("unknownThread")),
        ("variables", number(2), is_set),
        *[("setVariable", arguments, fails("badArguments", key)) for arguments, key in bad],
        *[("setVariable", assigning(n, "x", "8"), STALE) for n in (0, 1, 4, 2147483647)],
        ("setVariable", assigning(3, "x", "8"), fails("debuggee")),
        ("variables", number(2), is_set),
        ("setVariable", assigning(2, "x", ""), ok({"value": ""})),
        ("setVariable", assigning(3, "a", "\u0001\u00e9"), ok({"value": "\u0001\u00e9"})),
        ("variables", number(2), variables(("x", "", 0), P)),
        ("variables", number(3), variables(("a", "\u0001\u00e9", 0))),
        ("stepBack", THREAD, ok(), stopped("step")),
        ("stackTrace", THREAD, stack((4, "main", 1))),
        ("evaluate", in_frame(4, "x"), value("1")),
    ])
    for name, before, refusal, after in NOT_IN_A_STOP:
        rows(f"values: {name}", [*before, ("setVariable", assigning(2, "x", "9"), fails(refusal)), *after])
    bad = ("setVariable", None, fails("badArguments", "arguments"))
    rows("values: bad arguments come before the phase", [*INITIALIZED, bad])
    two = [{"name": "v", "value": "1"}, {"name": "w", "value": "2"}, {"name": "v", "value": "3"}]
    rows(
        "values: of a name that stands twice in one scope and once in the next",
        [
            *INITIALIZED,
            ("launch", None),
            ("configurationDone", None, ok(), launched(2), stopped("entry")),
            ("stackTrace", THREAD, stack((1, "main", 1), source={"name": "a", "sourceReference": 1})),
            ("scopes", {"frameId": 1}, scopes(("A", 2), ("B", 3), ("C", 4))),
            ("setVariable", assigning(3, "v", "5"), ok({"value": "5"})),
            ("evaluate", in_frame(1, "v"), value("1")),
            ("setVariable", assigning(2, "v", "4"), ok({"value": "4"})),
            ("evaluate", in_frame(1, "v"), value("4")),
            ("variables", number(2), variables(("v", "4", 0), ("w", "2", 0), ("v", "3", 0))),
            ("variables", number(3), variables(("v", "5", 0))),
            ("setVariable", assigning(4, "v", "5"), fails("debuggee")),
        ],
        made_recording(
            "twice",
            [{"name": "a", "text": "a"}],
            [{"name": "A", "variables": two}, {"name": "B", "variables": two[:1]}, {"name": "C"}],
        ),
    )


ANNOUNCED = [("initialize", {"supportsRunInTerminalRequest": True}, ok(FLAGS), tells("initialized"))]
CONSOLE = {"console": "terminal"}
IS_ASKED = [*ANNOUNCED, ("launch", CONSOLE), ("configurationDone", None, ok(), asks_for_terminal())]


def refused_launch(seq):
    return lambda _, __: fails("debuggee")(seq, "launch")


def terminals():
    """A terminal that the client is asked for, and what its response does."""
    none = ok({"threads": []})
    rows("terminals: there", [*IS_ASKED, (*answered(4, body={}), launched(2), GO, stopped("entry")), HELD, PAUSE, EXIT])
    rows("terminals: refused, and asked for again", [
        *IS_ASKED,
        (*answered(4, False, message="terminalRefused"), refused_launch(2)),
        ("threads", None, none),
        ("launch", CONSOLE, asks_for_terminal()),
        (*answered(7), launched(6), GO, stopped("entry")),
    ])
    rows("terminals: what is served meanwhile", [
        *IS_ASKED,
        ("threads", None, none),
        ("loadedSources", None, ok({"sources": [SOURCE_A]})),
        set_lines(PATH_A, [2], placed((1, 2, True))),
        ("setExceptionBreakpoints", {"filters": []}, ok()),
        ("cancel", {"requestId": 2}, ok()),
        ("terminate", None, fails("wrongPhase")),
        ("launch", CONSOLE, fails("wrongPhase")),
        ("configurationDone", None, fails("wrongPhase")),
        ("next", THREAD, fails("wrongPhase")),
        ("initialize", None, fails("alreadyInitialized")),
        (*answered(4, body={"processId": "x"}), launched(2), GO, stopped("entry")),
        CONTINUE,
    ])
    cancelled = lambda _, __: fails("cancelled")(2, "launch")
    rows("terminals: disconnect meanwhile", [*IS_ASKED, ("disconnect", None, cancelled, ok()), (*answered(4),)])
    configured = [*ANNOUNCED, ("configurationDone", None, ok())]
    started = [launched(3), GO, stopped("entry")]
    rows("terminals: once configured", [*configured, ("launch", CONSOLE, asks_for_terminal()), (*answered(4), *started)])
    rows("terminals: attach", [*configured, ("attach", CONSOLE, ok(), GO, stopped("entry"))])
    for told in (None, {}, {"console": None}, {"console": 1}, {"console": "Terminal"}, {"console": CONSOLE}):
        rows(f"terminals: launch with {told}", [*configured, ("launch", told, *started)])
    for flag in (None, False):
        first = ("initialize", {"supportsRunInTerminalRequest": flag}, ok(FLAGS), tells("initialized"))
        rows(f"terminals: announced as {flag}", [first, *configured[1:], ("launch", CONSOLE, *started)])
    start = (*answered(4), launched(2), GO, stopped("entry"))
    for name, told, fault in [
        ("a response before the request", [*ANNOUNCED, answered(4)], "Unmatched"),
        ("a second response", [*IS_ASKED, start, answered(4)], "Unmatched"),
        ("a response to another number", [*IS_ASKED, answered(3, command="x")], "Unmatched"),
        ("a response with another command", [*IS_ASKED, answered(4, command="launch")], "CommandMismatch"),
    ]:
        rows(f"terminals: {name}", told, fault=fault)
    few = ("--max-seq", "4")
    rows("terminals: no number for the answer", [*IS_ASKED, answered(4)], words=few, fault="SeqExhausted")
    rows("terminals: the fault before that", [*IS_ASKED, answered(9)], words=few, fault="Unmatched")
    parked = [*ANNOUNCED, ("launch", CONSOLE), ("configurationDone", None)]
    rows("terminals: a number for one of two", parked, words=("--max-seq", "3"), fault="SeqExhausted")
    asking = [*configured, ("launch", CONSOLE)]
    rows("terminals: no number for the request", asking, words=("--max-seq", "3"), fault="SeqExhausted")


def breakpoints():
    """Lines that are set, replaced and refused."""
    first = [
        *INITIALIZED,
        set_lines(PATH_A, [1, 3, 9], placed((1, 1, True), (2, 3, True), (3, 9, False))),
        set_lines(PATH_A, [], placed()),
        ("setBreakpoints", {"source": PATH_A, "lines": [2]}, placed((4, 2, True))),
    ]
    rows("breakpoints: replaced", first)
    # What was refused changed nothing: the run stops at line 2 and not at line 1, and the next one is 5.
    rows("breakpoints: an answer that is too large", [
        *first,
        ("setBreakpoints", {"source": PATH_A, "lines": [1] * 100}, fails("tooLarge")),
        ("launch", None),
        ("configurationDone", None, ok(), launched(6), GO, stopped("entry")),
        CONTINUE,
        ("stackTrace", THREAD, stack((1, "main", 2))),
        set_lines(PATH_A, [1], placed((5, 1, True))),
        BACK,
    ], words=("--max-body", "1024"))
    many, other = fails("tooManyBreakpoints"), {"path": "/b.c"}
    rows("breakpoints: two at most, of all sources together", [
        *INITIALIZED,
        set_lines(PATH_A, [1, 2, 3], many),
        set_lines(PATH_A, [2], placed((1, 2, True))),
        set_lines(NUMBER_A, [3], placed((2, 3, True))),
        set_lines(NUMBER_A, [1, 3], many),
        set_lines(NUMBER_A, [1], placed((3, 1, True))),
        set_lines(PATH_A, [7], placed((4, 7, False))),
        set_lines(other, [1], many),
        set_lines(PATH_A, [], placed()),
        set_lines(other, [1], placed((5, 1, False))),
        set_lines({"path": "/c.c"}, [], placed()),
    ], words=("--max-breakpoints", "2"))
    bad_breakpoints()
    breakpoints_by_phase()
    breakpoints_that_stop()
    lines_from_0()


def bad_breakpoints():
    """The first bad key is named; what is good, and which of two names and of two lists counts."""
    bad = [
        (None, "arguments"),
        ([], "arguments"),
        ({"lines": [1]}, "source"),
        ({"source": {}}, "source"),
        ({"source": {"sourceReference": 0}}, "source"),
        ({"source": {"path": 1}, "lines": 1}, "source"),
        ({"source": NUMBER_A, "breakpoints": [{}], "lines": 1}, "breakpoints"),
        ({"source": NUMBER_A, "lines": [None]}, "lines"),
        ({"source": NUMBER_A, "breakpoints": [], "lines": [2147483648]}, "lines"),
    ]
    rows("breakpoints: good and bad arguments", [
        *INITIALIZED,
        *[("setBreakpoints", arguments, fails("badArguments", key)) for arguments, key in bad],
        ("setBreakpoints", {"source": {"path": ""}, "breakpoints": None, "lines": [1]}, placed((1, 1, False))),
        ("setBreakpoints", {"source": NUMBER_A, "breakpoints": [], "lines": [1]}, placed()),
        set_lines({"path": "/a.c", "sourceReference": 7}, [1], placed((2, 1, True))),
        set_lines({"path": "/b.c", "sourceReference": 1}, [1], placed((3, 1, False))),
        set_lines({"path": None, "sourceReference": 2}, [1], placed((4, 1, False))),
    ])


def breakpoints_by_phase():
    """They are set before the start, in a run and in a stop, and not after the exit."""
    rows("breakpoints: before the start, and while it runs", [
        set_lines(PATH_A, [1], fails("notInitialized")),
        *INITIALIZED,
        set_lines(PATH_A, [1], placed((1, 1, True))),
        ("configurationDone", None, ok()),
        set_lines(PATH_A, [1], placed((2, 1, True))),
        ("launch", None, ok(), GO, stopped("entry")),
        HELD,
        set_lines(PATH_A, [1], placed((3, 1, True))),
        TERMINATE,
        set_lines(PATH_A, [1], fails("wrongPhase")),
        set_lines(PATH_A, [-1], fails("badArguments", "breakpoints")),
    ])
    rows("breakpoints: while a launch waits, and in a stop", [
        *INITIALIZED,
        ("launch", None),
        set_lines(PATH_A, [9], placed((1, 9, False))),
        ("configurationDone", None, ok(), launched(2), GO, stopped("entry")),
        set_lines(PATH_A, [9, 9], placed((2, 9, False), (3, 9, False))),
        HELD, PAUSE, EXIT,
        set_lines(PATH_A, [], fails("wrongPhase")),
    ])


def breakpoints_that_stop():
    """The nearest moment whose newest frame is at a line that was set for a name of its source stops a move."""
    second = stack((1, "f", 3), (2, "main", 1))
    rows("breakpoints: the nearest one stops a move", [
        *STOPPED,
        set_lines(PATH_A, [1, 2, 3], placed((1, 1, True), (2, 2, True), (3, 3, True))),
        CONTINUE,
        ("stackTrace", THREAD, second),
        CONTINUE,
        ("stackTrace", THREAD, stack((3, "main", 2))),
        BACK,
        ("stackTrace", THREAD, stack((4, "f", 3), (5, "main", 1))),
        BACK,
        ("stackTrace", THREAD, stack((6, "main", 1))),
        BACK_TO_START,
    ])
    # At the second moment line 1 is that of the caller.
    rows(
        "breakpoints: the newest frame alone counts",
        [*STOPPED, set_lines(PATH_A, [1], placed((1, 1, True))), HELD, PAUSE, ("stackTrace", THREAD, stack((1, "main", 2)))],
    )
    rows("breakpoints: a path and a number are two names", [
        *STOPPED,
        set_lines(NUMBER_A, [2], placed((1, 2, True))),
        set_lines(PATH_A, [9], placed((2, 9, False))),
        CONTINUE,
        set_lines(NUMBER_A, [], placed()),
        BACK_TO_START, HELD,
        # What is set while it runs stops the next move.
        set_lines(PATH_A, [3], placed((3, 3, True))),
        PAUSE, BACK,
        ("stackTrace", THREAD, second),
    ])


def lines_from_0():
    """Lines as the client counts them are answered as it asked, and the debuggee's are one more; columns by themselves."""
    greatest = 2147483647
    for lines, columns, line, column in [(False, False, 0, 0), (False, True, 0, 1), (True, False, 1, 0), (None, None, 1, 1)]:
        announced = {"adapterID": "rec", "linesStartAt1": lines, "columnsStartAt1": columns}
        far = placed((3, line + 2, True), (4, line + 3, False), (5, greatest, False))
        rows(f"breakpoints: lines from {line}, columns from {column}", [
            ("initialize", announced, ok(FLAGS), tells("initialized")),
            set_lines(PATH_A, [line], placed((1, line, True))),
            set_lines(PATH_A, [1 - line], placed((2, 1 - line, line == 0))),
            set_lines(PATH_A, [line + 2, line + 3, greatest], far),
            ("launch", None),
            ("configurationDone", None, ok(), launched(5), GO, stopped("entry")),
            STEP_IN,
            ("stackTrace", THREAD, stack((1, "f", line + 2), (2, "main", line), column=column)),
            set_lines(PATH_A, [line], placed((6, line, True))),
            BACK,
            set_lines(PATH_A, [line + 1], placed((7, line + 1, True))),
            CONTINUE,
            ("stackTrace", THREAD, stack((3, "main", line + 1), column=column)),
        ])


def sources():
    """The sources and their texts, from `initialize` to the exit."""
    text, unknown = ok({"content": "one\ntwo\nthree\n"}), fails("unknownSource")
    asked = [
        ("loadedSources", None, ok({"sources": [SOURCE_A]})),
        ("loadedSources", 7, ok({"sources": [SOURCE_A]})),
        ("source", {"sourceReference": 1}, text),
        ("source", {"sourceReference": 2}, unknown),
        ("source", {"sourceReference": 2147483647}, unknown),
        ("source", {"source": {"path": "/a.c", "sourceReference": 1}, "sourceReference": 7}, text),
        ("source", {"source": {"path": "/a.c", "sourceReference": 0}, "sourceReference": 1}, text),
        ("source", {"source": {"path": "/a.c"}, "sourceReference": 0}, unknown),
        ("source", {"source": None, "sourceReference": None}, unknown),
        ("source", None, unknown),
        ("source", {"source": {"sourceReference": 1}, "sourceReference": -1}, fails("badArguments", "sourceReference")),
        ("source", {"source": "/a.c", "sourceReference": 1}, fails("badArguments", "source")),
    ]
    for name, before in [
        ("before the start", INITIALIZED),
        ("while a launch waits", [*INITIALIZED, ("launch", None)]),
        ("in a stop", STOPPED),
        ("while it runs", [*STOPPED, HELD]),
        ("after the end", [*STOPPED, TERMINATE]),
    ]:
        rows(f"sources: {name}", [*before, *asked])
    rows("sources: before initialize", [(command, told, fails("notInitialized")) for command, told, _ in asked])
    odd = "\u0001\u00e9\"\\\u007f"
    told = [{"name": "b", "sourceReference": 1}, {"name": "", "path": "", "sourceReference": 2}]
    rows("sources: no path, and an empty one", [
        *INITIALIZED,
        ("loadedSources", None, ok({"sources": told})),
        ("source", {"sourceReference": 1}, ok({"content": ""})),
        ("source", {"sourceReference": 2}, ok({"content": odd})),
        set_lines({"sourceReference": 1}, [1], placed((1, 1, False))),
        set_lines({"path": ""}, [1, 2], placed((2, 1, True), (3, 2, False))),
    ], made_recording("unnamed", [{"name": "b", "text": ""}, {"name": "", "path": "", "text": odd}]))
    rows("sources: a line is there where some source of the path has it", [
        *INITIALIZED,
        set_lines({"path": "/a"}, [1, 2, 3], placed((1, 1, True), (2, 2, True), (3, 3, False))),
        set_lines({"sourceReference": 3}, [1, 2], placed((4, 1, True), (5, 2, False))),
        set_lines({"sourceReference": 4}, [1], placed((6, 1, False))),
        set_lines({"path": "/A"}, [1], placed((7, 1, False))),
    ], made_recording("shared", [{"name": "s", "path": "/a", "text": text} for text in ("\n", "1\n2", "1\n")]))


def made_recording(name, sources, scopes=()):
    """The path of a recording of one moment, at line 1 of the last source."""
    frames = [{"name": "main", "source": len(sources) - 1, "line": 1, "scopes": scopes}]
    moment = {"threads": [{"id": 1, "name": "main", "frames": frames}], "thread": 1}
    return file_of(name, {"exit": 0, "sources": sources, "moments": [moment]})


def too_large():
    """An answer as long as a body may be, and one that is a byte longer. What the latter would have named has no number."""
    large, small = fails("tooLarge"), ("--max-body", "1024")
    source = {"name": "a", "text": "a"}
    for unit, size in [("a", 1), ("\u0001", 6), ("\u00e9", 2), ("\"", 2), ("\U0001f333", 4)]:
        # Request 5 is answered by message 7.
        room = 1024 - len(written({**value("", 2)(5, "evaluate"), "seq": 7}))
        fits = "a" * (room % size) + unit * (room // size)
        for text, answers in [
            (fits, [value(fits, 2), scopes(("L", 3))]),
            (fits + "a", [large, scopes(("L", 2)), large] * 2),
        ]:
            asked = [("evaluate", in_frame(1, "v")), ("scopes", {"frameId": 1}), ("variables", number(2))] * 2
            held = [{"name": "v", "value": text, "variables": [{"name": "c", "value": "d"}]}]
            rows(f"too large: a value of {unit!r}, {len(text) - len(fits)} bytes more", [
                *INITIALIZED,
                ("launch", None),
                ("configurationDone", None, ok(), launched(2), stopped("entry")),
                ("stackTrace", THREAD, stack((1, "main", 1), source={"name": "a", "sourceReference": 1})),
                *[(*one, answer) for one, answer in zip(asked, answers)],
            ], made_recording("long", [source], [{"name": "L", "variables": held}]), small)
    for more in (0, 1):
        text = "a" * (1024 + more - len(written({**ok({"content": ""})(2, "source"), "seq": 3})))
        path = made_recording("text", [{"name": "a", "text": text}])
        asked = ("source", {"sourceReference": 1}, large if more else ok({"content": text}))
        rows(f"too large: a text, {more} bytes more", [*INITIALIZED, asked], path, small)
    path = made_recording("many", [{**source, "name": "a" * 200}] * 5)
    rows("too large: the sources", [*INITIALIZED, ("loadedSources", None, large)], path, small)


def look_around(guided):
    """Asks for all that is shown, down to the last variable."""
    for thread in guided.ask("threads")["threads"]:
        for shown in guided.ask("stackTrace", {"threadId": thread["id"]})["stackFrames"]:
            scopes = guided.ask("scopes", {"frameId": shown["id"]})["scopes"]
            left = [scope["variablesReference"] for scope in scopes]
            while left:
                for variable in guided.ask("variables", number(left.pop(0)))["variables"]:
                    left += [variable["variablesReference"]] * (variable["variablesReference"] > 0)
                    guided.ask("evaluate", in_frame(shown["id"], variable["name"]))


def walks():
    """All that each moment shows, there and back."""
    for path in RECORDINGS:
        guided = Guided(path)
        guided.ask("initialize", {"adapterID": "rec"})
        for place, _ in enumerate(guided.ask("loadedSources")["sources"]):
            guided.ask("source", {"sourceReference": place + 1})
        guided.ask("launch")
        guided.ask("configurationDone")
        thread = {"threadId": guided.ask("threads")["threads"][0]["id"]}
        last = len(recording_of(path)["moments"]) - 1
        for move in ["stepIn"] * last + ["stepBack"] * last + ["stepIn"] * (last + 1):
            look_around(guided)
            guided.ask(move, thread)
        guided.ask("loadedSources")
        guided.ask("disconnect")
        compare(guided, f"walks: {os.path.basename(path)}, {len(guided.requests)} requests")


def mixed():
    """Random sessions over each recording, and over random ones, under small limits."""
    paths = list(RECORDINGS)
    for seed in range(13):
        paths.append(file_of(f"random{seed}", random_recording(random.Random(seed))))
    for seed in range(12 * len(paths)):
        path = paths[seed % len(paths)]
        guided = mixed_session(random.Random(seed), path)
        compare(guided, f"mixed: {seed}, over {os.path.basename(path)}, {' '.join(guided.words)}")


def follow_session():
    """scripts/follow-session finds nothing wrong."""
    for path in RECORDINGS:
        status, _, err = output_of([FOLLOW, "--program", DAP, "--recording", path], timeout=300)
        expect(f"follow-session {os.path.basename(path)}", (status, err), (0, b""))


GROUPS = {
    "references": references,
    "values": values,
    "terminals": terminals,
    "breakpoints": breakpoints,
    "sources": sources,
    "too_large": too_large,
    "walks": walks,
    "mixed": mixed,
    "follow_session": follow_session,
}
