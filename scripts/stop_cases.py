"""A group of scripts/try-program: recordings whose moments have reasons of their own, by `stop`, `description` and `text`.

Recordings and rows are written out by hand, from "Keys" and "How it is played" of docs/RECORDINGS.md.
"""
from trial import RECORDINGS, fault, file_of, fine, try_rows
from try_sessions import CONTINUE, EXIT, GONE, HELD, INITIALIZED, PAUSE, THREAD, launched, ok, placed, rows, set_lines, tells, value

TEXT = "".join(f"{line}\n" for line in range(1, 10))
SOURCE = {"path": "/s.c"}


def at(*lines, thread=1, **more):
    """A moment with a frame at each of these lines, the newest first."""
    frames = [{"name": f"f{line}", "source": 0, "line": line} for line in lines]
    return {"threads": [{"id": thread, "name": "t", "frames": frames}], "thread": thread, **more}


def recording(*moments):
    return {"exit": 0, "sources": [{"name": "s.c", "path": "/s.c", "text": TEXT}], "moments": list(moments)}


def stopped(reason, thread=1, **texts):
    """The stop at a moment with this reason and these texts."""
    return tells("stopped", {"allThreadsStopped": True, **texts, "reason": reason, "threadId": thread})


def wrote(text):
    return tells("output", {"category": "stdout", "output": text})


def goes(command, *told, thread=1):
    """A move, and what comes behind its response."""
    return (command, {"threadId": thread}, ok({"allThreadsContinued": True}) if command == "continue" else ok(), *told)


def at_line(line, depth, id):
    """The stack of a thread: the newest frame's line, how many frames there are, and the number that it has."""
    frame = {"column": 1, "id": id, "line": line, "name": f"f{line}", "source": {"name": "s.c", "path": "/s.c", "sourceReference": 1}}
    return ("stackTrace", {**THREAD, "levels": 1}, ok({"stackFrames": [frame], "totalFrames": depth}))


def started(*told, lines=(), thread=1):
    """Up to the first stop, with breakpoints at these lines; it is told with this."""
    before = [set_lines(SOURCE, lines, placed(*[(n, line, True) for n, line in enumerate(lines, 1)]))] * bool(lines)
    return [*INITIALIZED, *before, ("launch", None), ("configurationDone", None, ok(), launched(len(before) + 2), *told)]


ENTRY = [stopped("entry", thread=1)]
STEP = [stopped("step")]
CRASH = {"stop": "exception", "description": "SIGSEGV", "text": "Segmentation fault"}
CRASHED = [stopped("exception", description="SIGSEGV", text="Segmentation fault")]
LONG = {"stop": "x" * 64, "description": "d" * 128, "text": "\u00e9" * 64}

# Of each its name, the moments, and what is said of them.
FORTH = [
    (
        "a crash met by continue", [at(1), at(5, 1), at(7, 1, output="a", **CRASH), at(2)],
        [*started(*ENTRY), goes("continue", wrote("a"), *CRASHED), at_line(7, 2, 1), EXIT],
    ),
    (
        "a breakpoint in a deeper call met by next", [at(1), at(7, 1, stop="breakpoint"), at(8, 1), at(2)],
        [
            *started(*ENTRY), goes("next", stopped("breakpoint")), at_line(7, 2, 1), goes("next", *STEP), at_line(8, 2, 2),
            goes("next", *STEP), at_line(2, 1, 3), goes("next", *GONE),
        ],
    ),
    (
        "a reason where next ends", [at(1), at(2, stop="breakpoint"), at(3)],
        [*started(*ENTRY), goes("next", stopped("breakpoint")), goes("next", *STEP), at_line(3, 1, 1)],
    ),
    (
        "next ends before it", [at(1), at(2), at(7, 2, stop="breakpoint"), at(3)],
        [*started(*ENTRY), goes("next", *STEP), at_line(2, 1, 1), goes("next", stopped("breakpoint")), at_line(7, 2, 2)],
    ),
    (
        "one at moment 0", [at(1, output="a", **CRASH), at(2)],
        [*started(wrote("a"), *CRASHED), at_line(1, 1, 1), goes("next", *STEP), EXIT],
    ),
    (
        "one on the way of stepOut", [at(7, 1), at(8, 1, stop="signal"), at(9, 8, 1, stop="goto"), at(2)],
        [
            *started(*ENTRY), goes("stepOut", stopped("signal")), at_line(8, 2, 1), goes("stepOut", stopped("goto")),
            at_line(9, 3, 2), goes("stepOut", *STEP), at_line(2, 1, 3), goes("stepOut", *GONE),
        ],
    ),
    (
        "one where stepOut ends, and one behind it", [at(7, 1), at(2, stop="pause"), at(3, **CRASH)],
        [*started(*ENTRY), goes("stepOut", stopped("pause")), at_line(2, 1, 1), goes("stepOut", *CRASHED)],
    ),
    (
        "stepIn goes onto one, and onto the next moment as ever", [at(1), at(7, 1, **CRASH), at(2), at(3, stop="step")],
        [*started(*ENTRY), goes("stepIn", *CRASHED), goes("stepIn", *STEP), at_line(2, 1, 1), goes("stepIn", *STEP)],
    ),
    (
        "several: the least", [at(1), at(7, 1, stop="a"), at(8, 1, stop="b"), at(2, stop="c"), at(3)],
        [
            *started(*ENTRY), goes("continue", stopped("a")), goes("next", stopped("b")), goes("stepOut", stopped("c")),
            at_line(2, 1, 1), EXIT,
        ],
    ),
    (
        "the last moment", [at(1), at(2, stop="exit soon")],
        [*started(*ENTRY), goes("continue", stopped("exit soon")), EXIT],
    ),
    (
        "a breakpoint before one, one before a breakpoint, and both at once",
        [at(1), at(2), at(3, **CRASH), at(4), at(4, stop="function breakpoint"), at(5)],
        [
            *started(*ENTRY, lines=[2, 4]), CONTINUE, at_line(2, 1, 1), goes("continue", *CRASHED), CONTINUE,
            at_line(4, 1, 2), goes("continue", stopped("function breakpoint")), EXIT,
        ],
    ),
    (
        "output on the way, up to the one of it", [at(1), at(2, output="a"), at(3, output="b", stop="x"), at(4, output="c")],
        [*started(*ENTRY), goes("continue", wrote("a"), wrote("b"), stopped("x")), goes("continue", wrote("c"), *GONE)],
    ),
    (
        "the thread is the moment's", [at(1), at(2, 1, thread=7, **CRASH)],
        [
            *started(*ENTRY),
            goes("next", stopped("exception", thread=7, description="SIGSEGV", text="Segmentation fault")),
            goes("continue", *GONE, thread=7),
        ],
    ),
]
HELD_ON_THE_WAY = [
    (
        "a waiting moment before one", [at(1), at(2, waits=True), at(3, **CRASH)],
        [*started(*ENTRY), HELD, PAUSE, at_line(2, 1, 1), goes("continue", *CRASHED), at_line(3, 1, 2)],
    ),
    (
        "a waiting moment with texts and no reason", [at(1), at(7, 1, waits=True, description="d", text="t"), at(3)],
        [*started(*ENTRY), goes("next"), PAUSE, goes("next", *STEP)],
    ),
    (
        "a waiting moment behind one", [at(1), at(2, stop="x"), at(3, waits=True), at(4)],
        [*started(*ENTRY), goes("continue", stopped("x")), HELD, PAUSE, at_line(3, 1, 1)],
    ),
    (
        "one that waits itself is stopped at, and not held", [at(1), at(2, waits=True, **CRASH), at(3)],
        [*started(*ENTRY), goes("continue", *CRASHED), EXIT],
    ),
    (
        "one that waits, behind another waiting moment", [at(1), at(2, waits=True), at(3, waits=True, stop="pause"), at(4)],
        [*started(*ENTRY), HELD, PAUSE, at_line(2, 1, 1), goes("continue", stopped("pause")), at_line(3, 1, 2)],
    ),
]
BACK = [
    (
        "reverseContinue goes by one", [at(1), at(2, **CRASH), at(3), at(4)],
        [
            *started(*ENTRY, lines=[4]), goes("continue", *CRASHED), CONTINUE, at_line(4, 1, 1),
            goes("reverseContinue", *ENTRY), at_line(1, 1, 2),
        ],
    ),
    (
        "moves back onto one", [at(1, stop="start"), at(2, **CRASH), at(3)],
        [
            *started(stopped("start"), lines=[2]), goes("stepIn", *CRASHED), goes("stepIn", *STEP), goes("stepBack", *STEP),
            at_line(2, 1, 1), goes("next", *STEP), goes("reverseContinue", stopped("breakpoint")), at_line(2, 1, 2),
            goes("reverseContinue", *ENTRY), goes("stepBack", *STEP), at_line(1, 1, 3),
        ],
    ),
]
TEXTS = [
    (
        "a description, and a text", [at(1), at(2, stop="x", description="d"), at(3, stop="x", text="t"), at(4, stop="x")],
        [
            *started(*ENTRY), goes("continue", stopped("x", description="d")), goes("continue", stopped("x", text="t")),
            goes("continue", stopped("x")),
        ],
    ),
    (
        "texts without a reason count for nothing", [at(1, description="d", text="t"), at(2, description="d"), at(3, text="t")],
        [*started(*ENTRY, lines=[3]), goes("next", *STEP), CONTINUE, at_line(3, 1, 1), EXIT],
    ),
    (
        "empty ones", [at(1), at(2, stop="", description="", text="")],
        [*started(*ENTRY), goes("continue", stopped("", description="", text=""))],
    ),
    (
        "as long as may be", [at(1, **LONG), at(2)],
        [*started(stopped("x" * 64, description="d" * 128, text="\u00e9" * 64)), goes("next", *STEP)],
    ),
    (
        "characters that are escaped", [at(1, stop='a"\\\n', description="\u0001\t", text="\U0001f333\u2028/"), at(2)],
        [*started(stopped('a"\\\n', description="\u0001\t", text="\U0001f333\u2028/")), EXIT],
    ),
]


def stops():
    for place, (name, moments, told) in enumerate([*FORTH, *HELD_ON_THE_WAY, *BACK, *TEXTS]):
        rows(f"stops: {name}", told, file_of(f"stops{place}", recording(*moments)))
    lengths()
    crash()


def lengths():
    """Each text as long as may be, and a byte longer; and one of another kind."""
    for key, most in (("stop", 64), ("description", 128), ("text", 128)):
        for text, wanted in [
            ("", fine()),
            ("c" * most, fine()),
            ("\u00e9" * (most // 2), fine()),
            ("c" * (most + 1), fault("BadKey")),
            ("\u00e9" * (most // 2) + "c", fault("BadKey")),
            (None, fault("BadKey")),
            (1, fault("BadKey")),
            (["x"], fault("BadKey")),
        ]:
            path = file_of("lengths", recording(at(1), at(2, **{key: text})))
            told = f"{len(text.encode())} bytes, {text[:2]!r}" if isinstance(text, str) else repr(text)
            try_rows([(f"stops: {key} has {told}", ["serve", path], wanted)])


def crash():
    """The recording of the examples, as its program would be debugged: each move ends at the next moment."""
    source = {"name": "crash.c", "path": "/tmp/crash.c", "sourceReference": 1}

    def shown(id, line, callee):
        told = [("first", 4)] * callee + [("main", line)]
        frames = [{"column": 1, "id": id + n, "line": at, "name": name, "source": source} for n, (name, at) in enumerate(told)]
        return ("stackTrace", THREAD, ok({"stackFrames": frames, "totalFrames": len(frames)}))

    rows("stops: crash.json", [
        *started(*ENTRY),
        goes("next", stopped("breakpoint")),
        shown(1, 8, True),
        ("evaluate", {"expression": "*text", "frameId": 1}, value("97 'a'")),
        goes("stepOut", wrote("97\n"), *STEP),
        shown(3, 9, False),
        goes("continue", *CRASHED),
        shown(4, 9, True),
        ("evaluate", {"expression": "text", "frameId": 4}, value("0x0")),
        goes("continue", tells("exited", {"exitCode": 139}), tells("terminated")),
    ], next(path for path in RECORDINGS if path.endswith("crash.json")))


GROUPS = {"stops": stops}
