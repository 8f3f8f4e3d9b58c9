"""A group of scripts/try-program: what scripts/record makes of why a session stopped, and of what was evaluated there.

Sessions and expected recordings are written out by hand, with the words of recorded_cases.py.
"""
from recorded_cases import BEGIN, EXITED, GONE, NO_GONE, STOP, UNASKED, evaluated, evaluations, frame, in_frame, looked, moment
from recorded_cases import named, of_looked, recorded, scope, scopes, stack, stopped, variable, variables

# Why it stopped: where the same moves give another reason, or go by, the moment has its own.


def halted(reason, line=1, depth=1, thread=1, **told):
    """A stop, and its stack."""
    frames = [frame(1, line), *(frame(2 + k) for k in range(depth - 1))]
    return [stopped(thread, reason, **told), stack(*frames, thread=thread)]


def passed(line=1, depth=1, **more):
    return moment(in_frame(line=line), *[in_frame()] * (depth - 1), **more)


def goes(command, is_done=True):
    return [(command, {"threadId": 1}, None if is_done else False)]


def placed(*lines, source=GONE, is_done=True):
    asked = {"source": source, "breakpoints": [{"line": line} for line in lines]}
    return [("setBreakpoints", asked, {"breakpoints": []} if is_done else False)]


AT_ENTRY, ENTERED = [*BEGIN, *halted("entry")], passed()
CRASH = {"description": "SIGSEGV", "text": "Segmentation fault"}
GOES_BY = "stop 2: `{}` goes by it when it is played".format
LINES = ("setBreakpoints", {"source": GONE, "lines": [3]}, {})
NO_LINES = ("setBreakpoints", {"source": GONE, "breakpoints": [], "lines": [3]}, {})
NUMBER = {"name": "made", "sourceReference": 9}
NUMBERED = [moment(in_frame()), moment(in_frame(line=3, source=1))]
NO_MADE = "the text of made is not to be had: it gets empty lines"
BY_NUMBER = [stopped(reason="breakpoint"), stack(frame(1, 3, NUMBER))]
REASONS = [
    ("a start at the entry", AT_ENTRY, [ENTERED]),
    ("a start at a line that was set", [*BEGIN, *placed(3), *halted("breakpoint", 3)], [passed(3, stop="breakpoint")]),
    ("a start after a step", [*BEGIN, *halted("step")], [ENTERED]),
    (
        "a start at an entry that nobody looked into",
        [*BEGIN, *placed(3), stopped(reason="entry"), *goes("continue"), *halted("breakpoint", 3)],
        [passed(3, stop="breakpoint")], "stop 1 (entry) is left out: nobody asked for its frames",
    ),
    (
        "continue to a line that was set", [*placed(1, 3), *AT_ENTRY, *goes("continue"), *halted("breakpoint", 3, 2)],
        [ENTERED, passed(3, 2)],
    ),
    ("one set by `lines`", [LINES, *AT_ENTRY, *goes("continue"), *halted("breakpoint", 3)], [ENTERED, passed(3)]),
    (
        "`lines` beside `breakpoints` set none", [NO_LINES, *AT_ENTRY, *goes("continue"), *halted("breakpoint", 3)],
        [ENTERED, passed(3, stop="breakpoint")],
    ),
    (
        "continue to a line that was not set", [*placed(2), *AT_ENTRY, *goes("continue"), *halted("breakpoint", 3)],
        [ENTERED, passed(3, stop="breakpoint")],
    ),
    (
        "one set for another path",
        [*placed(3, source={"path": "/nowhere/./gone.c"}), *AT_ENTRY, *goes("continue"), *halted("breakpoint", 3)],
        [ENTERED, passed(3, stop="breakpoint")],
    ),
    (
        "one set by the source's number", [*placed(3, source=NUMBER), *AT_ENTRY, *goes("continue"), *BY_NUMBER], NUMBERED,
        NO_MADE,
    ),
    (
        "one that is set no more", [*placed(3), *AT_ENTRY, *placed(), *goes("continue"), *halted("breakpoint", 3)],
        [ENTERED, passed(3, stop="breakpoint")],
    ),
    (
        "one that could not be taken back",
        [*placed(3), *AT_ENTRY, *placed(is_done=False), *goes("continue"), *halted("breakpoint", 3)], [ENTERED, passed(3)],
    ),
    (
        "one set while it ran", [*AT_ENTRY, *goes("continue"), *placed(3), *halted("breakpoint", 3)],
        [ENTERED, passed(3, stop="breakpoint")],
    ),
    (
        "one taken back while it ran", [*placed(3), *AT_ENTRY, *goes("continue"), *placed(), *halted("breakpoint", 3)],
        [ENTERED, passed(3)],
    ),
    (
        "lines that start at 0",
        [
            ("initialize", {"linesStartAt1": False}, {}), *placed(2), *BEGIN, *halted("entry", 0), *goes("continue"),
            *halted("breakpoint", 2),
        ],
        [ENTERED, passed(3)],
    ),
    (
        "a function's breakpoint at a line that was set",
        [*placed(3), *AT_ENTRY, *goes("continue"), *halted("function breakpoint", 3)],
        [ENTERED, passed(3, stop="function breakpoint")],
    ),
    (
        "a crash met by continue", [*AT_ENTRY, *goes("continue"), *halted("exception", 3, 2, **CRASH)],
        [ENTERED, passed(3, 2, stop="exception", **CRASH)],
    ),
    (
        "steps", [
            *AT_ENTRY, *goes("next"), *halted("step", 2), *goes("stepIn"), *halted("step", 1, 2), *goes("next"),
            *halted("step", 2, 2, **CRASH), *goes("stepOut"), *halted("step", 3),
        ],
        [ENTERED, passed(2), passed(1, 2), passed(2, 2), passed(3)],
    ),
    (
        "a breakpoint in a deeper call met by next", [*placed(3), *AT_ENTRY, *goes("next"), *halted("breakpoint", 3, 2)],
        [ENTERED, passed(3, 2, stop="breakpoint")],
    ),
    (
        "one where next ends", [*placed(3), *AT_ENTRY, *goes("next"), *halted("breakpoint", 3)],
        [ENTERED, passed(3, stop="breakpoint")],
    ),
    (
        "one met by stepOut, and a signal met by stepIn",
        [
            *BEGIN, *halted("entry", 1, 2), *goes("stepOut"), *halted("breakpoint", 3, 3), *goes("stepIn"),
            *halted("signal", 2, 4),
        ],
        [passed(1, 2), passed(3, 3, stop="breakpoint"), passed(2, 4, stop="signal")],
    ),
    (
        "a step that ends in a deeper call", [*AT_ENTRY, *goes("next"), *halted("step", 2, 2)], [ENTERED, passed(2, 2)],
        GOES_BY("next"),
    ),
    (
        "one out of a function that ends in it", [*BEGIN, *halted("entry", 1, 2), *goes("stepOut"), *halted("step", 2, 2)],
        [passed(1, 2), passed(2, 2)], GOES_BY("stepOut"),
    ),
    (
        "a step that continue came to", [*AT_ENTRY, *goes("continue"), *halted("step", 2)], [ENTERED, passed(2)],
        GOES_BY("continue"),
    ),
    (
        "a pause of the client's", [*AT_ENTRY, *goes("continue"), *goes("pause"), *halted("pause", 2, 2, **CRASH)],
        [ENTERED, passed(2, 2, waits=True)],
    ),
    (
        "a pause of next in a deeper call", [*AT_ENTRY, *goes("next"), *goes("pause"), *halted("pause", 2, 2)],
        [ENTERED, passed(2, 2, waits=True)],
    ),
    (
        "a pause of next where it would end", [*AT_ENTRY, *goes("next"), *goes("pause"), *halted("pause", 2)],
        [ENTERED, passed(2, waits=True, stop="pause")],
    ),
    (
        "a pause at a line that was set", [*placed(3), *AT_ENTRY, *goes("continue"), *goes("pause"), *halted("pause", 3)],
        [ENTERED, passed(3, waits=True, stop="pause")],
    ),
    (
        "a pause with another reason",
        [*AT_ENTRY, *goes("continue"), *goes("pause"), *halted("signal", 2, description="SIGSTOP")],
        [ENTERED, passed(2, waits=True, stop="signal", description="SIGSTOP")],
    ),
    ("a pause that nobody asked for", [*AT_ENTRY, *goes("continue"), *halted("pause", 2)], [ENTERED, passed(2, stop="pause")]),
    ("a jump", [*AT_ENTRY, *goes("goto"), *halted("goto", 3)], [ENTERED, passed(3, stop="goto")]),
    (
        "a jump that failed", [*placed(3), *AT_ENTRY, *goes("goto", False), *goes("continue"), *halted("breakpoint", 3)],
        [ENTERED, passed(3)],
    ),
    (
        "a restart to the entry",
        [("launch", {}, None), *AT_ENTRY, ("restart", {}, None), *halted("entry"), *goes("next"), *halted("step", 2)],
        [ENTERED, passed(stop="entry"), passed(2)],
        "the program was started again after stop 1: its stops follow those before",
    ),
    (
        "moves back", [
            *AT_ENTRY, *goes("next"), *halted("step", 2), *goes("stepBack"), *halted("step"), *goes("reverseContinue"),
            *halted("entry", **CRASH), *goes("reverseContinue"), *halted("exception", **CRASH),
        ],
        [ENTERED, passed(2), ENTERED, ENTERED, ENTERED],
    ),
    (
        "a crash that is told once more", [*AT_ENTRY, *goes("next"), *halted("exception", 2), *halted("exception", 2)],
        [ENTERED, passed(2, stop="exception"), passed(2)],
    ),
    (
        "a crash of another thread in a stop", [*AT_ENTRY, *halted("exception", 2, thread=2)],
        [ENTERED, passed(2, thread=2, name="thread 2", stop="exception")],
    ),
    (
        "a move that failed", [*AT_ENTRY, *goes("next", False), *halted("breakpoint", 2)],
        [ENTERED, passed(2, stop="breakpoint")],
    ),
    (
        "texts that are too long",
        [
            *BEGIN, *halted("r" * 64, description="d" * 129, text="\u00e9" * 64), *goes("continue"),
            *halted("x" + "\u00e9" * 32, 2),
        ],
        [passed(stop="r" * 64, description="d" * 128, text="\u00e9" * 64), passed(2, stop="x" + "\u00e9" * 31)],
        "stop 1: description of 129 bytes cut: a recording has at most 128",
        "stop 2: reason of 65 bytes cut: a recording has at most 64",
    ),
    (
        "reasons that are none",
        [
            *BEGIN, *halted(None), *goes("next"), *halted(7, 2, **CRASH), *goes("next"),
            *halted("signal", 3, description=7, text=None),
        ],
        [passed(), passed(2), passed(3, stop="signal")],
    ),
    (
        "half a character of UTF-16 in a text", [*BEGIN, *halted("signal", text="\ud800", description="")],
        [passed(stop="signal", description="", text="?")],
    ),
]


# What was evaluated.


def holding(expression, result, reference, frame=5, **more):
    told = {"result": result, "variablesReference": reference, **more}
    return ("evaluate", {"expression": expression, "frameId": frame}, told)


P = [named("p", value="{..}"), named("n", value="1")]
OPENED = [variables(7, variable("p", "{..}", 9), variable("n", "1")), variables(8)]
EVALUATED = [
    (
        "names with a point, in the order in which they were asked, each once",
        looked(*OPENED[:1], variables(8), evaluated("p.b", "2"), evaluated("p.a", "1"), evaluated("p.b", "2"), variables(9)),
        evaluations(of_looked(*P), named("p.b", value="2"), named("p.a", value="1")),
    ),
    (
        "one with what it holds",
        looked(variables(7), variables(8), holding("f()", "[..]", 12), variables(12, variable("0", "x"))),
        evaluations(of_looked(), named("f()", named("0", value="x"), value="[..]")),
    ),
    (
        "one that nobody opened", looked(variables(7), variables(8), holding("f()", "[..]", 12)),
        evaluations(of_looked(), named("f()", value="[..]")), "stop 1: " + UNASKED.format("1 variable"),
    ),
    (
        "one that holds itself, and one that holds a scope",
        looked(
            variables(7), variables(8), holding("a", "v", 12), variables(12, variable("b", reference=12)), holding("c", "v", 7),
        ),
        evaluations(of_looked(), named("a", named("b")), named("c")),
        "stop 1: 1 cyclic reference cut: a variable that holds what it is in",
    ),
    (
        "one asked twice, with another value", looked(variables(7), variables(8), evaluated("i++", "1"), evaluated("i++", "2")),
        evaluations(of_looked(), named("i++", value="1")),
        "stop 1: evaluation of 'i++' left out: a variable of that name has another value",
    ),
    (
        "a variable that was opened where it was evaluated",
        looked(*OPENED, holding("p", "{..}", 12), variables(12, variable("a", "1"))),
        of_looked(named("p", named("a", value="1"), value="{..}"), P[1]),
    ),
    (
        "a variable of that name deeper down", looked(*OPENED, variables(9, variable("a", "1")), evaluated("a", "5")),
        evaluations(of_looked(named("p", named("a", value="1"), value="{..}"), P[1]), named("a", value="5")),
    ),
    (
        "a scope that nobody opened", looked(evaluated("n", "1"), variables(8)), evaluations(of_looked(), named("n", value="1")),
        "stop 1: " + UNASKED.format("1 scope"),
    ),
    (
        "a frame whose scopes nobody asked for", [*BEGIN, *STOP, evaluated("n", "1"), evaluated("", ""), EXITED],
        evaluations([moment(in_frame())], named("n", value="1"), named("", value="")),
    ),
    (
        "a frame below", [*BEGIN, stopped(), stack(frame(4), frame(5)), evaluated("n", "1"), EXITED],
        [moment(in_frame(), in_frame(scope("Evaluations", named("n", value="1"))))],
    ),
    (
        "a frame that comes again with another id, and one of no frame",
        [*BEGIN, *STOP, stack(frame(6)), evaluated("n", "1", 6), evaluated("n", "1", 7), EXITED],
        evaluations([moment(in_frame())], named("n", value="1")),
        "stop 1: evaluation of 'n' left out: it names no frame of the stop",
    ),
    (
        "a session that was played from one with evaluations",
        [*BEGIN, *STOP, scopes(5, ("Evaluations", 7)), variables(7, variable("n", "1")), evaluated("n", "1"), EXITED],
        evaluations([moment(in_frame())], named("n", value="1")),
    ),
]


def reasons():
    for name, steps, moments, *said in REASONS:
        recorded(name, [*steps, EXITED], {"exit": 0, "moments": moments}, [NO_GONE, *said])
    for name, steps, moments, *said in EVALUATED:
        recorded(name, steps, {"exit": 0, "moments": moments}, [NO_GONE, *said])


GROUPS = {"recorded_reasons": reasons}
