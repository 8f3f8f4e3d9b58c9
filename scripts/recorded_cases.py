"""What scripts/record makes of sessions, as a group of scripts/try-program. Expected recordings and lines are written out by
hand, or are those that a session was played from. Played recordings are in recorded_sessions.py."""
import json
import os
import resource

from recorded_sessions import RECORD, again, broken, by_moves, examples, live, live_ends
from trial import FOLDER, MISSING, bound, bytes_of, expect, expect_in, file_of, fine, output_of, recording_of, run, try_rows

TEXT = "one\ntwo\nthree\n"
PATH = os.path.join(FOLDER, "there.c")
SOURCE = {"name": "there.c", "path": PATH}
GONE = {"name": "gone.c", "path": "/nowhere/gone.c"}
NO_GONE = "the text of /nowhere/gone.c is not to be had: it gets empty lines"


def record(*words, **more):
    return output_of([RECORD, *words], **more)


def text_of(steps):
    """A transcript: of a step with two parts an event, and of one with more a request and its answer, in which `None` is no
    body and `False` a failure; of a text the line itself."""
    lines, count = [], 0
    for step in steps:
        count += 1
        if isinstance(step, str):
            lines.append(step)
        elif len(step) == 2:
            lines.append("< " + json.dumps({"seq": count, "type": "event", "event": step[0], "body": step[1]}))
        else:
            command, arguments, body = step
            lines.append("> " + json.dumps({"seq": count, "type": "request", "command": command, "arguments": arguments}))
            answer = {"seq": count, "type": "response", "request_seq": count, "success": body is not False}
            lines.append("< " + json.dumps({**answer, "command": command, "body": body}))
    return "\n".join(lines).encode()


def stopped(thread=1, reason="step", **told):
    return ("stopped", {"reason": reason, "threadId": thread, **told})


def threads(*ids):
    return ("threads", None, {"threads": [{"id": one, "name": f"t{one}"} for one in ids]})


def frame(number, line=1, source=None, name="f", **more):
    return {"id": number, "name": name, "line": line, "column": 1, "source": source or GONE, **more}


def stack(*frames, thread=1, **more):
    return ("stackTrace", {"threadId": thread, **more}, {"stackFrames": list(frames), "totalFrames": len(frames)})


def scopes(number, *holders, **more):
    """The scopes of a frame, each a name and a reference."""
    told = [{"name": name, "variablesReference": reference, "expensive": False, **more} for name, reference in holders]
    return ("scopes", {"frameId": number}, {"scopes": told})


def variable(name, value="v", reference=0, **more):
    return {"name": name, "value": value, "variablesReference": reference, **more}


def variables(reference, *told, **more):
    return ("variables", {"variablesReference": reference, **more}, {"variables": list(told)})


def evaluated(expression, result, frame=5, **more):
    return ("evaluate", {"expression": expression, "frameId": frame}, {"result": result, "variablesReference": 0, **more})


def evaluations(moments, *inner):
    """The moments, with what was evaluated in the one frame as its last scope."""
    moments[0]["threads"][0]["frames"][0].setdefault("scopes", []).append(scope("Evaluations", *inner))
    return moments


def named(name, *inner, value="v", more=None):
    """A variable of a recording."""
    return {"name": name, "value": value, **with_more(more), **({"variables": list(inner)} if inner else {})}


def with_more(more):
    return {"more": more} if more else {}


def wrote(text, category="stdout"):
    return ("output", {"category": category, "output": text})


def in_frame(*inner, name="f", line=1, source=0, more=None):
    return {"name": name, "source": source, "line": line, **with_more(more), **({"scopes": list(inner)} if inner else {})}


def scope(name, *inner, more=None):
    return {"name": name, **with_more(more), **({"variables": list(inner)} if inner else {})}


def moment(*frames, thread=1, name="t1", **more):
    return {"threads": [{"id": thread, "name": name, "frames": list(frames)}], "thread": thread, **more}


BEGIN = [threads(1)]
STOP = [stopped(), stack(frame(5))]
EXITED = ("exited", {"exitCode": 0})


def looked(*steps):
    """A stop with one frame, whose scopes are at 7 and 8."""
    return [*BEGIN, *STOP, scopes(5, ("A", 7), ("B", 8)), *steps, EXITED]


def of_looked(*inner, more=()):
    return [moment(in_frame(scope("A", *inner), scope("B", *more)))]


def deep(depth):
    """Variables of which each holds the next one, so many in all: what is said, and what is recorded."""
    told = [variables(7 if k == 0 else 100 + k, variable(f"n{k}", reference=101 + k)) for k in range(depth)]
    told[-1][2]["variables"][0]["variablesReference"] = 0
    return told, depth


def nested(depth, start=0):
    """The first so many of them."""
    inner = [nested(depth - 1, start + 1)] if depth > 1 else []
    return named(f"n{start}", *inner)


UNASKED = "{} cut: nobody asked for all that they hold"

# Of each a session, the moments of its recording, and what is said beside NO_GONE.
STOPS = [
    ("one stop", [*BEGIN, *STOP, EXITED], [moment(in_frame())]),
    ("threads that nobody asked for", [*STOP, EXITED], [moment(in_frame(), name="thread 1")]),
    (
        "names of threads come from before", [*BEGIN, *STOP, stopped(), stack(frame(6)), EXITED],
        [moment(in_frame()), moment(in_frame())],
    ),
    (
        "several threads", [stopped(2), threads(3, 2, 1), stack(frame(1), thread=1), stack(frame(2), thread=2), EXITED],
        [{"threads": [{"id": one, "name": f"t{one}", "frames": [in_frame()]} for one in (2, 1)], "thread": 2}],
        "stop 1: 1 thread left out: nobody asked for their frames",
    ),
    (
        "the thread that stopped has no frames", [stopped(2), threads(1, 2), stack(frame(1)), stack(thread=2), EXITED],
        [moment(in_frame())], "stop 1: nobody asked for the frames of thread 2: thread 1 is in its place",
        "stop 1: 1 thread left out: nobody asked for their frames",
    ),
    (
        "threads of the greatest ids",
        [stopped(2**53 - 1), stack(frame(1), thread=2**53 - 1), stack(frame(2), thread=2**53), EXITED],
        [moment(in_frame(), thread=2**53 - 1, name=f"thread {2**53 - 1}")],
    ),
    (
        "a stop that nobody looked into",
        [*BEGIN, wrote("a"), stopped(reason="entry"), threads(1), wrote("b"), *STOP, EXITED],
        [moment(in_frame(), output="ab")], "stop 1 (entry) is left out: nobody asked for its frames",
    ),
    (
        "output before the first stop, between two and after the last one",
        [*BEGIN, wrote("a\n"), wrote("b"), *STOP, wrote("c"), *STOP, wrote("lost"), EXITED],
        [moment(in_frame(), output="a\nb"), moment(in_frame(), output="c")],
        "4 characters of output after the last stop are left out",
    ),
    (
        "output of other categories",
        [
            *BEGIN, wrote("a"), wrote("b", "stderr"), wrote("x", "console"), ("output", {"output": "y"}),
            wrote("z", "telemetry"), *STOP, EXITED,
        ],
        [moment(in_frame(), output="ab")], "1 piece of output of the category stderr: as stdout",
        "2 pieces of output of the category console left out", "1 piece of output of the category telemetry left out",
    ),
    (
        "threads that are asked for after the end",
        [*BEGIN, *STOP, ("continue", {"threadId": 1}, None), EXITED, ("threads", None, {"threads": []})],
        [moment(in_frame())],
    ),
    (
        "a pause of the client", [*BEGIN, *STOP, ("pause", {"threadId": 1}, None), *STOP, *STOP, EXITED],
        [moment(in_frame()), moment(in_frame(), waits=True), moment(in_frame())],
    ),
    (
        "a restart", [("launch", {}, None), *BEGIN, *STOP, ("restart", {}, None), *STOP, EXITED],
        [moment(in_frame()), moment(in_frame())],
        "the program was started again after stop 1: its stops follow those before",
    ),
    (
        "a stop within a stop", [stopped(1), threads(1, 2), stopped(2), stack(frame(1), thread=2), EXITED],
        [moment(in_frame(), thread=2, name="t2")], "stop 1 (step) is left out: nobody asked for its frames",
    ),
    (
        "a stack in parts, and one more time",
        [
            *BEGIN, stopped(), stack(frame(1, 1), levels=1), stack(frame(2, 2), frame(3, 3), startFrame=1),
            stack(frame(9, 9)), EXITED,
        ],
        [moment(in_frame(), in_frame(line=2), in_frame(line=3))],
    ),
    (
        "a stack that was asked for in part",
        [
            *BEGIN, stopped(), ("stackTrace", {"threadId": 1, "levels": 1}, {"stackFrames": [frame(1)], "totalFrames": 4}),
            EXITED,
        ],
        [moment(in_frame())], "stop 1: 3 frames of thread 1 left out: nobody asked for them",
    ),
    (
        "failures, and answers to nothing",
        [
            *BEGIN, *STOP, ("scopes", {"frameId": 5}, False),
            '< {"type":"response","request_seq":99,"success":true,"body":{}}', EXITED,
        ],
        [moment(in_frame())],
    ),
]
LATE_SCOPES = '{"scopes":[{"name":"late","variablesReference":3}]}'
HELD = [
    (
        "variables in variables",
        looked(variables(7, variable("a", "1"), variable("b", "{}", 9)), variables(9, variable("c")), variables(8)),
        of_looked(named("a", value="1"), named("b", named("c"), value="{}")),
    ),
    (
        "what nobody opened", looked(variables(7, variable("a", reference=9))), of_looked(named("a")),
        "stop 1: " + UNASKED.format("1 scope and 1 variable"),
    ),
    (
        "a value that was set",
        looked(
            variables(7, variable("a", "1")), variables(8),
            ("setVariable", {"variablesReference": 7, "name": "a", "value": "2"}, {"value": "2"}),
            variables(7, variable("a", "2")),
        ),
        of_looked(named("a", value="1")),
    ),
    (
        "variables in parts",
        looked(
            variables(7, variable("c", "2"), start=2, count=2),
            variables(7, variable("a", "0"), variable("b", "1"), start=0, count=2), variables(8),
        ),
        of_looked(named("a", value="0"), named("b", value="1"), named("c", value="2")),
    ),
    (
        "variables by filter, and a part of some",
        looked(
            variables(7, variable("a", reference=9, indexedVariables=7, namedVariables=1)),
            variables(9, variable("[0]"), filter="indexed", start=0, count=1), variables(9, variable("len"), filter="named"),
            variables(8),
        ),
        of_looked(named("a", named("len"), named("[0]"))), "stop 1: " + UNASKED.format("1 variable"),
    ),
    (
        "a variable that holds itself",
        looked(variables(7, variable("a", reference=9)), variables(9, variable("a", reference=9)), variables(8)),
        of_looked(named("a", named("a"))), "stop 1: 1 cyclic reference cut: a variable that holds what it is in",
    ),
    (
        "a variable that holds its scope",
        looked(variables(7, variable("a", reference=7)), variables(8, variable("b", reference=7))),
        of_looked(named("a"), more=[named("b", named("a"))]),
        "stop 1: 2 cyclic references cut: a variable that holds what it is in",
    ),
    (
        "two variables that hold the same",
        looked(
            variables(7, variable("a", reference=9), variable("b", reference=9)), variables(9, variable("c")), variables(8),
        ),
        of_looked(named("a", named("c")), named("b", named("c"))),
    ),
    (
        "an answer that comes again with other references, as of debugpy",
        looked(
            variables(7, variable("a", "1", 9)), variables(7, variable("a", "2", 10)), variables(10, variable("c")),
            variables(8),
        ),
        of_looked(named("a", named("c"), value="1")),
    ),
    (
        "scopes that come again with other references",
        [*BEGIN, *STOP, scopes(5, ("A", 7)), scopes(5, ("A", 9)), variables(9, variable("a")), EXITED],
        [moment(in_frame(scope("A", named("a"))))],
    ),
    (
        "a frame that comes again with another id",
        [
            *BEGIN, *STOP, stack(frame(6)), scopes(6, ("A", 7)), variables(7, variable("a", "1")), evaluated("a", "1", 6),
            EXITED,
        ],
        [moment(in_frame(scope("A", named("a", value="1"))))],
    ),
    ("as deep as may be", looked(*deep(59)[0], variables(8)), of_looked(nested(59))),
    ("deeper", looked(*deep(61)[0], variables(8)), of_looked(nested(59)), "stop 1: 1 variable cut: nested deeper than 59"),
    (
        "numbers that come again for the next frame, as of LLDB",
        [
            *BEGIN, stopped(), stack(frame(1), frame(2)), scopes(1, ("L", 1)), variables(1, variable("a")),
            scopes(2, ("L", 1)), variables(1, variable("b")), EXITED,
        ],
        [moment(in_frame(scope("L", named("a"))), in_frame(scope("L", named("b"))))],
    ),
    (
        "a number of two frames that was opened once, as of Ruby's debug",
        [
            *BEGIN, stopped(), stack(frame(1), frame(2)), scopes(1, ("G", 1)), scopes(2, ("G", 1)),
            variables(1, variable("a")), EXITED,
        ],
        [moment(in_frame(scope("G", named("a"))), in_frame(scope("G", named("a"))))],
    ),
    (
        "evaluations",
        looked(
            variables(7, variable("a", "1"), variable("a", "2")), variables(8, variable("b", "3")), evaluated("a", "1"),
            evaluated("b", "3"), evaluated("b", "0x3"), evaluated("a + b", "4"),
            ("evaluate", {"expression": "c", "frameId": 5}, False),
            ("evaluate", {"expression": "a"}, {"result": "1", "variablesReference": 0}),
        ),
        evaluations(
            of_looked(named("a", value="1"), named("a", value="2"), more=[named("b", value="3")]), named("a + b", value="4"),
        ),
        "stop 1: evaluation of 'b' left out: a variable of that name has another value",
        "stop 1: evaluation of 'a' left out: it names no frame of the stop",
    ),
    (
        "answers that come at the next stop",
        [
            *BEGIN, *STOP, '> {"seq":90,"type":"request","command":"scopes","arguments":{"frameId":5}}', *STOP,
            '< {"type":"response","request_seq":90,"success":true,"body":' + LATE_SCOPES + "}", EXITED,
        ],
        [moment(in_frame(scope("late"))), moment(in_frame())], "stop 1: " + UNASKED.format("1 scope"),
    ),
    (
        "bodies that are no such",
        [
            *BEGIN, stopped(), ("stackTrace", {"threadId": 1}, {"stackFrames": [7, frame(1)]}),
            ("stackTrace", {"threadId": "1"}, {"stackFrames": None}),
            ("scopes", {"frameId": 1}, {"scopes": [{"name": 3, "variablesReference": 7.5}, None]}), ("scopes", None, []),
            ("variables", {"variablesReference": True}, {"variables": {}}), EXITED,
        ],
        [moment(in_frame(scope("")))],
    ),
    (
        "half a character of UTF-16", [*BEGIN, stopped(), stack(frame(1, name="\ud800f")), EXITED],
        [moment(in_frame(name="?f"))],
    ),
]


# What a debugger says of an element beside its name, as the Specification has it or its own: what is kept, and what is not.
OF_FRAME = {"presentationHint": "subtle", "instructionPointerReference": "0x40", "moduleId": 3, "ownOfFrame": [1, None, "x"]}
NOT_OF_FRAME = {"endLine": 2, "endColumn": 9, "canRestart": True}
OF_SCOPE = {"presentationHint": "registers", "ownOfScope": {}}
NOT_OF_SCOPE = {"namedVariables": 1, "indexedVariables": 0, "source": GONE, "line": 1, "column": 1, "endLine": 2, "endColumn": 9}
HINT = {"kind": "property", "attributes": ["readOnly"], "visibility": "private"}
OF_VARIABLE = {"type": "int", "evaluateName": "p->a", "presentationHint": HINT, "memoryReference": "0x1000", "$own": True}
OF_EVALUATION = {"type": "long", "presentationHint": HINT, "memoryReference": "0x2000", "$own": False}
# The references to places are keys of later versions of it.
NOT_OF_VARIABLE = {"namedVariables": 0, "indexedVariables": 0, "declarationLocationReference": 5, "valueLocationReference": 6}
INT, LONG, EMPTY = {"type": "int"}, {"type": "long"}, {"type": "", "presentationHint": {}}
LABEL, LOCALS, LAZY = {"presentationHint": "label"}, {"presentationHint": "locals"}, {"presentationHint": {"lazy": True, **HINT}}
LOST = "stop 1: {} left out of `more`: with a float, or nested too deep".format


def deep_list(depth):
    return [deep_list(depth - 1)] if depth > 1 else []


def deep_with(depth, **more):
    """Variables of which each holds the next one, and of the last one more is said."""
    told, _ = deep(depth)
    told[-1][2]["variables"][0].update(more)
    return told


def nested_with(depth, more, start=0):
    """Those as they are recorded."""
    inner = [nested_with(depth - 1, more, start + 1)] if depth > 1 else []
    return named(f"n{start}", *inner, more=None if inner else more)


FIT = {"greatest": 2**64 - 1, "least": -(2**63), "deepest": deep_list(99), "true": True}
UNFIT = {"float": 0.5, "in": [{"x": 1e2}], "greater": 2**64, "less": -(2**63) - 1, "deeper": deep_list(100), "none": float("nan")}
BESIDE = [
    (
        "what is said beside each element",
        [
            *BEGIN, stopped(), stack(frame(5, **OF_FRAME, **NOT_OF_FRAME)), scopes(5, ("A", 7), **OF_SCOPE, **NOT_OF_SCOPE),
            variables(7, variable("a", "1", **OF_VARIABLE, **NOT_OF_VARIABLE)),
            evaluated("a + 1", "2", variablesReference=9, name="x", value="y", **OF_EVALUATION, **NOT_OF_VARIABLE),
            variables(9, variable("b", "3", **INT)), EXITED,
        ],
        evaluations(
            [moment(in_frame(scope("A", named("a", value="1", more=OF_VARIABLE), more=OF_SCOPE), more=OF_FRAME))],
            named("a + 1", named("b", value="3", more=INT), value="2", more=OF_EVALUATION),
        ),
    ),
    (
        "null beside, and what is empty",
        looked(variables(7, variable("a", type=None, own=None), variable("b", own=None, **EMPTY)), variables(8)),
        of_looked(named("a"), named("b", more=EMPTY)),
    ),
    (
        "what cannot stand beside", looked(variables(7, variable("a", **FIT, **UNFIT)), variables(8)),
        of_looked(named("a", more=FIT)), LOST("6 members"),
    ),
    (
        "such beside a frame and a scope",
        [*BEGIN, stopped(), stack(frame(5, **FIT, **UNFIT)), scopes(5, ("A", 7), x=0.5), variables(7), EXITED],
        [moment(in_frame(scope("A"), more=FIT))], LOST("7 members"),
    ),
    (
        "beside a variable that nests 58 deep",
        looked(*deep_with(58, type="int", own={"x": 1}, presentationHint=HINT), variables(8)),
        of_looked(nested_with(58, {"type": "int", "own": {"x": 1}})), LOST("1 member"),
    ),
    (
        "beside one that nests 59 deep", looked(*deep_with(59, type="int"), variables(8)), of_looked(nested(59)),
        LOST("1 member"),
    ),
    (
        "the first answer counts",
        looked(
            variables(7, variable("a", **INT), variable("b")), variables(7, variable("a", **LONG), variable("b", **LONG)),
            ("setVariable", {"variablesReference": 7, "name": "a", "value": "2"}, {"value": "2", **LONG}),
            variables(8), evaluated("a", "v", **LONG), evaluated("x", "v", **INT), evaluated("x", "v", **LONG),
        ),
        evaluations(of_looked(named("a", more=INT), named("b")), named("x", more=INT)),
    ),
    (
        "a frame and a scope that come again",
        [
            *BEGIN, stopped(), stack(frame(5, **LABEL)), stack(frame(6, **OF_FRAME)), scopes(6, ("A", 7), **LOCALS),
            scopes(5, ("A", 9), **OF_SCOPE), variables(9, variable("a", **INT)), EXITED,
        ],
        [moment(in_frame(scope("A", named("a", more=INT), more=LOCALS), more=LABEL))],
    ),
    (
        "a value that a client is to ask for",
        looked(
            variables(7, variable("a", reference=9, **LAZY), variable("b", reference=10, **LAZY)), variables(9, variable("")),
            variables(8),
        ),
        of_looked(named("a", named(""), more=LAZY), named("b", more={"presentationHint": HINT})),
        "stop 1: " + UNASKED.format("1 variable"),
    ),
]


def sessions():
    """What becomes of stops, and of what was looked into there."""
    for name, steps, moments, *said in STOPS + HELD + BESIDE:
        recorded(name, steps, {"exit": 0, "moments": moments}, [NO_GONE, *said])


OUT = os.path.join(FOLDER, "out.json")


def recorded(name, steps, wanted, said):
    """The recording of a session: its keys that are named, and what is said of it. `dap serve` takes it."""
    status, told, err = record(OUT, "--from", text_of(steps))
    expect(f"record: {name}: ends well", (status, told), (0, b""))
    *lines, last = err.decode().splitlines()
    expect(f"record: {name}: what is said", sorted(lines), sorted(f"record: {line}" for line in said))
    made = recording_of(OUT)
    expect(f"record: {name}", {key: made[key] for key in wanted}, wanted)
    try_rows([(f"record: {name}: is served", ["serve", OUT], fine())])
    counts = [f"{len(made[key])} {key[:-1]}{'s' * (len(made[key]) != 1)}" for key in ("moments", "sources")]
    expect(f"record: {name}: the last line", last, f"record: {OUT}: {', '.join(counts)}, exit code {made['exit']}")
    return made


def exits():
    long = "the exit code {} has more than 32 bits with a sign: it becomes {}".format
    for name, codes, code, *said in [
        ("no exit", [], 0, "no event `exited` came: the exit code is 0"),
        ("an exit", [3], 3),
        ("two exits", [3, 4], 4),
        ("the least exit code", [-(2**31)], -(2**31)),
        ("the greatest", [2**31 - 1], 2**31 - 1),
        ("one without a sign", [0xC0000005], -1073741819, long(0xC0000005, -1073741819)),
        ("one that is too small", [-(2**31) - 1], 2**31 - 1, long(-(2**31) - 1, 2**31 - 1)),
        ("an exit that is no number", [3, "4"], 3),
    ]:
        steps = [*BEGIN, *STOP, *[("exited", {"exitCode": one}) for one in codes]]
        recorded(name, steps, {"exit": code}, [NO_GONE, *said])


def empty(path):
    """A source of one empty line."""
    return {"name": os.path.basename(path), "path": path, "text": "\n"}


def sources():
    """Texts: from the client's `source`, from this disk, or empty lines."""
    file_of("there.c", TEXT)
    odd = file_of("odd.c", b"one\r\n\xfftwo")
    asked = ("source", {"source": {**SOURCE, "sourceReference": 4}, "sourceReference": 4}, {"content": "from the adapter"})
    asked_by_number = ("source", {"sourceReference": 9}, {"content": "x"})
    numbered, by_number = {**SOURCE, "sourceReference": 4}, {"name": "made", "sourceReference": 9}
    there = {**SOURCE, "text": TEXT, "onDisk": True}
    odd_source = {"name": "odd.c", "path": odd, "text": "one\r\n\ufffdtwo\n\n", "onDisk": True}
    past = "line {} of {} is past the {} lines of its text: it gets empty lines".format
    none = "the text of {} is not to be had: it gets empty lines".format
    line_1 = "{} has no line {}: line 1 is in its place".format
    no_utf_8 = f"{odd} is not UTF-8: each byte that is none is replaced"
    for name, source, line, before, wanted, said in [
        ("a file", SOURCE, 3, [], there, []),
        ("a file, and a name that is not told", {"path": PATH}, 1, [], there, []),
        ("a file of another name", {**SOURCE, "name": "x"}, 1, [], {**there, "name": "x"}, []),
        ("a line past the end", SOURCE, 5, [], {**there, "text": TEXT + "\n\n"}, [past(5, PATH, 3)]),
        ("a line past an end without LF", {"path": odd}, 3, [], odd_source, [past(3, odd, 2), no_utf_8]),
        ("a file that the client asked for", numbered, 1, [asked], {**SOURCE, "text": "from the adapter"}, []),
        ("a file with a number, not asked for", numbered, 1, [], {**SOURCE, "text": TEXT}, []),
        ("a source with a number alone", by_number, 1, [asked_by_number], {"name": "made", "text": "x"}, []),
        ("a source that is not to be had", by_number, 4, [], {"name": "made", "text": "\n" * 4}, [none("made")]),
        ("a path that is not absolute", {"path": "README.md"}, 1, [], empty("README.md"), [none("README.md")]),
        ("a folder", {"path": FOLDER}, 1, [], empty(FOLDER), [none(FOLDER)]),
        ("a device", {"path": "/dev/zero"}, 1, [], empty("/dev/zero"), [none("/dev/zero")]),
        ("no source", {"origin": "x"}, 0, [], {"name": "no source", "text": "\n"}, [none("no source")]),
        ("line 0", SOURCE, 0, [], there, [line_1(PATH, 0)]),
        ("a line that is very great", SOURCE, 2**40, [], there, [line_1(PATH, 2**40)]),
    ]:
        steps = [*BEGIN, stopped(), stack(frame(1, line, source)), *before, EXITED]
        made = recorded(name, steps, {"sources": [wanted]}, said)
        wanted_line = line if 1 <= line <= 10**6 else 1
        expect(f"record: {name}: the line", made["moments"][0]["threads"][0]["frames"][0]["line"], wanted_line)
    lines_from_0()


def lines_from_0():
    first = ("initialize", {"adapterID": "x", "linesStartAt1": False}, {})
    steps = [first, *BEGIN, stopped(), stack(frame(1, 0, SOURCE), frame(2, 2, SOURCE)), EXITED]
    recorded("lines that start at 0", steps, {"moments": [moment(in_frame(), in_frame(line=3))]}, [])
    steps = [*BEGIN, stopped(), stack(frame(1, 1, SOURCE)), EXITED]
    status, _, err = record("--remote", OUT, "--from", text_of(steps))
    expect("record --remote", (status, f"the text of {PATH} is not to be had".encode() in err), (0, True))
    expect("record --remote: the source", recording_of(OUT)["sources"], [{**SOURCE, "text": "\n"}])


def limits():
    """65536 sources, and one more; a recording that is too long."""
    for count, status in ((65536, 0), (65537, 3)):
        frames = [frame(k, 1, {"name": str(k)}) for k in range(count)]
        got = record(OUT, "--from", text_of([*BEGIN, stopped(), stack(*frames)]), "--remote")
        expect(f"record: {count} sources", got[0], status)
        if status:
            told = b"record: TooManySources: 65537, and a recording has at most 65536\n"
            expect("record: too many sources, by name", got[2], told)
        else:
            try_rows([("record: the most sources are served", ["serve", OUT], fine())])
    # A text of 23 million bytes in the transcript, which is held by three variables.
    shared = variables(7, *(variable(name, reference=9) for name in "abc"))
    steps = looked(shared, variables(9, variable("long", "v" * 23000000)))
    status, _, err = record(OUT, "--from", text_of(steps))
    expect("record: too long", status, 3)
    expect_in("record: too long, by name", err, b"record: FileTooLong: the recording would have 690")


def faults():
    """Each fault by its name, with its status. The file is as it was before, and nothing is left beside it."""
    good = text_of([*BEGIN, *STOP, EXITED])
    for name, transcript, status, told in [
        ("a missing file", MISSING, 5, f"Read: {MISSING}: No such file or directory"),
        ("a folder", FOLDER, 5, f"Read: {FOLDER}: Is a directory"),
        ("a device without end", "/dev/zero", 3, "FileTooLong: /dev/zero"),
        ("no bytes", b"", 3, "NoMessage: no line of {} has one"),
        ("empty lines", b"\n\r\n\n", 3, "NoMessage: no line of {} has one"),
        ("a line of no side", good + b"\nx\n", 3, f"BadLine: line {good.count(10) + 2} of {{}}"),
        ("no JSON", b"\n> {\n", 3, "NotJson: line 2 of {}"),
        ("JSON that is too deep", b"> " + b"[" * 100000, 3, "NotJson: line 1 of {}"),
        ("no object", b"< []", 3, "NotObject: line 1 of {}"),
        ("no stop", text_of([*BEGIN, EXITED]), 3, "NoStop: 0 stops, and nobody asked for the frames of one"),
        ("a stop alone", text_of([stopped(), *BEGIN]), 3, "NoStop: 1 stop, and nobody asked for the frames of one"),
    ]:
        with_fault(name, transcript, status, told)
    places(good)
    usage()


def with_fault(name, transcript, status, told):
    os.makedirs(os.path.join(FOLDER, "faults"), exist_ok=True)
    out = file_of("faults/out.json", b"before")
    if isinstance(transcript, bytes):
        transcript = file_of("faults/transcript", transcript)
        told = told.format(transcript)
    expect(f"record: {name}", record(out, "--from", transcript), (status, b"", f"record: {told}\n".encode()))
    expect(f"record: {name}: the file is as before", bytes_of(out), b"before")
    beside = set(os.listdir(os.path.dirname(out)))
    expect(f"record: {name}: nothing beside it", beside <= {"transcript", "out.json"}, True)


def places(good):
    """Where the recording goes: places that cannot be written, with a transcript and with an adapter, which is not started."""
    path, started = file_of("transcript", good), os.path.join(FOLDER, "started")
    for name, out, told in [
        ("a folder that is none", os.path.join(FOLDER, "none", "x"), "No such file or directory"),
        ("a folder", FOLDER, "it is no file"),
        ("a device", "/dev/null", "it is no file"),
        ("a name that is no folder's", os.path.join(path, "x"), "Not a directory"),
    ]:
        wanted = (5, b"", f"record: Write: {out}: {told}\n".encode())
        expect(f"record: into {name}", record(out, "--from", path), wanted)
        expect(f"record: into {name}, of an adapter", record(out, "--", "touch", started), wanted)
    expect("record: an adapter is not started for nothing", os.path.exists(started), False)
    # A file of another's: a link stays a link, and a full disk changes nothing.
    link, out = os.path.join(FOLDER, "link.json"), file_of("out.json", b"before")
    os.symlink(out, link)
    with open(out, "rb") as held:
        expect("record: into a link", record(link, "--from", path)[0], 0)
        expect("record: who reads the file meanwhile reads all of the old one", held.read(), b"before")
    expect("record: a link is one still", (os.path.islink(link), run(["serve", out])), (True, fine()))
    file_of("out.json", b"before")
    got = record(out, "--from", path, **bound(resource.RLIMIT_FSIZE, 50))
    expect("record: a full disk", got, (5, b"", f"record: Write: {out}: File too large\n".encode()))
    expect("record: a full disk: the file is as before", bytes_of(out), b"before")
    left = [name for name in os.listdir(FOLDER) if name.startswith("out.json.")]
    expect("record: a full disk: nothing beside it", left, [])
    status, _, err = record(out, "--from", good + b"\n! this transcript is cut: the reason\n")
    told = err.splitlines()[0]
    expect("record: a transcript that is cut", (status, told), (0, b"record: this transcript is cut: the reason"))


WRONG_WORDS = ["", "x", "x --from", "x y --from", "x --from y z", "--from y", "x --", "-- true", "x y -- true"]
WRONG_WORDS += ["x --from y -- true", "--far --from y", "--far -- true"]


def usage():
    line = b"usage: scripts/record OUT.json [--remote] (--from TRANSCRIPT | -- COMMAND..); --help says more\n"
    for words in map(str.split, WRONG_WORDS):
        expect(f"record: usage of {words}", record(*words), (2, b"", line))
    status, out, err = record("--help")
    expect("record --help", (status, err), (0, b""))
    parts = b"a restart", b"several threads", b"after the last stop", b"`exited`", b"--remote"
    expect_in("record --help: the cases", out, *parts)
    for name, command, status, told in [
        ("is none", MISSING, 5, f"Start: {MISSING}: No such file or directory"),
        ("says nothing", "false", 3, "NoMessage: none came, and the adapter ended with status 1"),
    ]:
        got = record(OUT, "--", command)
        expect(f"record: an adapter that {name}", got, (status, b"", f"record: {told}\n".encode()))


def recorded_group():
    sessions()
    exits()
    sources()
    limits()
    faults()
    again()
    by_moves()
    examples()
    live()
    live_ends()
    broken()


GROUPS = {"recorded": recorded_group}
