"""Cases of scripts/try-program: the line that explains a fault, for each fault and each subcommand.

Expected texts are written out here by hand; what is shown of an input's bytes is escaped by a model of a few lines. None is
the program's own output.
"""
import copy
import json
import os

from slow_check import MAX_FILE
from trial import ANSWER, BAD_BODIES, BAD_FRAMES, FIRST, FOLDER, HERE, RECORDING, THREADS, fault, file_of, fine, frame
from trial import long_file, request_frame, try_rows, with_files

SHORT = {9: "\\t", 10: "\\n", 13: "\\r", 34: '\\"', 92: "\\\\"}


def excerpt(data):
    """At most 60 bytes between quotes, and three dots where there are more."""
    shown = "".join(SHORT.get(b) or (chr(b) if 32 <= b <= 126 else f"\\x{b:02x}") for b in data[:60])
    return f'"{shown}"' + ("..." if len(data) > 60 else "")


def explained(rows):
    """The fault's own line is as ever; with --explain the other one follows. Nothing else changes. A row has the fault, the
    other line, in which FILE is the first file that is made, what was written before, and the input and full streams."""
    for name, words, told, why, *more in rows:
        names = with_files(*words)
        path = next((name for name, word in zip(names, words) if isinstance(word, bytes)), "")
        out, *given = more or [b""]
        status, out, err = fault(told, out)
        both = status, out, err + why.replace("FILE", path).encode() + b"\n"
        alone = [(f"explain: {name}, without it", names, (status, out, err), *given)] if len(given) < 2 else []
        try_rows([*alone, (f"explain: {name}", [*names, "--explain"], both, *given)])


VARIABLES = [{"name": "v", "value": "1", "variables": []}]
TOP = {"name": "f", "source": 0, "line": 2, "scopes": [{"name": "l", "variables": VARIABLES}]}
OTHER = {"id": -7, "name": "other", "frames": [{"name": "g", "source": 1, "line": 1}]}
GOOD = {
    "exit": 0,
    "sources": [{"name": "a", "text": "one\ntwo\n"}, {"name": "b", "text": "x"}],
    "moments": [
        {"threads": [{"id": 1, "name": "main", "frames": [TOP]}, OTHER], "thread": 1},
        {"threads": [{"id": 1, "name": "main", "frames": [{"name": "f", "source": 0, "line": 1}]}], "thread": 1},
    ],
}
GONE = object()
RANGE = "from 0 to 2147483647"
IDS = "from -9007199254740991 to 9007199254740991"


def changed(path, value):
    """The good recording with another value at a path, or without one."""
    data = copy.deepcopy(GOOD)
    inner = data
    for step in path[:-1]:
        inner = inner[step]
    if value is GONE:
        del inner[path[-1]]
    else:
        inner[path[-1]] = value
    return json.dumps(data).encode()


def place(path):
    return "".join(f"[{step}]" if isinstance(step, int) else f".{step}" for step in path).lstrip(".")


FRAME = ["moments", 0, "threads", 0, "frames", 0]
SCOPE = [*FRAME, "scopes", 0]
VARIABLE = [*SCOPE, "variables", 0]
BAD_KEYS = [
    (["exit"], GONE, "absent"),
    (["exit"], "0", "a string, not a number"),
    (["exit"], None, "null, not a number"),
    (["exit"], 2147483648, "2147483648, not from -2147483648 to 2147483647"),
    (["exit"], -2147483649, "-2147483649, not from -2147483648 to 2147483647"),
    (["exit"], 1.5, "a number, not a whole one from -2147483648 to 2147483647"),
    (["exit"], 2**63, "a number, not a whole one from -2147483648 to 2147483647"),
    (["sources"], GONE, "absent"),
    (["sources"], {}, "an object, not an array"),
    (["sources"], [{}] * 65537, "65537 elements, more than 65536"),
    (["sources", 1], [], "an array, not an object"),
    (["sources", 1, "name"], True, "a boolean, not a string"),
    (["sources", 1, "path"], None, "null, not a string"),
    (["sources", 0, "text"], GONE, "absent"),
    (["sources", 0, "onDisk"], "no", "a string, not a boolean"),
    (["moments"], GONE, "absent"),
    (["moments"], [], "an empty array"),
    (["moments", 1], None, "null, not an object"),
    (["moments", 1, "threads"], GONE, "absent"),
    (["moments", 1, "threads"], 1, "a number, not an array"),
    (["moments", 1, "threads", 0], "t", "a string, not an object"),
    (["moments", 0, "threads", 1, "id"], 1, "1 is the id of an earlier thread"),
    (["moments", 0, "threads", 1, "id"], 2**53, f"9007199254740992, not {IDS}"),
    (["moments", 0, "threads", 1, "id"], 0.5, f"a number, not a whole one {IDS}"),
    (["moments", 0, "threads", 1, "name"], GONE, "absent"),
    (["moments", 0, "threads", 1, "frames"], [], "an empty array"),
    ([*FRAME[:-1], 0], 5, "a number, not an object"),
    ([*FRAME, "name"], GONE, "absent"),
    ([*FRAME, "source"], 2, "2 is not below 2, the number of sources"),
    ([*FRAME, "source"], -1, f"-1, not {RANGE}"),
    ([*FRAME, "source"], "0", "a string, not a number"),
    ([*FRAME, "line"], 3, "3 is past the text's 2 lines"),
    (["moments", 0, "threads", 1, "frames", 0, "line"], 2, "2 is past the text's 1 line"),
    ([*FRAME, "line"], 0, "0, not from 1 to 2147483647"),
    ([*FRAME, "line"], 2147483648, "2147483648, not from 1 to 2147483647"),
    ([*FRAME, "scopes"], {}, "an object, not an array"),
    (SCOPE, [], "an array, not an object"),
    ([*SCOPE, "name"], GONE, "absent"),
    ([*SCOPE, "variables"], "", "a string, not an array"),
    (VARIABLE, False, "a boolean, not an object"),
    ([*VARIABLE, "value"], 1, "a number, not a string"),
    ([*VARIABLE, "variables"], [{"name": "w", "value": "2", "variables": [{"name": "x"}]}], None),
    ([*FRAME, "more"], None, "null, not an object"),
    ([*SCOPE, "more"], [], "an array, not an object"),
    ([*VARIABLE, "more"], {"type": "double", "x": 1.5}, "an object with a float, or nested more than 100 deep"),
    (["moments", 1, "thread"], 7, "7 is no thread of the moment"),
    (["moments", 1, "thread"], "1", "a string, not a number"),
    (["moments", 0, "output"], 1, "a number, not a string"),
    (["moments", 0, "waits"], 1, "a number, not a boolean"),
    (["moments", 0, "stop"], 1, "a number, not a string"),
    (["moments", 1, "stop"], None, "null, not a string"),
    (["moments", 1, "stop"], "x" * 70, "a text of 70 bytes, not at most 64"),
    (["moments", 0, "stop"], "\u00e9" * 32 + "x", "a text of 65 bytes, not at most 64"),
    (["moments", 0, "description"], False, "a boolean, not a string"),
    (["moments", 1, "description"], "\U0001f333" * 33, "a text of 132 bytes, not at most 128"),
    (["moments", 0, "text"], {}, "an object, not a string"),
    (["moments", 1, "text"], "\n" * 129, "a text of 129 bytes, not at most 128"),
]
# A bad value of each key of a moment, in the order in which they are tested. The first is named, wherever it is in the file.
OF_A_MOMENT = [
    ("threads", 1, "a number, not an array"),
    ("thread", None, "null, not a number"),
    ("output", 1, "a number, not a string"),
    ("waits", "", "a string, not a boolean"),
    ("stop", "x" * 65, "a text of 65 bytes, not at most 64"),
    ("description", [], "an array, not a string"),
    ("text", "x" * 129, "a text of 129 bytes, not at most 128"),
]


TURN = b"turn\n"


def recordings():
    try_rows([("explain: the recording that is changed is good", ["serve", json.dumps(GOOD).encode()], fine())])
    rows = []
    for path, value, told in BAD_KEYS:
        where = place(path)
        if told is None:
            where, told = where + "[0].variables[0].value", "absent"
        rows += [(f"{where}, {told}", changed(path, value), "BadKey", f"{where}: {told}")]
    for first, (key, _, told) in enumerate(OF_A_MOMENT):
        bad = {key: value for key, value, _ in reversed(OF_A_MOMENT[first:])}
        moment = {**bad, **{key: value for key, value in GOOD["moments"][0].items() if key not in bad}}
        where = f"moments[0].{key}"
        rows += [(f"{where} is the first bad one", changed(["moments", 0], moment), "BadKey", f"{where}: {told}")]
    # The first bad key in the order of the format is told, not the first of the file.
    told = "exit: a number, not a whole one from -2147483648 to 2147483647"
    explained([("the first of three", ["serve", b'{"moments":1,"sources":2,"exit":3.5}'], "BadKey", f"FILE: {told}")])
    for content, name, told in [
        (b"{", "NotJson", "no JSON"),
        (b"", "NotJson", "no JSON"),
        (b"\xff", "NotJson", "no JSON"),
        (b"[]", "NotObject", "an array, not an object"),
        (b"null", "NotObject", "null, not an object"),
        (b"17", "NotObject", "a number, not an object"),
    ]:
        rows += [(f"{content}", content, name, told)]
    for name, content, told, why in rows:
        explained([
            (name, ["serve", content], told, f"FILE: {why}"),
            (f"drive: {name}", ["drive", content, TURN], "Recording", f"FILE: {why}"),
        ])


# What is no frame or no message, with its fault and what is shown of it.
LONG = b'{"seq":"' + b"x" * 100 + b'"}'
BAD = BAD_FRAMES + [(frame(body), name, body) for body, name in [*BAD_BODIES, (b"", "NotJson"), (LONG, "BadSeq")]]
IN_WORDS = {
    "BadHeader": "a line of the header block is no header field",
    "NoLength": "no header field is named Content-Length",
    "TwoLengths": "more than one header field is named Content-Length",
    "BadLength": "the value of Content-Length is no number",
    "BodyTooLong": "the body is longer than its limit",
    "HeaderTooLong": "the header block does not end within its limit",
    "NotJson": "the body is no JSON",
    "NotObject": "the body is no object",
    "BadSeq": "seq is absent or no number of 0 to 9007199254740991",
    "BadType": "type is absent or no string",
    "BadCommand": "command is absent, no string, or longer than 64 bytes",
    "BadRequestSeq": "request_seq is absent or no number of 0 to 9007199254740991",
    "BadSuccess": "success is absent or no boolean",
    "BadEvent": "event is absent or no string",
    "BadMessage": "message is no string",
}


AT = len(frame(THREADS))


def streams():
    first = frame(THREADS)
    for tool, out in [("show", b"0 1 request threads\n"), ("unwrap", THREADS + b"\n")]:
        for bad, name, shown in BAD:
            told, why = f"{name} at {AT}", f"at {AT}: {excerpt(shown)}"
            name = f"{told}, {shown[:20]}"
            explained([
                (f"{tool}: {name}", [tool, first + bad + first], told, f"FILE: {why}", out),
                (f"{tool} -: {name}", [tool, "-"], told, f"standard input: {why}", out, first + bad + first),
            ])
        explained([(f"{tool}: cut short", [tool, first[:50]], "Truncated", "FILE: ends within a frame")])


def lines():
    long = THREADS[:-1] + b',"arguments":{"a":"' + b"x" * 1024 + b'"}}'
    for name, words, told, text in [
        ("wrap: NotObject", ["wrap", THREADS + b"\n[1]\n"], "NotObject at line 2", b"[1]"),
        ("wrap: NotJson", ["wrap", b"\r\n\n{\r\n"], "NotJson at line 3", b"{"),
        ("wrap: BadSeq", ["wrap", LONG], "BadSeq at line 1", LONG),
        ("wrap: too long", ["wrap", long, "--max-body", "1024"], "BodyTooLong at line 1", long),
        ("check: BadLine", ["check", b"> " + THREADS + b"\n= {}\n"], "BadLine at line 2", b"= {}"),
        ("check: NotJson", ["check", b"> " + THREADS + b"\n\n< {\n"], "NotJson at line 3", b"< {"),
        ("check: BadLine", ["check", b">{}"], "BadLine at line 1", b">{}"),
    ]:
        explained([(name, words, told, f"FILE: {told.partition(' at ')[2]}: {excerpt(text)}")])
    begins = " begins a frame: dap show lists a stream of them, and "
    begins += "scripts/transcripts streams UP DOWN makes a transcript of both directions"
    for name, text, line, shown, more in [
        ("a stream", FIRST, 1, FIRST.partition(b"\r\n")[0], begins),
        ("a stream behind an empty line", b"\n" + FIRST, 2, FIRST.partition(b"\r\n")[0], begins),
        ("a field without its colon", b"Content-Length 12\r\n\r\n", 1, b"Content-Length 12", ""),
        ("a field that is not at the front", b" Content-Length: 12", 1, b" Content-Length: 12", ""),
    ]:
        why = f"FILE: line {line}: {excerpt(shown)}{more}"
        explained([(f"check: {name}", ["check", text], f"BadLine at line {line}", why)])


# A script up to a stop, and what is refused behind it: the words, the fault, the line that is shown, and why.
TO_STOP = b"send initialize {}\nrun\nsend launch\nsend configurationDone\nrun\n"
BIG = b'send initialize {"adapterID":"' + b"x" * 1024 + b'"}'
EARLY, ENDED = ": the session is in another phase", ": the session has ended"
SCRIPTS = [
    (b"\nrun\nnone\n", [], "Script at line 3", b"none", ""),
    (b"send none\n", [], "Script at line 1", b"send none", ""),
    (b"send initialize {\n", [], "Script at line 1", b"send initialize {", ""),
    (b'send initialize {"linesStartAt1":1}\n', [], "Call at line 1", b'send initialize {"linesStartAt1":1}', ""),
    (b"terminal ok\n", [], "Call at line 1", b"terminal ok", ""),
    (b"send launch\n", [], "WrongPhase at line 1", b"send launch", EARLY),
    (b"send initialize {}\nsend disconnect\nsend threads\n", [], "WrongPhase at line 2", b"send disconnect", EARLY),
    (b"send initialize {}\nrun\nsend disconnect\nsend threads\n", [], "Ended at line 4", b"send threads", ENDED),
    (TO_STOP + b"send restart\n", [], "NotSupported at line 6", b"send restart", ": the adapter does not offer it"),
    (
        TO_STOP + b'send continue {"threadId":1}\nsend scopes {"frameId":1}\n',
        [], "NotStopped at line 7", b'send scopes {"frameId":1}', ": the debuggee is not stopped",
    ),
    (
        TO_STOP + b'send scopes {"frameId":99}\n',
        [], "UnknownReference at line 6", b'send scopes {"frameId":99}', ": a reference is not known",
    ),
    (BIG + b"\n", ["--max-body", "1024"], "TooLarge at line 1", BIG, ": the body is longer than its limit"),
    (
        b"send initialize {}\nrun\nsend threads\nsend threads\nsend threads\n",
        ["--max-requests", "2"], "Full at line 5", b"send threads", ": no more requests may wait",
    ),
]


def scripts():
    rows = [(f"drive: {told}", *row) for row in SCRIPTS for told in row[2:3]]
    early = b"send initialize {}\nsend threads\n"
    rows += [("drive: too early", early, [], "WrongPhase at line 2", b"send threads", EARLY)]
    for name, content, words, told, text, why in rows:
        line = told.partition(" at ")[2]
        explained([(name, ["drive", RECORDING, content, *words], told, f"FILE: {line}: {excerpt(text)}{why}")])
    # One number a side: the second message of either is refused.
    words = ["drive", RECORDING, b"send initialize {}\nrun\n", "--max-seq", "1"]
    told = "FILE: the adapter has no sequence number left for what is due"
    explained([("drive: the adapter's numbers", words, "Adapter", told)])


NO_READ = "standard input: cannot be read"
NO_WRITE = "standard output: cannot be written"


def serving():
    serve, launch = ["serve", RECORDING], request_frame(2, "launch")
    response = frame(b'{"seq":2,"type":"response","request_seq":1,"success":true,"command":"threads"}')
    try_rows([("explain: serve: initialize", serve, fine(ANSWER), FIRST)])
    at = len(FIRST)
    for bad, name, _ in BAD:
        told = f"standard input: at {at}: {IN_WORDS[name]}"
        explained([(f"serve: {name}, {bad[:20]}", serve, f"{name} at {at}", told, ANSWER, FIRST + bad)])
    again = "standard input: request 2 again, while request 2 has no response"
    unmatched = "standard input: response to request 1, which does not wait for one"
    no_number = "standard input: no sequence number is left for what is due"
    explained([
        ("serve: a repeated seq", serve, "RepeatedSeq", again, ANSWER, FIRST + launch + launch),
        ("serve: a response", serve, "Unmatched", unmatched, ANSWER, FIRST + response),
        ("serve: cut short", serve, "Truncated", "standard input: ends within a frame", b"", FIRST[:50]),
        ("serve: no number", [*serve, "--max-seq", "1"], "SeqExhausted", no_number, b"", FIRST),
        ("serve: a full device", serve, "Write", f"{NO_WRITE}, after 0 bytes", b"", FIRST, ["stdout"]),
        ("serve: it cannot be read", serve, "Read", NO_READ, b"", HERE, []),
    ])


def files():
    script = file_of("turn.script", TURN)
    locked = file_of("locked", b"")
    os.chmod(locked, 0)
    rows = [(os.path.join(FOLDER, "none", "count.json"), "no such file"), (FOLDER, "is a directory")]
    rows += [(os.path.join(FOLDER, "a\nb\x7f"), "no such file"), (os.path.join(script, "x"), "cannot be opened")]
    rows += [(locked, "permission denied")] * (os.geteuid() != 0)
    for path, told in rows:
        words = [[tool, path] for tool in ("serve", "show", "unwrap", "wrap", "check")]
        why = f"{path}: {told}".replace("\n", "?").replace("\x7f", "?")
        for one in [*words, ["drive", path, script], ["drive", RECORDING, path]]:
            explained([(f"{one[0]}: {told}", one, "Read", why)])
    path = long_file(MAX_FILE + 1)
    for tool in ("serve", "show", "unwrap", "wrap", "check"):
        explained([(f"{tool}: too long", [tool, path], "FileTooLong", f"{path}: longer than 67108864 bytes")])
    os.remove(path)
    for tool, content in [("show", frame(THREADS)), ("unwrap", frame(THREADS)), ("wrap", THREADS), ("check", b"")]:
        explained([
            (f"{tool}: standard input cannot be read", [tool, "-"], "Read", NO_READ, b"", HERE, []),
            (f"{tool}: a full device", [tool, content], "Write", NO_WRITE, b"", b"", ["stdout"]),
        ])


def explain():
    recordings()
    streams()
    lines()
    scripts()
    serving()
    files()


GROUPS = {"explain": explain}
