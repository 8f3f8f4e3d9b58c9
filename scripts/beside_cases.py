"""A group of scripts/try-program: what a recording tells beside its sources, threads, frames, scopes and variables, by `more`.

Recordings and rows are written out by hand, from "Keys" of docs/RECORDINGS.md and "Bodies of responses and events" of
docs/PROFILE.md.
"""
from stop_cases import ENTRY, SOURCE, recording, started
from trial import fault, file_of, fine, try_rows
from try_sessions import THREAD, assigning, in_frame, number, ok, rows

# Keys that an element has itself are in these too, with other values: none of them is told.
OF_FRAME = {"presentationHint": "label", "canRestart": False, "id": 9, "column": [1], "source": None}
OF_SCOPE = {"presentationHint": "locals", "namedVariables": 2, "variablesReference": 0, "expensive": True}
OF_X = {"type": "int", "memoryReference": "0x1000", "value": "9"}
OF_PAIR = {"type": "pair", "presentationHint": {"lazy": False, "attributes": ["readOnly"]}, "namedVariables": -1}
# References that a client would find in the body of `evaluate`. In an element of `variables` nobody looks for them.
AS_REFERENCES = {"scopes": [], "stackFrames": 0, "variables": [{"variablesReference": 7}]}


OF_THREAD = {"state": "idle", "id": 9, "name": None}
OF_SOURCE = {"origin": "made", "checksums": [{"algorithm": "MD5", "checksum": "0"}], "path": "/t.c", "sourceReference": 4}


def told(of_frame, of_scope, of_x, of_pair, of_thread, of_source):
    """A moment at line 2, with `x`, and `p` of one part."""
    parts = [{"name": "a", "value": "7"}]
    variables = [
        {"name": "x", "value": "1", "more": of_x},
        {"name": "p", "value": "(7)", "variables": parts, "more": of_pair},
    ]
    scopes = [{"name": "Locals", "variables": variables, "more": of_scope}]
    frame = {"name": "f", "source": 0, "line": 2, "scopes": scopes, "more": of_frame}
    thread = {"id": 1, "name": "t", "frames": [frame], "more": of_thread}
    whole = recording({"threads": [thread], "thread": 1})
    return {**whole, "sources": [{**whole["sources"][0], "more": of_source}]}


def sessions():
    source = {"origin": "made", "checksums": OF_SOURCE["checksums"], "name": "s.c", "sourceReference": 1, **SOURCE}
    frame = {"presentationHint": "label", "canRestart": False, "column": 1, "id": 1, "line": 2, "name": "f", "source": source}
    scope = {"presentationHint": "locals", "namedVariables": 2, "expensive": False, "name": "Locals", "variablesReference": 2}
    x = {"type": "int", "memoryReference": "0x1000", "name": "x", "value": "1", "variablesReference": 0}
    pair = {**OF_PAIR, "variablesReference": 3}
    part = {"name": "a", "value": "7", "variablesReference": 0}
    rows("beside: each element", [
        *started(*ENTRY),
        ("threads", {}, ok({"threads": [{"state": "idle", "id": 1, "name": "t"}]})),
        ("loadedSources", {}, ok({"sources": [source]})),
        ("stackTrace", THREAD, ok({"stackFrames": [frame], "totalFrames": 1})),
        ("scopes", {"frameId": 1}, ok({"scopes": [scope]})),
        ("variables", number(2), ok({"variables": [x, {**AS_REFERENCES, **pair, "name": "p", "value": "(7)"}]})),
        ("variables", number(3), ok({"variables": [part]})),
        ("evaluate", in_frame(1, "p"), ok({**pair, "result": "(7)"})),
        ("evaluate", in_frame(1, "x"), ok({**OF_X, "result": "1", "variablesReference": 0})),
        ("setVariable", assigning(2, "x", "2"), ok({**OF_X, "value": "2"})),
        ("variables", number(2), ok({"variables": [{**x, "value": "2"}, {**AS_REFERENCES, **pair, "name": "p", "value": "(7)"}]})),
    ], file_of("beside", told(OF_FRAME, OF_SCOPE, OF_X, {**OF_PAIR, **AS_REFERENCES}, OF_THREAD, OF_SOURCE)))


def nested(depth):
    """An object that nests so deep."""
    return {"x": nested(depth - 1)} if depth > 1 else {}


def refusals():
    for name, more, wanted in [
        ("none", {}, fine()),
        ("null in it", {"x": None}, fine()),
        ("null", None, fault("BadKey")),
        ("a list", [], fault("BadKey")),
        ("a text", "x", fault("BadKey")),
        ("a float", {"x": [{"y": 0.5}]}, fault("BadKey")),
        ("a whole number of more than 64 bits", {"x": 2**64}, fault("BadKey")),
        ("the greatest whole number", {"x": 2**64 - 1}, fine()),
        ("100 deep", nested(100), fine()),
        ("101 deep", nested(101), fault("BadKey")),
    ]:
        for place in range(6):
            given = [more if at == place else {} for at in range(6)]
            where = ("frame", "scope", "variable", "variable with parts", "thread", "source")[place]
            try_rows([(f"beside: a {where} has {name}", ["serve", file_of("more", told(*given))], wanted)])


def beside():
    sessions()
    refusals()


GROUPS = {"beside": beside}
