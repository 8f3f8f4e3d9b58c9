"""A group of scripts/try-program: sessions over recordings of the greatest sizes. What comes is counted out here."""
import json
import os

from trial import expect, file_of, frames_of, request, run, split

VARIABLES, SOURCES, MOMENTS, LINES = 70000, 65536, 16384, 65536
FAR = 7919  # a prime, so that the lines of moments that follow each other are far from each other
THREAD = {"threadId": 1}
STOPPED = [("initialize", {"adapterID": "rec", "supportsVariablePaging": True}), ("launch", {}), ("configurationDone", None)]


def moment(source=0, line=1, scopes=()):
    top = {"name": "main", "source": source, "line": line, "scopes": list(scopes)}
    return {"thread": 1, "threads": [{"id": 1, "name": "main", "frames": [top]}]}


def bodies(name, sources, moments, asked, *words):
    """What the responses to these requests have as their bodies, and the reasons of the stops, in their order."""
    path = file_of(name + ".json", {"exit": 0, "sources": sources, "moments": moments})
    requests = [request(seq, *one) for seq, one in enumerate(asked, 1)]
    status, out, err = run(["serve", path, *words], b"".join(frames_of(requests)))
    os.remove(path)
    expect(f"sizes, {name}: it ends", (status, err), (0, b""))
    messages = [json.loads(body) for _, body in split(out)]
    told = {one["request_seq"]: one.get("body") for one in messages if one["type"] == "response"}
    return [told[seq] for seq in range(1, len(asked) + 1)], [
        one["body"]["reason"] for one in messages if one.get("event") == "stopped"
    ]


def source(number):
    return {"name": f"s{number}.c", "path": f"/s{number}.c", "text": f"text {number}\n"}


def pages():
    """A scope of 70000 variables: each window has its own."""
    names = [f"v{number}" for number in range(VARIABLES)]
    scope = {"name": "Locals", "variables": [{"name": name, "value": "1"} for name in names]}
    windows = [(0, 100), (1, 1), (34999, 3), (69900, 100), (69999, 2), (70000, 1), (69998, 0)]
    asked = [("variables", {"variablesReference": 2, "start": start, "count": count}) for start, count in windows]
    looked = [*STOPPED, ("stackTrace", THREAD), ("scopes", {"frameId": 1}), *asked]
    told, _ = bodies("pages", [source(0)], [moment(scopes=[scope])], looked)
    for (start, count), body in zip(windows, told[5:]):
        wanted = names[start : start + count if count else None]
        expect(f"sizes, {count} variables from {start} on", [one["name"] for one in body["variables"]], wanted)


def sources():
    """Frames in the first and the last of 65536 sources."""
    moments = [moment(0), moment(SOURCES - 1)]
    asked = [("stackTrace", THREAD), ("next", THREAD), ("stackTrace", THREAD), ("source", {"sourceReference": SOURCES})]
    told, _ = bodies("sources", [source(number) for number in range(SOURCES)], moments, STOPPED + asked)
    for place, number in ((3, 0), (5, SOURCES - 1)):
        wanted = {"name": f"s{number}.c", "path": f"/s{number}.c", "sourceReference": number + 1}
        expect(f"sizes, the source of number {number + 1}", told[place]["stackFrames"][0]["source"], wanted)
    expect("sizes, the last text", told[6]["content"], f"text {SOURCES - 1}\n")


def passed():
    """65536 lines are set in the one source of 16384 moments, and at most one of them is reached: that of one moment. Moments
    are at odd lines, and the others are even."""
    lines = [2 * (place * FAR % MOMENTS) + 1 for place in range(MOMENTS)]
    moments = [moment(line=line) for line in lines]
    text = {"name": "a.c", "path": "/a.c", "text": "\n" * (2 * LINES)}
    even = [2 * place + 2 for place in range(LINES)]
    moves = [(move, THREAD) for move in ("continue", "stackTrace", "reverseContinue", "stackTrace")]
    for place in (1, 2, 8191, MOMENTS - 1):
        asked = [{"line": line} for line in [*even[:-1], lines[place]]]
        rows = [STOPPED[0], ("setBreakpoints", {"source": {"path": "/a.c"}, "breakpoints": asked}), *STOPPED[1:], *moves]
        told, reasons = bodies("lines", [text], moments, rows, f"--max-breakpoints={LINES}", "--max-body=16777216")
        name = f"sizes, a line that is set at moment {place}"
        expect(f"{name}: all are verified", all(one["verified"] for one in told[1]["breakpoints"]), True)
        expect(f"{name}: stops", reasons, ["entry", "breakpoint", "entry"])
        expect(f"{name}: where", [told[at]["stackFrames"][0]["line"] for at in (5, 7)], [lines[place], lines[0]])
    rows = [STOPPED[0], ("setBreakpoints", {"source": {"path": "/a.c"}, "lines": even}), *STOPPED[1:], moves[0]]
    _, reasons = bodies("lines", [text], moments, rows, f"--max-breakpoints={LINES}", "--max-body=16777216")
    expect("sizes, no line that is reached: stops", reasons, ["entry"])


def sizes():
    pages()
    sources()
    passed()


GROUPS = {"sizes": sizes}
