"""What scripts/transcripts makes, as a group of scripts/try-program. Expected lines are written out by hand."""
import os
import resource

from conversation import lines_of
from transcript_cases import LEGAL, check, found
from trial import DAP, EXAMPLES, FOLDER, HERE, bound, bytes_of, expect, expect_in, fault, fine, frame, output_of, run, split
from trial import with_files

MAKER = os.path.join(HERE, "scripts", "transcripts")


def made(*words, given=b"", **more):
    """What scripts/transcripts prints."""
    return output_of([MAKER, *words], given, **more)


def as_text(lines):
    return "".join(f"{line}\n" for line in lines).encode()


LOGS = [
    ("delve", '2026-01-01T00:00:00Z debug layer=dap [<- from client]{"a":1}\n', '> {"a":1}\n'),
    (
        "delve",
        '2026-01-01T00:00:00Z debug layer=dap [-> to client]{"a":"}\\n{"}\nlayer=dap config: {\n"b": 2}\n',
        '< {"a":"}\\n{"}\n',
    ),
    ("debugpy", 'D+00000.1: Client[1] --> {\n    "a": "b  c",\n    "d": [1, 2]\n}\n', '> {"a":"b  c","d":[1,2]}\n'),
    ("debugpy", 'D+00000.1: /handling/\n   Client[1] <-- {"a": 1}\nD+00000.2: Server[1] <-- {"a": 2}\n', '< {"a": 1}\n'),
    ("lldb", '<-- \nContent-Length: 7\r\n\r\n{"b":2}\n--> \nContent-Length: 7\r\n\r\n{"a":1}\n', '< {"b":2}\n> {"a":1}\n'),
    ("cpptools", '1: (105) <-- E (stopped): {"b":2}\n1: (107) --> C (next-7): {"a":1}\n', '< {"b":2}\n> {"a":1}\n'),
    ("tracker", '> {\n  "a": 1\n}\nhello > {\n< {"b":2}\n', '> {"a":1}\n< {"b":2}\n'),
]


def made_transcripts():
    """What scripts/transcripts makes of logs, of streams in an order that is told, and of a session that it watches."""
    for name, log, wanted in LOGS:
        expect(f"transcripts log {name}: {log[:50]!r}", made("log", name, log.encode()), fine(wanted.encode()))
    merged = "<*output >initialize <1+initialize <9x >threads >pause <3+pause <*output <2+threads >9+x >4disconnect"
    streams = [b"".join(frame(one[2:].encode()) for one in lines_of(merged) if one[0] == side) for side in "><"]
    wanted = as_text(lines_of(merged))
    expect("transcripts streams", made("streams", *streams), fine(wanted))
    merged_examples()
    late_logs()
    no_messages()
    cut_streams(streams, wanted)
    relayed_whole()
    relayed_in_part()


def merged_examples():
    """What the recorded streams are merged into."""
    for up, down, wanted, with_any in [
        ("editor-to-debugpy", "debugpy-to-editor", LEGAL, LEGAL),
        # Delve and LLDB number nothing, and Ruby's debug writes number 29 before 28.
        ("client-to-delve", "delve-to-client", found(2, 1), found(87, 7)),
        ("client-to-lldb", "lldb-to-client", found(2, 1), LEGAL),
        ("client-to-ruby", "ruby-to-client", found(52, 1), LEGAL),
    ]:
        streams = [os.path.join(EXAMPLES, "streams", name + ".dap") for name in (up, down)]
        _, text, err = made("streams", *streams)
        expect(f"transcripts streams: {down}", err, b"")
        expect(f"transcripts streams: {down}: checked", check(text), wanted)
        expect(f"transcripts streams: {down}: any seq", check(text, "--any-seq"), with_any)


# A session, and what it is in a log that has an answer behind the request which its client sent upon it.
WHOLE = lines_of("$open <*initialized >threads <+threads >disconnect")
LATE = [WHOLE[0], WHOLE[3], *WHOLE[1:3], *WHOLE[4:]]
DELVE = "2026-01-01T00:00:00Z debug layer=dap "
MARKS = {
    "debugpy": ("D+00000.1: Client[1] --> ", "D+00000.1: Client[1] <-- "),
    "lldb": ("--> \nContent-Length: 9\r\n\r\n", "<-- \nContent-Length: 9\r\n\r\n"),
    "cpptools": ("1: (105) --> C (x): ", "1: (105) <-- R (x): "),
    "delve": (DELVE + "[<- from client]", DELVE + "[-> to client]"),
    "tracker": ("> ", "< "),
}


def log_of(name, lines):
    return "".join(MARKS[name][line[0] == "<"] + line[2:] + "\n" for line in lines).encode()


def late_logs():
    """Where an adapter logs a message after it was written, both sides are merged. An order that is true stays."""
    for name in MARKS:
        stays = name in ("delve", "tracker")
        got = made("log", name, log_of(name, LATE))
        wanted = fine(as_text(LATE if stays else WHOLE))
        expect(f"transcripts log {name}: an answer that is logged late", got, wanted)
        expect(f"transcripts log {name}: checked", check(got[1]), found(2, 3) if stays else LEGAL)
        expect(f"transcripts log {name}: in order", made("log", name, log_of(name, WHOLE)), fine(as_text(WHOLE)))


def no_messages():
    """What has no message is an error that names it, and no empty transcript."""
    for name in MARKS:
        others = log_of("lldb" if name == "debugpy" else "debugpy", WHOLE)
        for what, log in (("no bytes", b""), ("other lines", b"hello\n--> x\n"), ("another's log", others)):
            words = with_files("log", name, log)
            told = f"transcripts: no message of the format {name} is in {words[2]}\n".encode()
            expect(f"transcripts log {name}: {what}", made(*words), (1, b"", told))
    words = with_files("streams", b"", b"")
    told = f"transcripts: no message is in {words[1]} or {words[2]}\n".encode()
    expect("transcripts streams: no bytes", made(*words), (1, b"", told))
    expect("transcripts streams: one side", made("streams", frame(WHOLE[0][2:].encode()), b""), fine(as_text(WHOLE[:1])))


def cut_streams(streams, wanted):
    """A stream that ends within a message: the last line says so, and is refused."""
    for place, more in [(0, b"Content-Le"), (1, frame(THREADS_BODY)[:-1])]:
        words = with_files("streams", *(stream + (more if k == place else b"") for k, stream in enumerate(streams)))
        reason = f"{words[1 + place]} ends within a message, after {len(more)} bytes of it\n".encode()
        got = made(*words)
        expect(f"transcripts streams: side {place} is cut", got, (0, wanted + CUT_LINE + reason, b"transcripts: " + reason))
        last = len(wanted.splitlines()) + 1
        expect(f"transcripts streams: side {place} is cut: checked", check(got[1]), fault(f"BadLine at line {last}"))
    words = with_files("streams", b"A: b\r\n\r\n", b"")
    told = f"transcripts: {words[1]} has a header without Content-Length\n".encode()
    expect("transcripts streams: no length", made(*words), (1, b"", told))


CUT_LINE = b"! this transcript is cut: "
THREADS_BODY = b'{"seq":2,"type":"request","command":"threads"}'
SENT, ANSWERED = (bytes_of(os.path.join(EXAMPLES, "session" + end)) for end in (".dap", ".out"))
SERVE = [DAP, "serve", os.path.join(EXAMPLES, "a.json")]
WATCHED = os.path.join(FOLDER, "watched")


def relayed_whole():
    expect("transcripts relay: the bytes", made("relay", WATCHED, "--", *SERVE, given=SENT), fine(ANSWERED))
    lines = bytes_of(WATCHED).splitlines()
    for side, stream in ((b">", SENT), (b"<", ANSWERED)):
        bodies = [body for _, body in split(stream)]
        expect(f"transcripts relay: the lines {side}", [line[2:] for line in lines if line[:1] == side], bodies)
    status, out, err = made("relay", os.path.join(FOLDER, "none", "x"), "--", *SERVE, given=SENT)
    expect("transcripts relay: a folder that is none", (status, out), (1, b""))
    expect_in("transcripts relay: a folder that is none, by name", err, b"transcripts: ", b"No such file or directory")


def relayed_in_part():
    """Where the session is not written to its end, the bytes are handed on all the same, and the last line says why."""
    frames, cut = frame(THREADS_BODY) + b"A: b\r\n\r\n", b"stream ends within a message, after %d bytes of it\n"
    for name, command, given, out, why in [
        ("an adapter that is none", [os.path.join(FOLDER, "none")], SENT, b"", b"the adapter cannot be started: "),
        ("a client that says nothing", SERVE, b"", b"", b"no message came\n"),
        ("a client that is cut", SERVE, SENT + b"Content-Length: 9\r\n\r\n{", ANSWERED, b"the client's " + cut % 22),
        ("an adapter that is cut", ["head", "-c", "60"], SENT, SENT[:60], b"the adapter's " + cut % 60),
        ("a header without a length", ["cat"], frames, frames, b"stream has a header without Content-Length\n"),
    ]:
        name = f"transcripts relay: {name}"
        status, got, err = made("relay", WATCHED, "--", *command, given=given)
        expect(name, (status, got), (int(why.endswith(b": ")), out))
        expect_in(f"{name}, by name", err, b"transcripts: ")
        lines = bytes_of(WATCHED).splitlines(keepends=True)
        expect_in(f"{name}, the last line", lines[-1], CUT_LINE, why)
        expect(f"{name}, the lines before", {line[:2] for line in lines[:-1]} <= {b"> ", b"< "}, True)
        expect(f"{name}, checked", run(["check", WATCHED]), fault(f"BadLine at line {len(lines)}"))
    relayed_to_the_full()


def relayed_to_the_full():
    """A file that cannot grow: the last line takes the room of those before it."""
    path = os.path.join(FOLDER, "whole")
    made("relay", path, "--", *SERVE, given=SENT)
    whole = bytes_of(path)
    for size in (70, 200, 1000, len(whole) - 1):
        name = f"transcripts relay: a file of at most {size} bytes"
        got = made("relay", WATCHED, "--", *SERVE, given=SENT, **bound(resource.RLIMIT_FSIZE, size))
        expect(f"{name}: the bytes", got[:2], (0, ANSWERED))
        lines = bytes_of(WATCHED).splitlines(keepends=True)
        expect(f"{name}: the last line", lines[-1], CUT_LINE + b"it cannot be written: File too large\n")
        expect(f"{name}: the lines before", whole.startswith(b"".join(lines[:-1])), True)
        expect(f"{name}: its length", os.path.getsize(WATCHED) <= size, True)
        expect(f"{name}: checked", run(["check", WATCHED]), fault(f"BadLine at line {len(lines)}"))
    told = b"transcripts: it cannot be written: No space left on device; no more is written down\n"
    expect("transcripts relay: a full device", made("relay", "/dev/full", "--", *SERVE, given=SENT), (0, ANSWERED, told))


GROUPS = {"made_transcripts": made_transcripts}
