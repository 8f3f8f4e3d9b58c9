"""Cases of scripts/try-program: `serve`, by its statuses, its recording, whole and random sessions, in pieces and in real
time, the sessions of the documents, and memory over a long input. Longer answers are those of scripts/session_model.py."""
import os
import random
import subprocess
import tempfile
import time

from commands import RESUMING
from trial import ANSWER, BAD, DAP, EXAMPLES, FIRST, FOLDER, HERE, MISSING, RECORDING, RECORDINGS, THREADS, answers_to
from trial import arrived, bytes_of, expect, expect_in, fault, file_of, fine, frame, frames_of, read_within, recording_of, request
from trial import request_frame, run, try_rows

SERVE = ["serve", RECORDING]
THREAD = {"threadId": 1}
ARGUMENTS = b'{"seq":1,"type":"request","command":"evaluate","arguments":{"expression":"a text","of":[1,"b",{"c":null}]}}'
NOT_INITIALIZED = (
    b'{"body":{"error":{"format":"The session is not initialized.","id":1001}},"command":"threads",'
    b'"message":"notInitialized","request_seq":1,"seq":1,"success":false,"type":"response"}'
)


def statuses():
    launch, again = request_frame(2, "launch"), FIRST.replace(b'"seq":1', b'"seq":2')
    response = frame(b'{"seq":2,"type":"response","request_seq":1,"success":true,"command":"threads"}')
    try_rows([
        ("initialize", SERVE, fine(ANSWER), FIRST),
        ("threads", SERVE, fine(frame(NOT_INITIALIZED)), frame(THREADS)),
        ("no bytes", SERVE, fine()),
        ("cut short", SERVE, fault("Truncated"), FIRST[:50]),
        *[(f"dap: {name} at 103", SERVE, fault(f"{name} at 103", ANSWER), FIRST + bad + FIRST) for name, bad in BAD.items()],
        ("max-seq 2", [*SERVE, "--max-seq", "2"], fault("SeqExhausted", ANSWER), FIRST + again),
        ("max-seq 1", [*SERVE, "--max-seq", "1"], fault("SeqExhausted"), FIRST),
        ("max-header 32", [*SERVE, "--max-header", "32"], fault("HeaderTooLong at 0"), b"A: " + b"b" * 60),
        ("a response", SERVE, fault("Unmatched", ANSWER), FIRST + response),
        ("a repeated seq", SERVE, fault("RepeatedSeq", ANSWER), FIRST + launch + launch),
        ("a full device", SERVE, fault("Write"), FIRST, ["stdout"]),
        ("no line can be written", SERVE, (4, b"", b""), FIRST[:9], ["stderr"]),
        ("input that cannot be read", SERVE, fault("Read"), HERE),
    ])
    # What would be too long is answered in short.
    thread = {"name": "t" * 60, "frames": [{"name": "f", "source": 0, "line": 1}]}
    moment = {"threads": [{"id": k, **thread} for k in range(20)], "thread": 0}
    path = file_of("wide", {"exit": 0, "sources": [{"name": "a", "text": "a"}], "moments": [moment]})
    asked = FIRST + launch + request_frame(3, "configurationDone") + request_frame(4, "threads")
    status, out, err = run(["serve", path, "--max-body", "1024"], asked)
    expect("max-body 1024", (status, err), (0, b""))
    expect_in("max-body 1024: the answer", out, b'"id":1016', b"The response would be too large.", b'"message":"tooLarge"')


def recordings():
    """What is no recording is told before anything is read or written."""
    try_rows([
        ("no JSON", ["serve", b"{"], fault("NotJson"), FIRST),
        ("no bytes", ["serve", b""], fault("NotJson"), FIRST),
        ("no object", ["serve", b"[]"], fault("NotObject"), FIRST),
        ("no moments", ["serve", b'{"exit":0,"sources":[],"moments":[]}'], fault("BadKey"), FIRST),
        ("no key", ["serve", b"{}"], fault("BadKey"), FIRST),
        ("a missing file", ["serve", MISSING], fault("Read"), FIRST),
        ("a folder", ["serve", FOLDER], fault("Read"), FIRST),
        ("no name", ["serve", ""], fault("Read"), FIRST),
        ("a device without end", ["serve", "/dev/zero"], fault("FileTooLong"), FIRST),
        ("a file with blanks", ["serve", b" \n" + bytes_of(RECORDING) + b"\n\n"], fine(ANSWER), FIRST),
    ], "serve: ")


def numbered(steps):
    return [request(seq, *step) for seq, step in enumerate(steps, 1)]


def whole_session(recording):
    """The requests of a session that goes through a run, there and back."""
    thread = {"threadId": recording["moments"][0]["thread"]}
    lines = {"source": {"sourceReference": 1}, "breakpoints": [{"line": 1}, {"line": 2}]}
    steps = [("initialize", {"adapterID": "rec"}), ("launch", {"program": "a"})]
    steps += [("setExceptionBreakpoints", {"filters": []}), ("setBreakpoints", lines), ("loadedSources",), ("source", {"sourceReference": 1}), ("threads",)]
    steps += [("configurationDone",), ("threads",), ("stackTrace", thread), ("scopes", {"frameId": 1})]
    steps += [("variables", {"variablesReference": 2}), ("evaluate", {"expression": "p", "frameId": 1})]
    steps += [("next", thread), ("stackTrace", thread), ("scopes", {"frameId": 1}), ("stepBack", thread)]
    steps += [("continue", thread), ("stackTrace", thread), ("next", thread), ("pause", thread), ("reverseContinue", thread)]
    steps += [("stepIn", thread), ("stepOut", thread), ("cancel", {"requestId": 3}), ("pause", thread)]
    steps += [("continue", thread), ("stackTrace", thread), ("pause", thread)] * 6
    return numbered([*steps, ("threads",), ("disconnect",)])


def random_session(choice, recording):
    """Requests as they come to mind, so that most refusals are met; sometimes none ends the session."""
    ids = sorted({thread["id"] for moment in recording["moments"] for thread in moment["threads"]})
    commands = sorted(RESUMING) * 3 + ["pause"] * 6 + ["threads", "launch", "attach", "configurationDone"] * 2
    commands += ["initialize", "terminate", "cancel", "setExceptionBreakpoints", "restart", "scopes", "modules", "goto", ""]
    start = [("initialize", {"adapterID": "x", "linesStartAt1": False}), ("launch", {}), ("configurationDone", None)]
    steps = start[: choice.randrange(4)] if choice.randrange(3) == 0 else start
    for _ in range(choice.randrange(40)):
        command = choice.choice(commands)
        arguments = {"threadId": choice.choice(ids), "filters": ["a"], "requestId": choice.randrange(40)}
        if choice.randrange(8) == 0:
            odd = [{"threadId": 1.5}, {"threadId": -9, "filters": [1]}, {"requestId": -1}]
            arguments = choice.choice([None, {}, [], "x", *odd])
        steps.append((command, arguments))
    return numbered(steps + [("disconnect", None)] * (choice.randrange(2) == 0))


def sessions():
    for path in RECORDINGS:
        recording, name = recording_of(path), f"serve {os.path.basename(path)}"
        requests = whole_session(recording)
        frames, answers = frames_of(requests), answers_to(recording, requests)
        stream, wanted = b"".join(frames), b"".join(answers)
        try_rows([(f"{name}: at once", ["serve", path], fine(wanted), stream)])
        in_real_time(name, path, frames, answers)
        for size in ("one byte", "some bytes"):
            expect(f"{name}: by {size}", in_pieces(path, stream, size), (0, wanted))
        for seed in range(60):
            requests = random_session(random.Random(seed), recording)
            wanted = fine(b"".join(answers_to(recording, requests)))
            try_rows([(f"{name}: random session {seed}", ["serve", path], wanted, b"".join(frames_of(requests)))])
    every_front()


def serving(path=RECORDING, stdout=subprocess.PIPE):
    return subprocess.Popen([DAP, "serve", path], stdin=subprocess.PIPE, stdout=stdout, bufsize=0)


def in_real_time(name, path, frames, answers):
    """Each answer comes before the next request is sent, and nothing more."""
    with serving(path) as child:
        for place, (one, wanted) in enumerate(zip(frames, answers), 1):
            child.stdin.write(one)
            got = read_within(child.stdout, len(wanted))
            if got != wanted:
                expect(f"{name}: request {place} in real time", got, wanted)
                child.kill()
                break
        rest = read_within(child.stdout, 1)
        expect(f"{name}: in real time", (child.wait(60), rest), (0, b""))


def in_pieces(path, stream, size):
    choice = random.Random(7)
    with tempfile.TemporaryFile() as out, serving(path, out) as child:
        at = 0
        while at < len(stream):
            n = 1 if size == "one byte" else choice.randrange(1, 300)
            child.stdin.write(stream[at : at + n])
            at += n
            if choice.randrange(20) == 0:
                time.sleep(0.001)
        # The program ends with `disconnect`, while its input is still open.
        status = child.wait(60)
        out.seek(0)
        return status, out.read()


def every_front():
    """Each front of a session is served up to its last whole frame."""
    steps = [("initialize",), ("attach",), ("configurationDone",), ("next", THREAD), ("continue", THREAD), ("disconnect",)]
    requests = numbered(steps)
    frames, answers = frames_of(requests), answers_to(recording_of(RECORDING), requests)
    ends = [len(b"".join(frames[:count])) for count in range(len(frames) + 1)]
    stream, wrong = b"".join(frames), []
    for count in range(len(stream) + 1):
        out = b"".join(answers[: sum(end <= count for end in ends[1:])])
        if run(SERVE, stream[:count]) != (fine(out) if count in ends else fault("Truncated", out)):
            wrong.append(count)
    expect("serve: every front of a session", wrong, [])


def interactive():
    """An answer comes while the input is still open."""
    with serving() as child:
        for piece in (FIRST[:7], FIRST[7:]):
            child.stdin.write(piece)
            time.sleep(0.1)
        expect("an answer while the input is open", read_within(child.stdout, len(ANSWER)), ANSWER)
        child.stdin.close()
        expect("and a clean end", child.wait(60), 0)


def worked():
    """The sessions of README.md and docs are what the program answers."""

    def of(*name):
        return os.path.join(EXAMPLES, *name)

    threads = of("recordings", "threads.json")
    for name, recording in (("session", of("a.json")), ("terminal", of("a.json")), ("inspect", threads)):
        sent, wanted = bytes_of(of(name + ".dap")), bytes_of(of(name + ".out"))
        try_rows([(f"examples/{name}.out", ["serve", recording], fine(wanted), sent)])
    status, transcript, err = run(["drive", of("a.json"), of("a.script")])
    expect("examples/a.script is run to its end", (status, err), (0, b""))
    requests = [line for line in transcript.splitlines() if line.startswith(b"> ")]
    sent = [line for line in bytes_of(of("a.script")).splitlines() if line.startswith(b"send ")]
    expect("each line of it that sends has its request", len(requests), len(sent))
    try_rows([("and what both ends wrote is legal", ["check", "/dev/stdin"], fine(b"legal\n"), transcript)])


def peak(pieces):
    """The peak memory, in KiB, of a session, as the system tells it before the input ends. Of each piece the last bytes of
    what comes for it are known, so that all before it came."""
    program = os.environ.get("DAP") or os.path.join(HERE, "crates", "dap", "out", "dap")
    child = subprocess.Popen([program, "serve", RECORDING], stdin=subprocess.PIPE, stdout=subprocess.PIPE, bufsize=0)
    for piece, last in pieces:
        child.stdin.write(piece)
        told = b""
        while last not in told:
            got = arrived(child.stdout, 60)
            if not got:
                child.kill()
                raise SystemExit("FAILED steady: the program stopped answering")
            told = told[-100:] + got
    with open(f"/proc/{child.pid}/status") as status:
        told = [line for line in status if line.startswith("VmHWM")]
    child.stdin.close()
    child.wait(60)
    child.stdout.close()
    return int(told[0].split()[1])


def asked_often(body):
    """One request, so many times, a hundred at once."""

    def pieces(count):
        for seq in range(100, count + 1, 100):
            yield frame(body) * 100, b'"seq":%d,"success"' % seq

    return pieces


def looked_at(count):
    """A session that is stopped, and so many requests of what is shown there."""
    asked = [("threads", None), ("stackTrace", THREAD), ("scopes", {"frameId": 1}), ("variables", {"variablesReference": 2})]
    asked += [("evaluate", {"expression": "x", "frameId": 1}), ("evaluate", {"expression": "none"})]
    asked += [("source", {"sourceReference": 1}), ("loadedSources", None), ("exceptionInfo", THREAD), ("nothing", {"a": ["b"]})]
    started = [("launch", {}), ("configurationDone", None), ("stackTrace", THREAD), ("scopes", {"frameId": 1})]
    requests = [request(seq, *one) for seq, one in enumerate(started, 2)]
    yield FIRST + b"".join(frames_of(requests)), b'"request_seq":5,'
    for start in range(6, count + 6, 100):
        requests = [request(seq, *asked[seq % len(asked)]) for seq in range(start, start + 100)]
        yield b"".join(frames_of(requests)), b'"request_seq":%d,' % (start + 99)


def emptied(count):
    """So many sources whose breakpoints are emptied, none twice."""
    asked = [{"source": {"path": f"/{seq}"}, "breakpoints": []} for seq in range(2, count + 2)]
    requests = [request(seq, "setBreakpoints", one) for seq, one in enumerate(asked, 2)]
    yield FIRST, b"initialized"
    for start in range(0, count, 100):
        yield b"".join(frames_of(requests[start : start + 100])), b'"request_seq":%d,' % (start + 101)


def steady():
    """A block that each message leaves behind, however small, shows: no clause says that a drop by hand gives back all that it
    is given."""
    for of, pieces, most, name in [
        ("requests", asked_often(THREADS), 1000000, "memory does not grow with the input"),
        ("arguments", asked_often(ARGUMENTS), 1000000, "memory does not grow with arguments"),
        ("requests of what is shown", looked_at, 200000, "memory does not grow with what is told"),
        ("sources that are emptied", emptied, 50000, "memory does not grow with sources without breakpoints"),
    ]:
        few, many = peak(pieces(100)), peak(pieces(most))
        print(f"peak memory: {few} KiB for 100 {of}, {many} KiB for {most}")
        expect(name, many <= few + 512, True)


GROUPS = {
    "statuses": statuses,
    "recordings": recordings,
    "sessions": sessions,
    "interactive": interactive,
    "worked": worked,
    "steady": steady,
}
