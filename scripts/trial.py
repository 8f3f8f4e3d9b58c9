"""The runner of the cases of scripts/try-program, and what all of them share.

A case is a row: its name, the words of the command line, what is wanted, and where there is any its standard input. A word
of bytes is what a file has, whose name takes its place. What is wanted is a status, an output and errors, as `fine` and
`fault` give them. Each comparison prints `ok NAME`, or is told and kept in `failures`.
"""
import contextlib
import json
import os
import resource
import select
import subprocess
import tempfile

from session_model import Session, frame

HERE = os.path.dirname(os.path.dirname(os.path.abspath(__file__)))
DAP = os.environ.get("DAP") or os.path.join(HERE, "bin", "dap")
EXAMPLES = os.path.join(HERE, "examples")
RECORDINGS = [os.path.join(EXAMPLES, "recordings", name + ".json") for name in ("a", "deep", "threads", "crash")]
RECORDING = RECORDINGS[0]
failures = []
# It is removed when the last name for it is gone, at the end.
folder = tempfile.TemporaryDirectory()
FOLDER = folder.name
MISSING = os.path.join(FOLDER, "missing")


# Files


def file_of(name, content):
    """The path of a file with this content: bytes, a text, or what is written as JSON."""
    path = os.path.join(FOLDER, name)
    content = content if isinstance(content, (bytes, str)) else json.dumps(content)
    with open(path, "wb") as file:
        file.write(content if isinstance(content, bytes) else content.encode())
    return path


def bytes_of(path):
    with open(path, "rb") as file:
        return file.read()


def long_file(size, front=b"", name="long"):
    """A file that was only made longer: its bytes are zero behind the front."""
    path = file_of(name, front)
    os.truncate(path, size)
    return path


def with_files(*words):
    """The words, each file's bytes in the place of its name."""
    return [file_of(f"text{place}", word) if isinstance(word, bytes) else word for place, word in enumerate(words)]


def recording_of(path):
    with open(path, encoding="utf-8") as file:
        return json.load(file)


# Running and comparing


def output_of(words, given=b"", full=(), **more):
    """The status, output and errors of a command. Its input is bytes, or a path; a stream that is full gives nothing."""
    with contextlib.ExitStack() as files:
        device = files.enter_context(open("/dev/full", "wb"))
        streams = {name: device if name in full else subprocess.PIPE for name in ("stdout", "stderr")}
        source = {"input": given}
        if isinstance(given, str):
            source = {"stdin": os.open(given, os.O_RDONLY)}
            files.callback(os.close, source["stdin"])
        done = subprocess.run(with_files(*words), **source, **streams, **{"timeout": 60, **more})
    return done.returncode, done.stdout or b"", done.stderr or b""


def run(words, given=b"", full=(), **more):
    return output_of([DAP, *words], given, full, **more)


def arrived(stream, seconds):
    """What has come of a pipe within so long; nothing where it ends."""
    return os.read(stream.fileno(), 65536) if select.select([stream], [], [], seconds)[0] else b""


def read_within(stream, size, seconds=60):
    """So many bytes of a pipe, or fewer where it ends, or gives nothing for so long."""
    told = b""
    while len(told) < size and select.select([stream], [], [], seconds)[0]:
        part = os.read(stream.fileno(), size - len(told))
        if not part:
            break
        told += part
    return told


def bound(kind, size):
    """For a command that may use no more of something, such as memory."""
    return {"preexec_fn": lambda: resource.setrlimit(kind, (size, size))}


def fine(out=b""):
    return 0, out, b""


def fault(text, out=b""):
    """What ends with a fault: its status is that of its name."""
    status = {"Truncated": 4, "Read": 5, "Write": 5, "OutOfMemory": 6}.get(text.split()[0], 3)
    return status, out, b"dap: " + text.encode() + b"\n"


def try_rows(rows, prefix=""):
    """The one runner. A row: its name, the words, what is wanted, and perhaps the input and the streams that are full."""
    for name, words, wanted, *given in rows:
        expect(prefix + name, run(words, *given), wanted)


def try_usage(rows):
    """Words that are refused: their usage is told with these parts."""
    for words, *parts in rows:
        try_refusal("usage of " + " ".join("FILE" if isinstance(word, bytes) else word for word in words), words, *parts)


def try_refusal(name, words, *parts):
    status, out, err = run(words)
    expect(name, (status, out), (2, b""))
    expect_in(name + ": message", err, *parts)


def expect(name, got, wanted):
    if got == wanted:
        print("ok", name)
    else:
        failures.append(name)
        print("FAILED", name, "\n  got   ", short(got), "\n  wanted", short(wanted))


def short(value):
    text = repr(value)
    return text if len(text) <= 2000 else text[:2000] + f".. ({len(text)} characters)"


def expect_in(name, got, *parts):
    missing = [part for part in parts if part not in got]
    expect(name, missing, [])


def words_of(options):
    """The words of options: each name with its value, in one word where that is a text, or alone where it is true."""
    words = []
    for name, value in options.items():
        word = "--" + name.replace("_", "-")
        if isinstance(value, str):
            words.append(f"{word}={value}")
        else:
            words += [word, *([] if value is True else [str(value)])]
    return words


# Messages


def request(seq, command, arguments=None):
    told = {"seq": seq, "type": "request", "command": command}
    return told if arguments is None else {**told, "arguments": arguments}


def request_frame(seq, command, arguments=None):
    return frame(json.dumps(request(seq, command, arguments)).encode())


def frames_of(requests):
    return [frame(json.dumps(one).encode()) for one in requests]


def split(stream):
    """The offsets and bodies of frames that have one header field each."""
    at = 0
    while at < len(stream):
        start = stream.index(b"\r\n\r\n", at) + 4
        end = start + int(stream[at + len(b"Content-Length:") : start])
        yield at, stream[start:end]
        at = end


def answers_to(recording, requests):
    """What comes for each request, as the model has it."""
    session = Session(recording)
    return [session.handle(one) for one in requests]


INITIALIZE = b'{"seq":1,"type":"request","command":"initialize","arguments":{"adapterID":"rec"}}'
THREADS = b'{"seq":1,"type":"request","command":"threads"}'
FIRST, FIRST_LINE = frame(INITIALIZE), b"0 1 request initialize\n"
# What answers a first `initialize`. It is written out by hand.
CAPABILITIES = (
    b'{"body":{"supportsCancelRequest":true,"supportsConfigurationDoneRequest":true,'
    b'"supportsLoadedSourcesRequest":true,"supportsSetVariable":true,"supportsStepBack":true,'
    b'"supportsTerminateRequest":true},'
    b'"command":"initialize","request_seq":1,"seq":1,"success":true,"type":"response"}'
)
ANSWER = frame(CAPABILITIES) + frame(b'{"event":"initialized","seq":2,"type":"event"}')
# What is no frame, with its fault and what is shown of it; and what is no message.
BAD_FRAMES = [
    (b"\r\n\r\n", "BadHeader", b""),
    (b"Content-Length 12\r\n\r\n{}", "BadHeader", b"Content-Length 12"),
    (b"A: b\r\nContent-Length 12\r\n\r\n{}", "BadHeader", b"A: b\r\nContent-Length 12"),
    (b"\x00\t\"\\\x7f\xc3\xa9: 1\r\n\r\n", "BadHeader", b"\x00\t\"\\\x7f\xc3\xa9: 1"),
    (b"A: b\r\n\r\n", "NoLength", b"A: b"),
    *[(b"A: " + b"b" * count + b"\r\n\r\n", "NoLength", b"A: " + b"b" * count) for count in (56, 57, 58)],
    (b"Content-Length: 2\r\n" * 2 + b"\r\n{}", "TwoLengths", b"Content-Length: 2\r\nContent-Length: 2"),
    (b"Content-Length: 2x\r\n\r\n{}", "BadLength", b"Content-Length: 2x"),
    (b"Content-Length: 4194305\r\n\r\n", "BodyTooLong", b"Content-Length: 4194305"),
    (b"A" * 8192, "HeaderTooLong", b"A" * 8192),
]
BAD_BODIES = [
    (b"{", "NotJson"),
    (b"[]", "NotObject"),
    (b'{"seq":1.0}', "BadSeq"),
    (b'{"seq":1}', "BadType"),
    (b'{"seq":1,"type":"request"}', "BadCommand"),
    (b'{"seq":1,"type":"response","command":"x"}', "BadRequestSeq"),
    (b'{"seq":1,"type":"response","command":"x","request_seq":1}', "BadSuccess"),
    (b'{"seq":1,"type":"event"}', "BadEvent"),
    (b'{"seq":1,"type":"response","command":"x","request_seq":1,"success":true,"message":1}', "BadMessage"),
]
# A frame for each refusal.
BAD = {name: one for one, name, _ in reversed(BAD_FRAMES)} | {name: frame(one) for one, name in BAD_BODIES}


def program_itself(path):
    """The program that bin/dap becomes, since it takes a while to find it; another one is itself."""
    if not os.path.samefile(path, os.path.join(HERE, "bin", "dap")):
        return path
    child = subprocess.Popen([path, "serve", RECORDING], stdin=subprocess.PIPE, stdout=subprocess.PIPE)
    child.stdin.write(request_frame(1, "threads"))
    child.stdin.flush()
    # It is the program once it answers.
    child.stdout.read(1)
    itself = os.readlink(f"/proc/{child.pid}/exe")
    child.communicate()
    return itself
