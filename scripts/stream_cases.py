"""Cases of scripts/try-program: streams as JSON and as bodies, why a request failed, bodies that are refused, standard input,
and what is listed of it while it comes: each line has to be there before the next byte is written.

Expected bytes are written out here by hand, or made by Python's own JSON; none is the program's own output.
"""
import json
import os
import subprocess

from trial import DAP, EXAMPLES, FOLDER, HERE, MISSING, THREADS, arrived, bytes_of, expect, fault, fine, frame, run, split
from trial import try_refusal, try_rows

STREAMS = os.path.join(EXAMPLES, "streams")
# The three refusals that a stream can go on behind, of one kind each: no JSON, no message, and a message with a bad key.
BAD_BODIES = [(b"{", "NotJson"), (b"[]", "NotObject"), (b'{"seq":1.0,"type":"x"}', "BadSeq")]
ONE, LINE = frame(THREADS), b"0 1 request threads\n"


def recorded():
    """The recorded streams, each with its name, its bytes and its messages."""
    for name in sorted(name for name in os.listdir(STREAMS) if name.endswith(".dap")):
        stream = bytes_of(os.path.join(STREAMS, name))
        yield name, stream, [(offset, body, json.loads(body)) for offset, body in split(stream)]


def failure(**keys):
    told = {"seq": 1, "type": "response", "request_seq": 1, "success": False, "command": "next", **keys}
    return json.dumps(told, ensure_ascii=False).encode()


def reasons():
    """With `--reasons` why a request failed is behind `failed`, with its control characters hidden; else nothing is."""
    twice = failure(message="a")[:-1] + b',"message":"b"}'
    for name, body, told in [
        ("none", failure(), "failed"),
        ("null", failure(message=None), "failed"),
        ("a word", failure(message="notStopped"), "failed notStopped"),
        ("words", failure(message="not stopped, at all"), "failed not stopped, at all"),
        ("no bytes", failure(message=""), "failed "),
        ("control characters", failure(message="a\n\r\tb\x7f\x1bc"), "failed a???b??c"),
        ("more than ASCII", failure(message="Gerät läuft 😀"), "failed Gerät läuft 😀"),
        ("a long text", failure(message="m" * 100000), "failed " + "m" * 100000),
        ("behind a body", failure(body={"error": {"id": 1, "format": "why"}}, message="m"), "failed m"),
        ("of a success", failure(success=True, message="cancelled"), "ok"),
        ("the last of two", twice, "failed b"),
    ]:
        plain, line = (fine(f"0 1 response next 1 {one}\n".encode()) for one in (told.split(" ")[0], told))
        try_rows([
            (f"show: no reason, {name}", ["show", frame(body)], plain),
            (f"show --reasons: {name}", ["show", frame(body), "--reasons"], line),
            (f"show - --reasons: {name}", ["show", "-", "--reasons"], line, frame(body)),
        ])
    one = frame(failure(message="m"))
    both = 3, b"0 refused BadSeq\n23 1 response next 1 failed m\n", b""
    try_rows([
        ("show --reasons --keep-going", ["show", frame(b"{}") + one, "--reasons", "--keep-going"], both),
        ("show --reasons --json: as without", ["show", one, "--json", "--reasons"], run(["show", one, "--json"])),
    ])
    try_refusal("unwrap has no --reasons", ["unwrap", "/dev/null", "--reasons"], b"unexpected argument '--reasons'")


def unwrap():
    """Each body is a line as it stands, but for line feeds and carriage returns."""
    blanks = b' {"seq":1, "type":"x","a":"\\n\\u0041\\/","a":[1.0,1e2]} '
    ascii_not = '{"seq":1,"type":"é😀"}'.encode()
    for name, stream, lines in [
        ("no bytes", b"", b""),
        ("one body", ONE, THREADS + b"\n"),
        ("blanks, escapes and equal keys stay", frame(blanks), blanks + b"\n"),
        ("line feeds go", frame(b'{\n"seq":1,\n"type":"x"\n}\n'), b'{"seq":1,"type":"x"}\n'),
        ("carriage returns go", frame(b'\r\n{"seq":1,\r"type":\r\n"x"}\r'), b'{"seq":1,"type":"x"}\n'),
        ("tabs and spaces stay", frame(b'{\n\t "seq": 1,\n\t "type": "x"\n}'), b'{\t "seq": 1,\t "type": "x"}\n'),
        ("more than ASCII", frame(ascii_not), ascii_not + b"\n"),
        ("two", ONE + frame(b'{"seq":3,"type":"x"}'), THREADS + b'\n{"seq":3,"type":"x"}\n'),
    ]:
        try_rows([(f"unwrap: {name}", ["unwrap", stream], fine(lines))])
    unwrap_to_faults()
    unwrap_and_wrap()


def unwrap_to_faults():
    long = frame(b'{"seq":1,"type":"x"' + b" " * 1010 + b"}")
    for name, rest, told, *words in [
        ("a frame is refused", b"Content-Length: 2x\r\n\r\n", "BadLength at 68"),
        ("a body is refused", frame(b"{}") + ONE, "BadSeq at 68"),
        ("a raw line feed in a text", frame(b'{"seq":1,"type":"a\nb"}'), "NotJson at 68"),
        ("cut short", ONE[:60], "Truncated"),
        ("the limit of a body", long, "BodyTooLong at 68", "--max-body", "1024"),
    ]:
        try_rows([(f"unwrap: {name}", ["unwrap", ONE + rest, *words], fault(told, THREADS + b"\n"))])
    small = ["unwrap", b"A: " + b"b" * 40, "--max-header", "32"]
    try_rows([("unwrap: the limit of a header", small, fault("HeaderTooLong at 0"))])
    try_rows([(f"unwrap: {path} is no file", ["unwrap", path], fault("Read")) for path in (MISSING, FOLDER)])


def unwrap_and_wrap():
    """What was unwrapped is framed again: the same messages, and the same bodies where they have no line feed."""
    for name, stream, messages in recorded():
        status, lines, err = run(["unwrap", stream])
        expect(f"unwrap: {name}", (status, err, lines.count(b"\n")), (0, b"", len(messages)))
        wanted = [body.replace(b"\r", b"").replace(b"\n", b"") for _, body, _ in messages]
        status, frames, err = run(["wrap", lines])
        expect(f"unwrap and wrap: {name}", (status, frames, err), fine(b"".join(map(frame, wanted))))
        told = [json.loads(body) for _, body in split(frames)]
        expect(f"unwrap and wrap: {name}, its messages", told == [message for _, _, message in messages], True)
    message = {"seq": 1, "type": "event", "event": "a\nb", "body": [1, {"c": "d"}]}
    status, lines, err = run(["unwrap", frame(json.dumps(message, indent=2).encode())])
    expect("unwrap: an indented body", (status, lines.count(b"\n"), json.loads(lines) == message), (0, 1, True))


def objects():
    """`show --json`: an object a line, which Python reads as it reads the body."""
    one = b'{"offset":0,"bytes":46,"message":' + THREADS + b"}\n"
    two = one + b'{"offset":68,"bytes":24,"message":{"seq":1, "type":"x"}}\n'
    for name, stream, wanted in [
        ("no bytes", b"", fine()),
        ("one message", ONE, fine(one)),
        ("line feeds go", ONE + frame(b'{"seq":1,\r\n "type":"x"}\n'), fine(two)),
        ("a frame is refused", ONE + b"\r\n\r\n", fault("BadHeader at 68", one)),
        ("a body is refused", ONE + frame(b"[]") + ONE, fault("NotObject at 68", one)),
        ("cut short", ONE + b"C", fault("Truncated", one)),
    ]:
        try_rows([(f"show --json: {name}", ["show", stream, "--json"], wanted)])
    for name, stream, messages in recorded():
        status, lines, err = run(["show", stream, "--json"])
        told = [json.loads(line) for line in lines.splitlines()]
        wanted = [{"offset": offset, "bytes": len(body), "message": message} for offset, body, message in messages]
        expect(f"show --json: {name}", (status, err, told == wanted), (0, b"", True))


def keep_going():
    """`show --keep-going`: a refused body has its line, and the listing goes on; a refused frame ends it all the same."""
    stream, lines, objects_told = b"", b"", b""
    for bad, name in BAD_BODIES:
        for body, told, key in [
            (THREADS, b"1 request threads", b'"message":' + THREADS),
            (bad, b"refused " + name.encode(), b'"refused":"' + name.encode() + b'"'),
        ]:
            lines += b"%d %b\n" % (len(stream), told)
            objects_told += b'{"offset":%d,"bytes":%d,%b}\n' % (len(stream), len(body), key)
            stream += frame(body)
    more = b"%d 1 request threads\n" % len(stream)
    for name, stream, wanted, *words in [
        (": no refusal", ONE, fine(LINE)),
        (": three refusals", stream, (3, lines, b"")),
        (" --json", stream, (3, objects_told, b""), "--json"),
        (": and a message", stream + ONE, (3, lines + more, b"")),
        (": the first alone", frame(b"{}") + ONE, (3, b"0 refused BadSeq\n23 1 request threads\n", b"")),
        (": a refused frame", stream + b"\r\n\r\n", fault(f"BadHeader at {len(stream)}", lines)),
        (": cut short", stream + b"C", fault("Truncated", lines)),
    ]:
        try_rows([(f"show --keep-going{name}", ["show", stream, "--keep-going", *words], wanted)])
    try_refusal("unwrap has no --keep-going", ["unwrap", "/dev/null", "--keep-going"], b"unexpected argument '--keep-going'")


def standard_input():
    """`-` is standard input, in each tool that takes a stream or a transcript. A file of that name is named by its folder; of
    a recording and a script `-` is no standard input."""
    lines, many = THREADS + b"\n", ONE * 3000
    try_rows([
        ("show", ["show", "-"], fine(LINE), ONE),
        ("show, nothing", ["show", "-"], fine(), b""),
        ("show --json", ["show", "-", "--json"], fault("BadSeq at 0"), frame(b"{}")),
        ("unwrap", ["unwrap", "-"], fine(lines), ONE),
        ("unwrap, cut short", ["unwrap", "-"], fault("Truncated"), ONE[:-1]),
        ("wrap", ["wrap", "-"], fine(ONE), lines),
        ("wrap, refused", ["wrap", "-"], fault("BadSeq at line 2"), lines + b"{}\n"),
        ("check", ["check", "-"], (3, b"line 1 rule 3\n", b""), b"> " + lines),
        ("check, nothing", ["check", "-"], fine(b"legal\n"), b""),
        ("more than one read", ["unwrap", "-"], fine(lines * 3000), many),
        ("it cannot be read", ["show", "-"], fault("Read"), HERE),
        ("not of serve", ["serve", "-"], fault("Read")),
        ("not of drive", ["drive", "-", "-"], fault("Read")),
    ], "standard input: ")
    pipeline = f"'{DAP}' unwrap - | '{DAP}' wrap - | '{DAP}' unwrap -"
    piped = subprocess.run(pipeline, shell=True, input=many, capture_output=True, timeout=60)
    expect("standard input: a pipeline", (piped.returncode, piped.stdout, piped.stderr), fine(lines * 3000))


# Standard input that is listed while it comes.

EVENT = b'{"seq":2,\r\n"type":"event","event":"e"}'
OTHER = b'{"seq":3,"type":"x"}'
BODIES = [THREADS, EVENT, OTHER]
LINES = {
    "show": [LINE, b"68 2 event e\n", b"128 3 other x\n"],
    "unwrap": [THREADS + b"\n", EVENT.replace(b"\r\n", b"") + b"\n", OTHER + b"\n"],
}


class Listing:
    """A program that lists its standard input: what it is given a piece after the other, and what comes of each."""

    def __init__(self, *words):
        pipes = dict.fromkeys(("stdin", "stdout", "stderr"), subprocess.PIPE)
        self.child = subprocess.Popen([DAP, *words, "-"], **pipes, bufsize=0)

    def takes(self, piece, seconds=10):
        """What comes for it."""
        self.child.stdin.write(piece)
        return arrived(self.child.stdout, seconds) if seconds else b""

    def gives(self, name, piece, wanted):
        expect(f"follow: {name}", self.takes(piece), wanted)

    def ends(self, name, wanted):
        self.child.stdin.close()
        expect(f"follow: {name}", (self.child.wait(60), self.child.stdout.read(), self.child.stderr.read()), wanted)


def byte_by_byte():
    for tool, lines in LINES.items():
        listing, early, late = Listing(tool), [], []
        for stream in map(frame, BODIES):
            for byte in stream[:-2]:
                listing.takes(bytes([byte]), 0)
            early.append(listing.takes(stream[-2:-1], 0.05))
            late.append(listing.takes(stream[-1:]))
        expect(f"follow: {tool}: nothing before the last byte of a message", early, [b""] * len(lines))
        expect(f"follow: {tool}: a line before the next byte", late, lines)
        listing.ends(f"{tool}: the end", fine())


def objects_at_once():
    listing, offset = Listing("show", "--json"), 0
    for body in BODIES:
        wanted = {"offset": offset, "bytes": len(body), "message": json.loads(body)}
        expect("follow: show --json: an object", json.loads(listing.takes(frame(body))), wanted)
        offset += len(frame(body))
    listing.ends("show --json: the end", fine())


def faults_at_once():
    """A fault ends the program at once, while the input is still open."""
    why = b'standard input: at 68: "[]"\n'
    for name, words, bad, told in [
        ("a frame", [], b"Content-Length 12\r\n\r\n", b"dap: BadHeader at 68\n"),
        ("a body", [], frame(b"[]"), b"dap: NotObject at 68\n"),
        ("a body, explained", ["--explain"], frame(b"[]"), b"dap: NotObject at 68\n" + why),
    ]:
        listing = Listing("show", *words)
        listing.gives(f"{name}: what comes before", ONE, LINE)
        listing.takes(bad, 0)
        expect(f"follow: {name}: it ends", listing.child.wait(60), 3)
        listing.ends(f"{name}: the fault", (3, b"", told))


def closed_pipe():
    listing = Listing("show")
    listing.child.stdout.close()
    listing.takes(ONE, 0)
    expect("follow: nobody reads what is listed", listing.child.wait(60), 5)
    expect("follow: nobody reads what is listed: the fault", listing.child.stderr.read(), b"dap: Write\n")
    listing.child.stdin.close()


def follow():
    byte_by_byte()
    objects_at_once()
    faults_at_once()
    closed_pipe()
    listing = Listing("show")
    listing.gives("what is whole of a piece", b"".join(map(frame, BODIES))[:-1], b"".join(LINES["show"][:2]))
    listing.gives("what was left of it", frame(OTHER)[-1:], LINES["show"][2])
    listing.ends("several at once: the end", fine())
    listing = Listing("show", "--keep-going")
    listing.gives("a body is refused, and it goes on", frame(b"[]"), b"0 refused NotObject\n")
    listing.gives("behind a refused body", ONE, b"23 1 request threads\n")
    listing.ends("behind a refused body: the end", (3, b"", b""))
    listing = Listing("show")
    listing.takes(ONE[:50], 0)
    listing.ends("cut short", fault("Truncated"))
    Listing("show").ends("no bytes", fine())


GROUPS = {
    "reasons": reasons,
    "unwrap": unwrap,
    "objects": objects,
    "keep_going": keep_going,
    "standard_input": standard_input,
    "follow": follow,
}
