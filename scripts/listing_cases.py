"""Cases of scripts/try-program: what `show` lists and `wrap` frames, their files, and memory that is refused. Expected bytes
are written out by hand, or made by Python's own JSON."""
import json
import os
import resource
import subprocess
import time

from slow_check import MAX_FILE
from trial import BAD, BAD_BODIES, DAP, EXAMPLES, FIRST, FIRST_LINE, FOLDER, HERE, INITIALIZE, MISSING, THREADS, bound
from trial import bytes_of, expect, fault, file_of, fine, frame, long_file, output_of, run, split, try_rows

STREAMS = os.path.join(EXAMPLES, "streams")


def stream_of(name):
    return os.path.join(STREAMS, name + ".dap")


def listed(*bodies_and_lines):
    """The stream of some bodies, and what is listed of it: a line each, behind the offset."""
    stream, lines = b"", b""
    for body, line in bodies_and_lines:
        lines += b"%d %s\n" % (len(stream), line)
        stream += frame(body)
    return stream, fine(lines)


def line_of(offset, body):
    """The line of a message, by Python's own JSON; for names without control characters."""
    told = json.loads(body)
    line = f"{offset} {told['seq']} {told['type']}"
    if told["type"] == "response":
        outcome = "ok" if told["success"] else "failed"
        return f"{line} {told['command']} {told['request_seq']} {outcome}\n".encode()
    return f"{line} {told['command' if told['type'] == 'request' else 'event']}\n".encode()


def show():
    shown = [
        show_each(),
        show_json(),
        show_control_characters(),
        show_refusals(),
        show_truncated(),
        show_limits(),
    ]
    try_rows([(name, ["show", stream, *words], wanted) for rows in shown for name, stream, wanted, *words in rows], "show: ")
    show_examples()


def show_each():
    # Header blocks of other forms count with all of their bytes: 35 and 46, then 41 and 46.
    headers = b"X-Note: hi\r\ncontent-length:0046\r\n\r\n" + THREADS
    headers += b"CONTENT-LENGTH:   46\t \r\nContent-Type:\r\n\r\n" + THREADS + frame(THREADS)
    return [
        ("no bytes", b"", fine()),
        ("one request", *listed((THREADS, b"1 request threads"))),
        (
            "each kind of message",
            *listed(
                (b'{"seq":0,"type":"request","command":"next","arguments":{"threadId":1}}', b"0 request next"),
                (
                    b'{"seq":9007199254740991,"type":"response","request_seq":0,"success":true,"command":"next"}',
                    b"9007199254740991 response next 0 ok",
                ),
                (
                    b'{"command":"x y","success":false,"request_seq":9007199254740991,"type":"response","seq":2}',
                    b"2 response x y 9007199254740991 failed",
                ),
                (b' {"seq":2,"type":"event","event":"stopped","body":1.5} ', b"2 event stopped"),
                (b'{"seq":3,"type":"Request","command":7}', b"3 other Request"),
                (b'{"seq":4,"type":"request","command":""}', b"4 request "),
                (b'{"seq":5,"type":"","seq":6}', b"6 other "),
                (b'{"seq":7,"type":"event","event":"\\u0061\\/' + b"b" * 5000 + b'"}', b"7 event a/" + b"b" * 5000),
                (b'{"seq":8,"type":"request","command":"' + b"c" * 64 + b'"}', b"8 request " + b"c" * 64),
            ),
        ),
        ("other header fields", headers, fine(b"0 1 request threads\n81 1 request threads\n168 1 request threads\n")),
        ("ten thousand messages", *listed(*[(THREADS, b"1 request threads")] * 10000)),
    ]


# Values that are JSON, and bytes that are none, wherever a message has them.
JSON = [b"0", b"-0.0e-0", b"1E+2", b"18446744073709551616", b"1e308", b"1e-999", b"null", b"[ ]", b"{\t}"]
JSON += [b'{"":[{},[true,false,null]]}', b'"\\ud83d\\ude00\\u0000\\/\x7f"', '"\u00e9\uffff\U0010ffff"'.encode()]
JSON += [b"[" * 126 + b"]" * 126, b'{"a":' * 125 + b"[]" + b"}" * 125]
NO_JSON = [b"", b"01", b"+1", b"-", b".5", b"1.", b"1e", b"0x1", b"1e999", b"-1e999", b"NaN", b"nul", b"True", b"truefalse"]
NO_JSON += [b"'a'", b'"a', b'"\x1f"', b'"\t"', b'"\\x"', b'"\\u12g4"', b'"\\', b'"\xff"', b'"\xc0\xaf"', b'"\xed\xa0\x80"']
NO_JSON += [b'"\xf4\x90\x80\x80"', b'"\xe2\x82"', b"[1,]", b"[,1]", b"[1 2]", b"[1", b"]", b'{"a"}', b'{"a":}', b'{"a":1,}']
NO_JSON += [b'{"a" 1}', b"{a:1}", b"{1:1}", b"/**/1", b"1\x00", b"\xc2\xa01"]
NO_JSON += [b"[" * 127 + b"]" * 127, b'{"a":' * 126 + b"[]" + b"}" * 126]
EVENT = b'{"seq":1,"type":"event","event":"e","body":%b}'
REQUEST = b'{"seq":%s,"type":"request","command":"c"}'
RESPONSE = b'{"seq":1,"type":"response","request_seq":1,"success":true,"command":"c","message":%s}'


def no_messages():
    """Bodies that are no messages, each with its first refusal. JSON is read to its last byte, needed or not."""
    for value in NO_JSON:
        yield EVENT % value, "NotJson"
        yield b'{"x":' + value + b',"seq":-1}', "NotJson"
    for seq in (b"-0", b"-1", b"1e0", b'"1"', b"null", b"true", b"18446744073709551616", b'1,"seq":null'):
        yield REQUEST % seq, "BadSeq"
    yield b'{"seq":1,"type":"request","type":null}', "BadType"
    yield b'{"seq":1,"type":"request","command":null}', "BadCommand"
    yield b'{"seq":1,"type":"request","Command":"c"}', "BadCommand"
    yield b'{"seq":1,"type":"request","command":"' + "\u00e9".encode() * 33 + b'"}', "BadCommand"
    yield RESPONSE % b'null,"request_seq":9007199254740992', "BadRequestSeq"
    yield RESPONSE % b'null,"success":null', "BadSuccess"
    yield RESPONSE % b'"m","message":false', "BadMessage"
    yield b'{"seq":1,"type":"event","event":["e"]}', "BadEvent"
    yield b"null", "NotObject"
    yield b'"{}"', "NotObject"


def show_json():
    bodies = [EVENT % value for value in JSON] + [
        b'{"\\u0073eq":1,"typ\\u0065":"\\u0065vent","event":"e"}',
        b'\r\n\t {"event":"e","seq":1,"type":"event"}\r\n\t ',
        b'{"seq":"x","seq":[1],"seq":1,"type":1,"type":"event","event":null,"event":"e"}',
        b'{"seq":1,"type":"event","event":"e","command":1,"request_seq":-1,"success":0,"message":[],"Seq":0}',
    ]
    yield "values that are JSON", *listed(*[(body, b"1 event e") for body in bodies])
    for body, line in [
        (REQUEST % b"9007199254740991", b"9007199254740991 request c"),
        (RESPONSE % b"null", b"1 response c 1 ok"),
        (RESPONSE % b'""', b"1 response c 1 ok"),
        (RESPONSE % b'1,"message":"m"', b"1 response c 1 ok"),
    ]:
        yield f"{body}", *listed((body, line))
    for body, name in no_messages():
        yield f"{name}: {body[:60]}", FIRST + frame(body), fault(f"{name} at 103", FIRST_LINE)


def show_control_characters():
    escaped = b"".join(b"\\u%04x" % code for code in list(range(32)) + [127])
    kept = " \u0080\u009f\u00a0\u2028\ud7ff\ufeff\U0001f600~".encode()
    for name, text, told in [
        ("escaped", escaped, b"?" * 33),
        ("by short escapes", b"a\\n\\r\\t\\b\\fz", b"a?????z"),
        ("as a plain byte", b"a\x7fz", b"a?z"),
        ("kept", kept + b"\\u0080\\\\ \\\"", kept + "\u0080\\ \"".encode()),
    ]:
        body = b'{"seq":1,"type":"event","event":"%b"}' % text
        yield f"control characters {name}", *listed((body, b"1 event " + told))
    yield "control characters in each kind", *listed(
        (b'{"seq":1,"type":"request","command":"a\\u0000b"}', b"1 request a?b"),
        (b'{"seq":1,"type":"response","command":"a\\nb","request_seq":1,"success":false}', b"1 response a?b 1 failed"),
        (b'{"seq":1,"type":"x\\u001by"}', b"1 other x?y"),
    )


def show_refusals():
    for name, bad in BAD.items():
        yield name, FIRST + bad + FIRST, fault(f"{name} at 103", FIRST_LINE)
        yield f"{name} at once", bad, fault(f"{name} at 0")
    two, lines = FIRST + frame(THREADS), FIRST_LINE + b"103 1 request threads\n"
    yield "the third is refused", two + frame(b"{}"), fault("BadSeq at 171", lines)
    # The first refusal alone is told, and a body is judged once it is whole.
    for name, bad, told in [
        ("an empty body", frame(b""), "NotJson"),
        ("body, then frame", frame(b"[]") + b"\r\n\r\n", "NotObject"),
        ("frame, then body", b"\r\n\r\n" + frame(b"[]"), "BadHeader"),
        ("body, then cut short", frame(b"[]") + b"Conte", "NotObject"),
        ("long body that never comes", b"Content-Length: 99999999999999999999\r\n\r\n", "BodyTooLong"),
        ("command of 65 bytes", frame(THREADS.replace(b"threads", b"c" * 65)), "BadCommand"),
        ("seq past 2^53 - 1", frame(b'{"seq":9007199254740992,"type":"x"}'), "BadSeq"),
        ("control byte in a text", frame(b'{"seq":1,"type":"x\ny"}'), "NotJson"),
        ("bytes that are no UTF-8", frame(b'{"seq":1,"type":"\xff"}'), "NotJson"),
        ("lone LF in a header", b"Content-Length: 2\n\r\n\r\n{}", "BadHeader"),
    ]:
        yield name, FIRST + bad, fault(f"{told} at 103", FIRST_LINE)


def show_truncated():
    for name, rest in [
        ("one byte of the header", b"C"),
        ("in the header", FIRST[:9]),
        ("one byte before the header's end", FIRST[:21]),
        ("after the header", FIRST[:22]),
        ("in the body", FIRST[:60]),
        ("one byte before the end", FIRST[:102]),
        ("in a body that is no message", frame(b"{")[:-1]),
        ("one byte below the header limit", b"A" * 8191),
        ("a body of the limit", b"Content-Length: 4194304\r\n\r\n"),
    ]:
        yield f"cut short, {name}", FIRST + rest, fault("Truncated", FIRST_LINE)
        yield f"cut short, {name}, at once", rest, fault("Truncated")


def padded(length):
    """A message of this many bytes."""
    body = EVENT % b'""'
    return body[:-2] + b"a" * (length - len(body)) + body[-2:]


def headed(length):
    """A frame whose header block has this many bytes."""
    return b"Content-Length: " + b"46".rjust(length - 20, b"0") + b"\r\n\r\n" + THREADS


def show_limits():
    for length, *words in [(1024, "--max-body", "1024"), (4194304,), (16777216, "--max-body=16777216")]:
        yield f"a body of {length}, the limit", *listed((padded(length), b"1 event e")), *words
        longer = FIRST + frame(padded(length + 1)), fault("BodyTooLong at 103", FIRST_LINE)
        yield f"a body one byte longer than {length}", *longer, *words
    for limit, *words in [(32, "--max-header", "32"), (8192,), (65536, "--max-header=65536")]:
        yield f"a header block of {limit}, the limit", headed(limit), fine(b"0 1 request threads\n"), *words
        longer = FIRST + headed(limit + 1), fault("HeaderTooLong at 103", FIRST_LINE)
        yield f"a header block one byte longer than {limit}", *longer, *words


# The recorded streams, with the messages that each has.
COUNTS = {
    "client-to-delve": 37,
    "client-to-lldb": 69,
    "client-to-ruby": 78,
    "debugpy-to-editor": 67,
    "delve-to-client": 50,
    "editor-to-debugpy": 43,
    "lldb-to-client": 80,
    "ruby-to-client": 86,
}


def show_examples():
    names = sorted(name.removesuffix(".dap") for name in os.listdir(STREAMS) if name.endswith(".dap"))
    expect("show: the recorded streams are these", names, [*COUNTS])
    for name, count in COUNTS.items():
        lines = [line_of(offset, body) for offset, body in split(bytes_of(stream_of(name)))]
        try_rows([(f"show: {name}", ["show", stream_of(name)], fine(b"".join(lines)))])
        expect(f"show: {name}, its messages", len(lines), count)


# Recorded conversations: the requests, what came back, and what is told of a client that sends the ones and takes the others.
CONVERSATIONS = [
    ("editor-to-debugpy", "debugpy-to-editor", b"sent 43 of 43, delivered 67, outstanding 0, Exited\n"),
    ("client-to-delve", "delve-to-client", b"sent 37 of 37, delivered 50, outstanding 0, Ended\n"),
    ("client-to-lldb", "lldb-to-client", b"sent 68 of 68, delivered 80, outstanding 0, Ended\n"),
    ("client-to-ruby", "ruby-to-client", b"sent 78 of 78, delivered 86, outstanding 0, Running\n"),
]


def replay():
    program = os.path.join(HERE, "crates", "bench_client", "out", "bench_client")
    if not os.path.exists(program):
        return print("replay: left out, since crates/bench_client is not made: see bench/README.md")
    for requests, answers, told in CONVERSATIONS:
        expect(f"replay: {answers}", output_of([program, stream_of(requests), stream_of(answers)]), fine(told))
    # A response that answers nothing is told by name.
    others = output_of([program, stream_of("client-to-delve"), stream_of("ruby-to-client")])
    expect("replay: other answers", others[:2], (3, b""))


INITIALIZED = b'{"seq":2,"type":"event","event":"initialized"}'


def wrap():
    rows = [*wrap_lines(), *wrap_refusals(), *wrap_limits(), *wrap_examples()]
    try_rows([(name, ["wrap", lines, *words], wanted) for name, lines, wanted, *words in rows], "wrap: ")
    wrap_and_show()


def wrap_lines():
    a, b = THREADS, INITIALIZED
    both = frame(a) + frame(b)
    foreign = '{"seq":1,"type":"\u00e9\u2028"}'.encode()
    spaced = b' { "type" : "event","seq":0,\t"event":"e","body":1.50e3,"body":[ ] } '
    values = [EVENT % value for value in JSON]
    for name, lines, frames in [
        ("two lines", a + b"\n" + b + b"\n", both),
        ("the last line without LF", a + b"\n" + b, both),
        ("one line without LF", a, frame(a)),
        ("CR LF", a + b"\r\n" + b + b"\r\n", both),
        ("LF and CR LF", a + b"\r\n" + b + b"\n", both),
        ("one CR of two is dropped", a + b"\r\r\n" + b, frame(a + b"\r") + frame(b)),
        ("a lone CR at the end stays", a + b"\n" + b + b"\r", frame(a) + frame(b + b"\r")),
        ("a CR within a line stays", a.replace(b",", b",\r") + b"\n", frame(a.replace(b",", b",\r"))),
        ("no bytes", b"", b""),
        ("an empty line", b"\n", b""),
        ("empty lines alone", b"\n\r\n\n", b""),
        ("empty lines between", b"\n\r\n" + a + b"\n\n\r\n" + b + b"\n\n", both),
        ("the bytes of a line stay as they are", spaced + b"\n", frame(spaced)),
        ("texts that are not ASCII", foreign + b"\n", frame(foreign)),
        ("a message of each kind", b'{"seq":1,"type":"x"}\n' + a + b"\n" + b, frame(b'{"seq":1,"type":"x"}') + both),
        ("ten thousand lines", (a + b"\n") * 10000, frame(a) * 10000),
        ("values that are JSON", b"".join(line + b"\n" for line in values), b"".join(map(frame, values))),
    ]:
        yield name, lines, fine(frames)


def wrap_refusals():
    a = THREADS
    for body, name in no_messages():
        yield f"{name}: {body[:60]}", body, fault(f"{name} at line 1")
    for body, name in BAD_BODIES:
        yield name, a + b"\n" + body + b"\n" + a + b"\n", fault(f"{name} at line 2")
    for name, lines, told in [
        ("the first line", b"{}\n" + a, "BadSeq at line 1"),
        ("the last line, without LF", a + b"\n" + a + b"\n{", "NotJson at line 3"),
        ("empty lines are counted", b"\n\r\n" + a + b"\n\n{}\n", "BadSeq at line 5"),
        ("the first of two refused lines", a + b"\n{}\n[]\n", "BadSeq at line 2"),
        ("a line of one space is not empty", a + b"\n \n", "NotJson at line 2"),
        ("a line of one CR is not empty", a + b"\n\r\r\n", "NotJson at line 2"),
        ("a CR alone at the end", a + b"\n\r", "NotJson at line 2"),
        ("a message over two lines", b'{"seq":1,\n"type":"x"}\n', "NotJson at line 1"),
        ("two messages on a line", a + b" " + a + b"\n", "NotJson at line 1"),
        ("two messages parted by a CR", a + b"\r" + a + b"\n", "NotJson at line 1"),
        ("a mark of byte order", b"\xef\xbb\xbf" + a + b"\n", "NotJson at line 1"),
        ("line 10001", (a + b"\n") * 10000 + b"7\n", "NotObject at line 10001"),
    ]:
        yield f"refused, {name}", lines, fault(told)


def wrap_limits():
    small, most, more = ("--max-body", "1024"), padded(1024), padded(1025)
    yield "a body of 1024, the limit", most + b"\n" + most, fine(frame(most) * 2), *small
    yield "a body of 1024, a CR before LF does not count", most + b"\r\n", fine(frame(most)), *small
    no_message = b"x" * 1025
    for name, lines, told in [
        ("one byte longer", more + b"\n", "BodyTooLong at line 1"),
        ("after a good line and an empty one", THREADS + b"\n\n" + more, "BodyTooLong at line 3"),
        ("by a lone CR at the end", most + b"\r", "BodyTooLong at line 1"),
        ("by blanks at the end", most + b" \n", "BodyTooLong at line 1"),
        ("before a line that is no message", more + b"\n{}\n", "BodyTooLong at line 1"),
        ("after a line that is no message", b"{}\n" + more, "BadSeq at line 1"),
        ("and no message", no_message + b"\n", "NotJson at line 1"),
        ("and no message of its kind", b'{"seq":1,"type":"event","body":"' + no_message + b'"}', "BadEvent at line 1"),
    ]:
        yield f"too long, {name}", lines, fault(told), *small
    for limit, *words in [(4194304,), (16777216, "--max-body=16777216")]:
        yield f"a body of {limit}, the limit", padded(limit), fine(frame(padded(limit))), *words
        longer = THREADS + b"\n" + padded(limit + 1) + b"\n"
        yield f"a body one byte longer than {limit}", longer, fault("BodyTooLong at line 2"), *words
    yield "the header limit changes nothing", THREADS, fine(frame(THREADS)), "--max-header", "32"


def wrap_examples():
    """The recorded streams have no other header field and no LF in a body, so that each is made of its bodies again."""
    for name in COUNTS:
        stream = bytes_of(stream_of(name))
        yield name, b"".join(body + b"\n" for _, body in split(stream)), fine(stream)


def wrap_and_show():
    """What was wrapped is listed, with each offset after the frames before it: 113, 68, 113 and 123 bytes."""
    status, frames, err = run(["wrap", os.path.join(EXAMPLES, "bodies.jsonl")])
    expect("wrap: the example", (status, len(frames), err), (0, 417, b""))
    lines = b"0 1 response initialize 1 ok\n113 2 event initialized\n"
    lines += b"181 3 request runInTerminal\n294 4 response launch 2 failed\n"
    with_reason = lines.replace(b"failed\n", b"failed cancelled\n")
    try_rows([
        ("wrap: the example, shown", ["show", frames], fine(lines)),
        ("wrap: the example, shown with reasons", ["show", frames, "--reasons"], fine(with_reason)),
    ])


def files():
    """What holds of the file of both tools."""
    for tool, made, told in [("show", FIRST, FIRST_LINE), ("wrap", INITIALIZE + b"\n", FIRST)]:
        path = file_of("a file's name", made)
        try_rows([
            ("a missing file", [tool, MISSING], fault("Read")),
            ("a folder", [tool, FOLDER], fault("Read")),
            ("a folder that is none", [tool, os.path.join(HERE, "README.md", "x")], fault("Read")),
            ("no name", [tool, ""], fault("Read")),
            ("a device without bytes", [tool, "/dev/null"], fine()),
            ("a device without end", [tool, "/dev/zero"], fault("FileTooLong")),
            ("a pipe", [tool, "/dev/stdin"], fine(told), made),
            ("a name with blanks", [tool, path], fine(told)),
        ], f"{tool}: ")
        expect(f"{tool}: a pipe, in pieces", through_pipe(tool, made), fine(told))
        expect(f"{tool}: a long pipe", run([tool, "/dev/stdin"], made * 3000)[0::2], (0, b""))
        output(tool, path)
    lengths()
    refused_memory()


def through_pipe(tool, content):
    child = subprocess.Popen([DAP, tool, "/dev/stdin"], **dict.fromkeys(("stdin", "stdout", "stderr"), subprocess.PIPE))
    for start in range(0, len(content), 40):
        child.stdin.write(content[start : start + 40])
        child.stdin.flush()
        time.sleep(0.05)
    out, err = child.communicate(timeout=60)
    return child.returncode, out, err


def output(tool, path):
    """Output that cannot be written. Where there is nothing to write, nothing fails."""
    cases = [("all", path, fault("Write")), ("nothing", b"", fine())]
    if tool == "show":
        cases += [("up to a refusal", FIRST + b"\r\n\r\n", fault("Write")), ("up to a cut", FIRST + b"C", fault("Write"))]
        cases += [("none", b"{}\n", fault("Truncated"))]
    else:
        cases += [("none", b"{}\n", fault("BadSeq at line 1"))]
    try_rows([
        *[(f"a full device, {name}", [tool, file], wanted, b"", ["stdout"]) for name, file, wanted in cases],
        ("no line can be written", [tool, FOLDER], (5, b"", b""), b"", ["stderr"]),
        ("nothing can be written", [tool, path], (5, b"", b""), b"", ["stdout", "stderr"]),
    ], f"{tool}: ")
    reader, writer = os.pipe()
    os.close(reader)
    done = subprocess.run([DAP, tool, path], stdout=writer, stderr=subprocess.PIPE, timeout=60)
    os.close(writer)
    expect(f"{tool}: a pipe that nobody reads", (done.returncode, b"", done.stderr), fault("Write"))


def lengths():
    """The greatest length of a file, and one byte more."""
    for front, tool, told in [
        (b"", "show", "HeaderTooLong at 0"),
        (b"\r\n\r\n", "show", "BadHeader at 0"),
        (b"", "wrap", "NotJson at line 1"),
        (b"[]\n", "wrap", "NotObject at line 1"),
    ]:
        path = long_file(MAX_FILE, front)
        try_rows([(f"{tool}: a file of {MAX_FILE}, {told}", [tool, path], fault(told))])
        os.truncate(path, MAX_FILE + 1)
        try_rows([(f"{tool}: a file of {MAX_FILE + 1}", [tool, path], fault("FileTooLong"))])
    # A good stream of just that length, and the bodies of one: a longer file is not even begun.
    lines = b"".join(b"%d 1 event e\n" % (4194304 * k) for k in range(16))
    for tool, content, told in [
        ("show", frame(padded(4194304 - 27)) * 16, lines),
        ("wrap", (padded(1048575) + b"\n") * 64, frame(padded(1048575)) * 64),
    ]:
        try_rows([
            (f"{tool}: all of a file of {MAX_FILE}", [tool, content], fine(told)),
            (f"{tool}: nothing of one byte more", [tool, content + b"\n"], fault("FileTooLong")),
        ])
    os.remove(path)


def refused_memory():
    """Memory that is refused, by a limit on what the process may map."""

    def bounded(tool, words, limit):
        return run([tool, *words], **bound(resource.RLIMIT_AS, limit))

    whole = 900000
    path = file_of("large", frame(THREADS) * whole)
    for tool in ("show", "wrap"):
        expect(f"{tool}: no memory for the file", bounded(tool, [path], 48 << 20), fault("OutOfMemory"))
    # There is memory for the 61200000 bytes of the file, and not for the listing, of some 24 million.
    status, out, err = bounded("show", [path], 76 << 20)
    expect("show: no memory for the listing", (status, b"", err), fault("OutOfMemory"))
    count = out.count(b"\n")
    lines = b"".join(b"%d 1 request threads\n" % (68 * k) for k in range(count))
    expect("show: no memory for the listing: whole lines", (out == lines, 0 < count < whole), (True, True))
    # And for the 47000000 bytes of these lines, and not for their frames, of 68000000.
    path = file_of("large", (THREADS + b"\n") * 1000000)
    expect("wrap: no memory for the frames", bounded("wrap", [path], 76 << 20), fault("OutOfMemory"))
    # Nor for the words of a command line of 1800000 bytes, before anything is read.
    expect("no memory for the command line", bounded("show", ["x" * 120000] * 15, 6 << 20), fault("OutOfMemory"))
    os.remove(path)


GROUPS = {"show": show, "replay": replay, "wrap": wrap, "files": files}
