"""Groups of scripts/try-program: the tools `check` and `drive` by worked cases, those of scripts/check_cases.txt and others,
whose expected texts are written out here by hand."""
import os

from commands import COMMANDS, ENDING, GATES, GIVEN, RESUMING, body_giving
from conversation import ROWS, compact, lines_of
from drive_model import drive_of
from slow_check import MAX_FILE
from trial import BAD_BODIES, CAPABILITIES, EXAMPLES, FOLDER, HERE, MISSING, RECORDING, expect, expect_in, fault, fine
from trial import long_file, output_of, recording_of, run, try_refusal, try_rows, try_usage
from try_transcripts import is_known

LEGAL = fine(b"legal\n")
SHAPES = os.path.join(HERE, "scripts", "shapes")


def found(line, rule):
    return 3, b"line %d rule %d\n" % (line, rule), b""


def wanted_of(cell):
    return LEGAL if cell == "legal" else found(*map(int, cell.split(".")))


def text_of(conversation):
    return "\n".join(lines_of(conversation)).encode()


def checking(text, words):
    return ["check", text if isinstance(text, bytes) else text_of(text), *words]


def check(text, *words):
    """What the program says of a text, or of a conversation."""
    return run(checking(text, words))


def checked(name, text, wanted, *words):
    """The row of that."""
    return f"check: {name}", checking(text, words), wanted


def refused(name, text, told, *words):
    """What is no transcript, also where it is to be explained; the line of that is in `explain_cases`."""
    status, out, err = check(text, *words)
    expect(f"check: {name}", (status, out, b"".join(err.splitlines(keepends=True)[:1])), fault(told))


def words_in(cell):
    return [] if cell == "-" else cell.split()


def no_frame(number):
    return f">scopes:{compact({'frameId': number})}"


def rules_of_commands():
    """Rule 5, of each command: its own flag, and all others; and what needs none."""
    for command, flag in GATES.items():
        for is_on, wanted in ((True, LEGAL), (False, found(3, 5))):
            text = f"$ask <+initialize:{compact({flag: is_on})} >{command}"
            yield f"`{command}` and its capability, {is_on}", text, wanted
        others = {other: True for other in GATES.values() if other != flag}
        yield f"`{command}` with no other capability", f"$ask <+initialize:{compact(others)} >{command}", found(3, 5)
    for command in [*sorted(set(COMMANDS) - set(GATES) - {"initialize"}), "goto"]:
        yield f"`{command}` needs no capability", f"$open >{command}", LEGAL


def rules_of_references():
    """Rule 6: numbers of each kind at each command that uses one, and what gives them and ends their life."""
    for command in ("scopes", "evaluate", "completions"):
        for frame, wanted in ((1, LEGAL), (2, LEGAL), (3, found(5, 6))):
            yield f"frame {frame}, at `{command}`", f"$stopped >{command}:{compact({'frameId': frame})}", wanted
    for command in ("variables", "setVariable"):
        text = f'$stopped >{command}:{{"variablesReference":1}}'
        yield f"a frame in place of variables, at `{command}`", text, found(5, 6)
    for number in (-1, 0, 2**31, 2**64 - 1, -(2**63)):
        yield f"the number {number}", f"$stopped {no_frame(number)}", found(5, 6)
    for number in (1.0, 3.5, -0.0, 2**64, "3", None, [3], True):
        yield f"no whole number: {number!r}", f"$stopped {no_frame(number)}", LEGAL
    for command, (kind, body) in ((command, body_giving(command, 5)) for command in GIVEN):
        if kind == "variables":
            text = f'$stopped >{command} <+{command}:{compact(body)} >variables:{{"variablesReference":5}}'
            yield f"what `{command}` gives", text, LEGAL
    # Each of these has two lines.
    resumes = [(f"`{command}`", f">{command} <+{command}") for command in RESUMING]
    resumes += [(f"the event `{name}`", f"<*{name} >threads") for name in ENDING]
    resumes_not = [
        ("a `next` that fails", ">next <-next"),
        ("the event `stopped`, and a `next` under way", "<*stopped >next"),
        ("the client's `continued`, and the adapter's `next`", ">*continued <next"),
        ("`pause`", ">pause <+pause"),
        ("a `next` that the client answers", "<next >+next"),
    ]
    for those, wanted in ((resumes, found(7, 6)), (resumes_not, LEGAL)):
        for name, text in those:
            yield f"a frame after {name}", f"$stopped {text} {no_frame(1)}", wanted


def transcripts():
    if not is_known("check"):
        return
    groups = rules, lines, explained, every_finding, commands_not_served, shapes, shapes_among_rules, bodies, files, examples
    for rows in groups:
        try_rows(rows())
    for word in ("--any-seq=x", "--any-seq=", "--all=x", "--open=x", "--any-seq=adapter,client"):
        try_refusal(f"usage of check {word}", ["check", text_of("$ask"), word], b"error: ")
    try_usage([(["check"], b"<FILE>"), (["check", "x", "y"], b"unexpected argument 'y'")])
    expect_in("usage of check --bodies=x", check(b"", "--bodies=x")[2], b"error: ")
    # The definition of rule 8 and the code's rows are what is printed of one table.
    many_findings()
    expect("scripts/shapes compare", output_of([SHAPES, "compare"]), fine())


def rules():
    rows = [("no bytes", b"", LEGAL)]
    rows += [(name, text, *map(wanted_of, wanted)) for name, text, *wanted in ROWS["rules"]]
    for name, text, wanted, *any_seq in [*rows, *rules_of_commands(), *rules_of_references()]:
        yield checked(name, text, wanted)
        if text:
            yield checked(f"{name}: any seq", text, *(any_seq or [wanted]), "--any-seq")


def lines():
    both, first, other = text_of("$open"), text_of("$ask"), text_of(">threads")
    for name, text, wanted in [
        ("a last line without an end", both, LEGAL),
        ("a last line with an end", both + b"\n", LEGAL),
        ("CR LF", both.replace(b"\n", b"\r\n") + b"\r\n", LEGAL),
        ("a CR after the last body is a blank", both + b"\r", LEGAL),
        ("two CR before LF", first + b"\r\r\n", LEGAL),
        ("a CR alone at the end", both + b"\n\r", fault("BadLine at line 3")),
        ("two CR alone", b"\r\r\n", fault("BadLine at line 1")),
        ("empty lines alone", b"\n\r\n\n", LEGAL),
        ("empty lines are counted", b"\n\r\n" + other, found(3, 3)),
        ("empty lines are counted between", both.replace(b"\n", b"\n\n\n") + b"\n\n" + other, found(6, 1)),
        ("a blank", b" \n", fault("BadLine at line 1")),
        ("a word", both + b"\n\nx\n", fault("BadLine at line 4")),
        ("a prefix without a blank", b">{}", fault("BadLine at line 1")),
        ("half a prefix", b"<", fault("BadLine at line 1")),
        ("a blank before the prefix", b" " + first, fault("BadLine at line 1")),
        ("a byte order mark", b"\xef\xbb\xbf" + first, fault("BadLine at line 1")),
        ("a tab in the prefix", b">\t{}", fault("BadLine at line 1")),
        ("no body", b"> ", fault("NotJson at line 1")),
        ("no body, and CR LF", b"< \r\n", fault("NotJson at line 1")),
        ("blanks around a body", b">   " + first[2:] + b"\t \r", LEGAL),
        ("what is no line beats what is found", text_of("<+initialize/1") + b"\nx", fault("BadLine at line 2")),
        ("what is no message beats what is found", other + b"\n> {}", fault("BadSeq at line 2")),
        ("the first that is no line", b"x\n> []", fault("BadLine at line 1")),
        ("the first that is no message", b"> []\nx", fault("NotObject at line 1")),
    ]:
        yield checked(name, text, wanted)
        if wanted != found(6, 1):
            yield checked(f"{name}: any seq", text, wanted, "--any-seq")


def explained():
    """Why each rule is broken, and that nothing is explained where there is no finding or it was not asked for."""
    for name, text, words, place, why in ROWS["explained"]:
        status, told, err = wanted_of(place)
        yield checked(name, text, (status, told, err), *words_in(words))
        told += why.encode() + b"\n"
        yield checked(f"{name}: explained", text, (status, told, err), *words_in(words), "--explain")
    yield checked("legal: explained", "$open", LEGAL, "--explain")
    refused("no message: explained", b"x", "BadLine at line 1", "--explain")


def every_finding():
    """Every line that breaks a rule, each request that nothing has answered, and the numbers of one side."""
    for name, text, words, out in ROWS["all"]:
        words, lines = words_in(words), out.split(" / ")
        wanted = (0 if lines[0] == "legal" else 3, "".join(line + "\n" for line in lines).encode(), b"")
        yield checked(f"{name}: {' '.join(words)}", text, wanted, *words)
    for words in ("--all", "--open", "--all --open --explain"):
        refused(f"no message: {words}", text_of("$twice") + b"\nx", "BadLine at line 6", *words.split())
    for word in ("--any-seq=both", "--any-seq=adapter", "--any-seq=client"):
        yield f"check: {word} before the file", ["check", word, text_of("$ask")], LEGAL


def commands_not_served():
    """Of each command of the protocol that is none of this profile, and of each of it, what is said where it waits."""
    others = "dataBreakpointInfo disassemble goto gotoTargets readMemory restartFrame setDataBreakpoints setExpression"
    others += " setInstructionBreakpoints stepInTargets terminateThreads writeMemory"
    for command in [*others.split(), *sorted(set(COMMANDS) - set(GATES) - {"initialize"})]:
        said = b"known to the protocol, not in this profile\n" if command in others.split() else b""
        out = b"legal\nline 3 request 2 %s is not answered\n" % command.encode() + said
        yield checked(f"`{command}` waits", f"$open >{command}", fine(out), "--open", "--explain")


def many_findings():
    """A transcript in which 100000 lines break a rule is explained in one pass. Where the lines before each were read again,
    an hour would not be enough."""
    count = 100000
    numbers = "seq 1 was due, in the first message of its side", "seq {} was due, after the message of line {}"
    own = "each message of the adapter breaks rule 1: --any-seq=adapter leaves its numbers untested\n"
    early = "the first request of the client is not initialize"
    again = early, "request 7 again, while request 7 of line {1} has no response"
    never = early, "frameId 3, which no response has given"
    event = '< {"seq":0,"type":"event","event":"output","body":{"output":"a"}}\n'
    request = '> {"seq":%d,"type":"request","command":"%s","arguments":{"frameId":3}}\n'
    answer = '< {"seq":%d,"type":"response","request_seq":%d,"success":false,"command":"scopes"}\n'
    asked = "".join(request % (n, "scopes") + answer % (n, n) for n in range(1, count + 1))
    for name, text, rule, first, other, step, hint, words in [
        ("each seq is 0", event * count, 1, *numbers, 1, own, []),
        ("each seq is 0, with bodies", event * count, 1, *numbers, 1, own, ["--bodies"]),
        ("each seq is that of a request that waits", request % (7, "x") * count, 2, *again, 1, "", ["--any-seq"]),
        ("each frame is none", asked, 6, *never, 2, "", []),
    ]:
        told = f"line 1 rule {3 if rule > 1 else 1}\n{first}\n"
        for n in range(1, count):
            told += f"line {step * n + 1} rule {rule}\n{other.format(n + 1, step * (n - 1) + 1)}\n"
        wanted = 3, f"{told}{count} findings\n{hint}".encode(), b""
        got = run(["check", text.encode(), "--all", "--explain", *words], timeout=20)
        # The texts are too long to be told where they differ.
        expect(f"check: {count} findings: {name}", got == wanted, True)


def shapes():
    """Rule 8: what a message holds. It counts where it is asked for, and behind the seven others."""
    begin = '>initialize:{"adapterID":"toy"} <+initialize:$every '
    # Frame 1 and the holder 2, where a row names them.
    given = '$stack:{"stackFrames":[{$frame}]} >3scopes:{"frameId":1} '
    given += '<+scopes:{"scopes":[{"name":"Locals","variablesReference":2,"expensive":false}]} '
    for name, text, why in ROWS["shapes"]:
        is_used = "frameId" in text.split()[0] or "variablesReference" in text.split()[0]
        text, words = begin + given * is_used + text, ["--any-seq"] * is_used
        line = b"" if why == "legal" else b"line %d rule 8\n" % len(lines_of(text))
        status = 3 if line else 0
        out = line or b"legal\n"
        told = out + (why.encode() + b"\n" if line else b"")
        count = b"1 finding\n" if line else b""
        yield checked(name, text, LEGAL, *words)
        yield checked(f"{name}: bodies", text, (status, out, b""), *words, "--bodies")
        yield checked(f"{name}: bodies, explained", text, (status, told, b""), *words, "--explain", "--bodies")
        yield checked(f"{name}: bodies, all", text, (status, out + count, b""), *words, "--bodies", "--all")


def shapes_among_rules():
    text = '>initialize:{"adapterID":"toy"} <+initialize <*stopped:{"reason":7} - '
    text += '<4*stopped:{"reason":7} <4*thread:{"reason":7}'
    waits = f"{text} >threads"
    both = b"line 3 rule 8\nline 5 rule 1\nline 6 rule 8\n3 findings\n"
    said = b"line 3 rule 8\nevent stopped: body.reason is no text\n"
    said += b"line 5 rule 1\nseq 3 was due, after the message of line 3\n"
    said += b"line 6 rule 8\nevent thread: body.reason is no text\n3 findings\n"
    waiting = b"line 7 request 2 threads is not answered\n"
    for name, text, words, out in [
        ("the first", text, [], b"line 3 rule 8\n"),
        ("all", text, ["--all"], both),
        ("all, explained", text, ["--all", "--explain"], said),
        ("without rule 1", text, ["--all", "--any-seq=adapter"], both.replace(b"5 rule 1", b"5 rule 8")),
        ("what waits", waits, ["--open"], b"line 3 rule 8\n" + waiting),
        ("all, and what waits", waits, ["--open", "--all"], both + waiting),
    ]:
        yield checked(f"bodies among rules: {name}", text, (3, out, b""), "--bodies", *words)
    for words in ([], ["--all"], ["--explain", "--open"]):
        yield checked(f"bodies: no bytes {words}", b"", LEGAL, "--bodies", *words)
        refused(f"bodies: no message {words}", b"\nx", "BadLine at line 2", "--bodies", *words)


def bodies():
    deep = b'< {"seq":1,"type":"event","event":"output","body":%s}'
    ask = text_of("$ask")
    no_json = [b'"\xff"', b'"\\ud800"', b"NaN", b"1e999", b'"\t"', b"[" * 127 + b"]" * 127]
    bad = [(b'{"seq":1,"type":"x","a":%s}' % value, "NotJson") for value in no_json]
    bad += [(b'{"seq":1,"type":"x"} {}', "NotJson"), (b"null", "NotObject"), *BAD_BODIES]
    bad += [(b'{"seq":-0}', "BadSeq"), (b'{"seq":9007199254740992,"type":"x"}', "BadSeq")]
    for command in (b"c" * 65, b"\xc3\xa9" * 33):
        bad += [(b'{"seq":1,"type":"request","command":"' + command + b'"}', "BadCommand")]
    bad += [(b'{"seq":1,"type":"response","command":"x","request_seq":1,"success":null}', "BadSuccess")]
    bad += [(b'{"seq":1,"type":"event","event":null}', "BadEvent")]
    for body, name in bad:
        for side in (b"> ", b"< "):
            yield checked(f"{name}: {body[:60]}", b"\n" + side + body, fault(f"{name} at line 2"))
    for name, text in [
        ("nested as deep as may be", deep % (b"[" * 126 + b"]" * 126)),
        ("a command of 64 bytes", ask + b'\n< {"seq":1,"type":"request","command":"' + b"\xc3\xa9" * 32 + b'"}'),
        ("the last of two equal keys", ask.replace(b'"seq": 1', b'"seq":"x","seq":1')),
        ("`null` counts as absent", ask[:-1] + b',"arguments":null,"body":1,"message":1}'),
        ("a line of many bytes", deep % (b'"' + b"a" * 20000000 + b'"')),
        ("many lines", text_of("<*output " * 50000) + b"\n"),
    ]:
        yield checked(name, text, LEGAL)


def files():
    long = long_file(MAX_FILE + 1)
    yield "check: a file too long", ["check", long], fault("FileTooLong")
    os.truncate(long, MAX_FILE)
    yield "check: a file as long as may be", ["check", long], fault("BadLine at line 1")
    os.remove(long)
    yield "check: a device without end", ["check", "/dev/zero"], fault("FileTooLong")
    yield "check: a missing file", ["check", MISSING], fault("Read")
    yield "check: a folder", ["check", FOLDER], fault("Read")
    yield "check: a pipe", ["check", "/dev/stdin"], LEGAL, text_of("$open")
    yield "check: the option before the file", ["check", "--any-seq", text_of(">0initialize")], LEGAL


def examples():
    """The transcripts of real debuggers, and of adapters that break rule 8."""
    broken = [
        ("frame_without_line", 12, b"response to stackTrace: body.stackFrames[0] has no line\n"),
        ("scope_without_expensive", 14, b"response to scopes: body.scopes[1] has no expensive\n"),
        ("reference_as_text", 16, b"response to variables: body.variables[1].variablesReference is no whole number\n"),
    ]
    rows = [("debugpy", "", LEGAL), ("debugpy", "any seq", LEGAL), ("debugpy", "bodies", LEGAL)]
    rows += [("delve", "", found(2, 1)), ("delve", "any seq", found(6, 2)), ("delve", "bodies", found(6, 2))]
    rows += [(name, "", LEGAL) for name, _, _ in broken]
    rows += [(name, "bodies explained", (3, b"line %d rule 8\n" % line + why, b"")) for name, line, why in broken]
    options = {"any seq": ["--any-seq"], "bodies": ["--any-seq", "--bodies"], "bodies explained": ["--bodies", "--explain"]}
    for name, how, wanted in rows:
        told = f"check: examples/transcripts/{name}.txt" + (f": {how.split(' ex')[0]}" if how else "")
        path = os.path.join(EXAMPLES, "transcripts", name + ".txt")
        yield told, ["check", path, *options.get(how, [])], wanted


def full_device():
    """The output of `check` and `drive` cannot be written."""
    for name, words in [
        ("check: legal", ["check", text_of("$open")]),
        ("check: a finding", ["check", text_of(">2initialize")]),
        ("check: a finding, explained", ["check", "--explain", text_of("<*initialized")]),
        ("drive", ["drive", RECORDING, BEGIN.encode()]),
    ]:
        status, out, err = fault("Write")
        err += b"standard output: cannot be written\n" * ("--explain" in words)
        try_rows([(f"{name}: a full device", words, (status, out, err), b"", ["stdout"])])


ANSWERED = b"< " + CAPABILITIES + b'\n< {"event":"initialized","seq":2,"type":"event"}\n'
BEGUN = b'> {"arguments":{"adapterID":"rec"},"command":"initialize","seq":1,"type":"request"}\n' + ANSWERED
ENDED = BEGUN + (
    b'> {"command":"disconnect","seq":2,"type":"request"}\n'
    b'< {"command":"disconnect","request_seq":2,"seq":3,"success":true,"type":"response"}\n'
)
CANCELLED = BEGUN + (
    b'> {"command":"threads","seq":2,"type":"request"}\n'
    b'> {"command":"threads","seq":3,"type":"request"}\n'
    b'> {"arguments":{"requestId":2},"command":"cancel","seq":4,"type":"request"}\n'
    b'< {"body":{"error":{"format":"The request was cancelled.","id":1012}},"command":"threads","message":"cancelled",'
    b'"request_seq":2,"seq":3,"success":false,"type":"response"}\n'
    b'< {"command":"cancel","request_seq":4,"seq":4,"success":true,"type":"response"}\n'
    b'< {"body":{"threads":[]},"command":"threads","request_seq":3,"seq":5,"success":true,"type":"response"}\n'
)
BEGIN = 'send initialize {"adapterID":"rec"}\nrun\n'
TERMINAL = """send initialize {"adapterID":"rec","supportsRunInTerminalRequest":true}
run
send launch {"console":"terminal"}
send configurationDone
run
"""
STOP = BEGIN + 'send launch\nsend configurationDone\nrun\nsend stackTrace {"threadId":1}\nrun\n'
SCOPES = 'send scopes {"frameId":1}'
NEXT = 'send next {"threadId":1}'
SET_X = 'send setVariable {"variablesReference":2,"name":"x","value":"9"}'


# Of each the script, the fault, and the words.
DRIVE_FAULTS = [
    ("a word that is not known", "jump", "Script at line 1"),
    ("empty lines are counted", "\n\r\n" + BEGIN + "jump", "Script at line 5"),
    ("a blank after a word", "run ", "Script at line 1"),
    ("a blank before a word", " run", "Script at line 1"),
    ("another case", "Run", "Script at line 1"),
    ("no command", "send", "Script at line 1"),
    ("no command, and a blank", "send ", "Script at line 1"),
    ("a command that is not known", "send jump {}", "Script at line 1"),
    ("two blanks", "send  threads", "Script at line 1"),
    ("a blank after the command", "send threads ", "Script at line 1"),
    ("no JSON", "send threads {", "Script at line 1"),
    ("no UTF-8", b"send threads \"\xff\"", "Script at line 1"),
    ("a CR at the end", "run\r", "Script at line 1"),
    ("a comment, which there is none", "\n# run\nrun", "Script at line 2"),
    ("a comment without a word", "#", "Script at line 1"),
    ("a comment behind a word", "run # to the end", "Script at line 1"),
    ("a comment behind a blank", " # run", "Script at line 1"),
    ("a missing argument", "send next {}", "Call at line 1"),
    ("no arguments", "send next", "Call at line 1"),
    ("`null` as arguments", "send next null", "Call at line 1"),
    ("a launch that is no object", "send launch []", "Call at line 1"),
    ("a float in a launch", 'send launch {"a":[1.0]}', "Call at line 1"),
    ("a launch nested 101 deep", 'send launch {"a":' + "[" * 100 + "]" * 100 + "}", "Call at line 1"),
    ("a launch nested 100 deep", 'send launch {"a":' + "[" * 99 + "]" * 99 + "}", "WrongPhase at line 1"),
    ("a terminal, and no word", "terminal", "Script at line 1"),
    ("a terminal, and a word that is not known", "terminal maybe", "Script at line 1"),
    ("a terminal, and two blanks", "terminal  ok", "Script at line 1"),
    ("no terminal is wanted", "terminal ok", "Call at line 1"),
    ("a terminal is answered twice", TERMINAL + "terminal ok\nterminal ok", "Call at line 7"),
    ("no number left for a terminal", TERMINAL + "send threads\nterminal no", "Client", "--max-seq", "4"),
    ("too early", "send threads", "WrongPhase at line 1"),
    ("too early, after an answer", BEGIN + "send pause {\"threadId\":1}", "WrongPhase at line 3"),
    ("not offered", BEGIN + "send restart", "NotSupported at line 3"),
    ("after the end", BEGIN + "send disconnect\nsend threads", "Ended at line 4"),
    ("full", BEGIN + "send threads\nsend threads\nsend threads", "Full at line 5", "--max-requests", "2"),
    ("too large", f'send initialize {{"adapterID":"{"a" * 1024}"}}', "TooLarge at line 1", "--max-body", "1024"),
    ("no number left for the client", BEGIN + "send threads\n" * 3, "SeqExhausted at line 5", "--max-seq", "3"),
    ("no number left for an answer", BEGIN + "send threads\nrun\n" * 2, "Adapter", "--max-seq", "3"),
    ("no number left for the adapter", "send initialize\nrun", "Adapter", "--max-seq", "1"),
    ("a stop is left", STOP + f"{NEXT}\n{SCOPES}", "NotStopped at line 9"),
    ("a stop is gone", STOP + f"{NEXT}\nrun\n{SCOPES}", "UnknownReference at line 10"),
    ("a frame in place of a holder", STOP + SET_X, "UnknownReference at line 8"),
    ("a value that is missing", STOP + f"{SCOPES}\nrun\nsend setVariable {{}}", "Call at line 10"),
    ("a frame in place of variables", STOP + 'send variables {"variablesReference":1}', "UnknownReference at line 8"),
]


def driving(script, words=()):
    return ["drive", RECORDING, script if isinstance(script, bytes) else script.encode(), *words]


def drives():
    if not is_known("drive"):
        return
    checks = is_known("check")
    rows = [
        ("no lines", "", b""),
        ("to the end", BEGIN + "send disconnect\nrun\n", ENDED),
        ("CR LF, empty lines and no last end", "\r\n" + BEGIN.replace("\n", "\r\n\n") + "send disconnect\r\n\nrun", ENDED),
        ("a turn and polls", BEGIN.replace("run", "turn") + "poll\nturn\nsend disconnect\nturn\nturn\npoll", ENDED),
        ("cancelled", BEGIN + 'send threads\nsend threads\nsend cancel {"requestId":2}\nrun\n', CANCELLED),
        ("blanks before the JSON", BEGIN.replace(" {", "  \t{"), BEGUN),
        ("arguments that count for nothing", 'send initialize {"adapterID":"rec","x":1.5,"linesStartAt1":null}\nrun', BEGUN),
    ]
    # Each message of a session with a stop, as the model has it; what its first lines are is written out above.
    looks = [SCOPES, SET_X, 'send variables {"variablesReference":2}', NEXT]
    looks += ['send continue {"threadId":1}', "send disconnect"]
    script = STOP + "".join(f"{line}\nrun\n" for line in looks)
    _, transcript, _ = drive_of(recording_of(RECORDING), script.encode())
    expect("drive: its first lines", transcript[: len(BEGUN)], BEGUN)
    for name, script, out in [*rows, ("a session with a stop", script, transcript)]:
        try_rows([(name, driving(script), fine(out))], "drive: ")
        try_rows([(name, driving(script, ["--check"]), (0, out, b"legal\n"))], "drive --check: ")
        try_rows([(f"drive: {name}: is legal", ["check", out], LEGAL)] if checks else [])
    for name, script, told, *words in DRIVE_FAULTS:
        try_rows([(name, driving(script, words), fault(told))], "drive: ")
        try_rows([(name, driving(script, [*words, "--check"]), fault(told))], "drive --check: ")
    drive_terminals(checks)
    drive_files()
    if checks:
        full_device()


def drive_terminals(checks):
    """What comes once the debuggee is to run in a terminal: the lines of the transcript after the adapter's request."""
    asked = (
        b'< {"command":"configurationDone","request_seq":3,"seq":3,"success":true,"type":"response"}\n'
        b'< {"arguments":{"args":["recorded"],"cwd":"/","kind":"integrated","title":"recorded"},"command":"runInTerminal",'
        b'"seq":4,"type":"request"}\n'
    )
    started = (
        b'> {"body":{},"command":"runInTerminal","request_seq":4,"seq":4,"success":true,"type":"response"}\n'
        b'< {"command":"launch","request_seq":2,"seq":5,"success":true,"type":"response"}\n'
    )
    not_started = (
        b'> {"body":{"error":{"format":"The terminal refused.","id":1018}},"command":"runInTerminal",'
        b'"message":"terminalRefused","request_seq":4,"seq":4,"success":false,"type":"response"}\n'
        b'< {"body":{"error":{"format":"The debuggee refused.","id":1013}},"command":"launch","message":"debuggee",'
        b'"request_seq":2,"seq":5,"success":false,"type":"response"}\n'
    )
    for name, script, last in [
        ("a terminal is asked for", TERMINAL, asked),
        ("it runs in a terminal", TERMINAL + "terminal ok", asked + started),
        ("a terminal is refused", TERMINAL + "terminal no\nrun", asked + not_started),
    ]:
        status, transcript, line = run(driving(script))
        expect(f"drive: {name}", (status, transcript[-len(last) :], line), fine(last))
        if checks:
            expect(f"drive: {name}: is legal", check(transcript), LEGAL)


def drive_files():
    script = BEGIN.encode()
    try_rows([
        ("a recording that is none", ["drive", b"[]", script], fault("Recording")),
        ("a recording that is no JSON", ["drive", b"{", script], fault("Recording")),
        ("a recording with a bad key", ["drive", b"{}", script], fault("Recording")),
        ("the recording before the script", ["drive", b"[]", b"jump"], fault("Recording")),
        ("a missing recording", ["drive", MISSING, RECORDING], fault("Read")),
        ("a missing script", ["drive", b"[]", MISSING], fault("Read")),
        ("a script without end", ["drive", RECORDING, "/dev/zero"], fault("FileTooLong")),
        ("files are read in their order", ["drive", "/dev/zero", MISSING], fault("FileTooLong")),
    ], "drive: ")
    for words, part in [
        ([], b"<SCRIPT>"),
        ([RECORDING, "--max-seq", "0"], b"1..=9007199254740991"),
        ([RECORDING, "--any-seq"], b"--any-seq"),
        ([RECORDING, "--check=all"], b"--check"),
    ]:
        try_refusal(" ".join(["usage of drive", *words]), ["drive", RECORDING, *words], part)


GROUPS = {"transcripts": transcripts, "drives": drives}
