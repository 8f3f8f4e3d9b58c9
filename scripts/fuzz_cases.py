"""How scripts/fuzz makes its cases: each from a seed and a number alone, by random choice, and most of them with damage.

Sessions, scripts, transcripts and recordings are those of random_sessions.py and try_transcripts.py.
"""
import dataclasses
import json
import os
import random

from commands import COMMANDS
from damage import Raw, Writer, changed_bytes, changed_list, changed_value, noise, odd_value
from drive_model import drive_of
from program_model import read_recording
from random_sessions import mixed_session, random_recording
from session_model import frame
from slow_check import Refused, is_text, read_json
from trial import EXAMPLES, RECORDING, RECORDINGS, bytes_of, file_of, recording_of, request, split
from try_transcripts import edited, random_script


@dataclasses.dataclass(frozen=True)
class Case:
    """What the program is given: the bytes of its files, and for `serve` of its standard input after them."""

    tool: str
    contents: list
    options: dict


def case_of(seed, number):
    return GROUPS[group_of(number)](random.Random(f"{seed} {number}"))


def group_of(number):
    """The groups take turns."""
    return list(GROUPS)[number % len(GROUPS)]


def chance(choice, of):
    return choice.randrange(of) == 0


# Streams


def stream_case(choice):
    return choice.choice([session_case] * 5 + [listing_case, listing_case, lines_case])(choice)


def session_case(choice):
    """A session, with what a client does not send here and there."""
    path = recording_file(choice)
    guided = mixed_session(choice, path, 50)
    bodies = guided.requests
    for _ in range(choice.choice([0, 0, 0, 1, 3])):
        bodies.insert(choice.randrange(len(bodies) + 1), any_message(choice))
    if len(bodies) > 1 and chance(choice, 5):
        place = choice.randrange(1, len(bodies))
        bodies[place]["seq"] = bodies[place - 1].get("seq")
    options = {**guided.limits, **other_limits(choice)}
    return Case("serve", [bytes_of(path), stream_of(choice, bodies, options)], options)


def recording_file(choice):
    """The path of one of the recordings of the examples, or of a random one."""
    return choice.choice(RECORDINGS) if chance(choice, 2) else made_file(json.dumps(random_recording(choice)).encode())


def made_file(content):
    """One for each process."""
    return file_of(f"recording-{os.getpid()}", content)


def other_limits(choice):
    limits = {}
    if chance(choice, 6):
        limits["max_seq"] = choice.randrange(1, 40)
    if chance(choice, 6):
        limits["max_requests"] = choice.choice([2, 3])
    return {**limits, **header_limit(choice)}


def header_limit(choice):
    return {"max_header": choice.choice([32, 33, 40, 64])} if chance(choice, 6) else {}


def listing_case(choice):
    options = {**header_limit(choice), **({"max_body": 1024} if chance(choice, 6) else {})}
    tool = choice.choice(["show", "show", "unwrap"])
    for option in ("json", "reasons", "keep_going") if tool == "show" else ():
        if chance(choice, 3):
            options[option] = True
    return Case(tool, [stream_of(choice, messages(choice), options)], options)


def lines_case(choice):
    options = {"max_body": 1024} if chance(choice, 4) else {}
    writer, bodies = line_writer(choice), messages_with_damage(choice, messages(choice))
    contents = [about_as_long(choice, writer.bytes(one), options) for one in bodies]
    lines = [content + choice.choice([b"\n"] * 8 + [b"\r\n", b"\n\n"]) for content in contents]
    return Case("wrap", [bytes_with_damage(choice, b"".join(lines), 6)], options)


def messages(choice):
    """Messages of a recorded stream, and others."""
    folder = os.path.join(EXAMPLES, "streams")
    name = choice.choice(sorted(name for name in os.listdir(folder) if name.endswith(".dap")))
    bodies = [body for _, body in split(bytes_of(os.path.join(folder, name))) if len(body) < 3000]
    there = [json.loads(body) for body in choice.sample(bodies, choice.randrange(5))]
    return there + [any_message(choice) for _ in range(choice.randrange(5))]


NAMES = ["", "threads", "initialize", "runInTerminal", "stopped", "a\nb", "\x00\x1f\x7f\x80", "\u2028"]
NAMES += ["c" * 64, "c" * 65, "\u00e9" * 32, "\u00e9" * 33]
# What may stand at each key of a message.
MEMBERS = {
    "seq": [0, 1, 2, 2**53 - 1],
    "type": ["request", "response", "event", "x", "Event", ""],
    "command": NAMES,
    "event": [*NAMES, "e" * 500],
    "request_seq": [0, 1, 2**53 - 1],
    "success": [True, False],
    "message": [None, "m"],
    "body": [None, {}, [1], 7],
}


def any_message(choice):
    """A message of any kind, in some order of its keys."""
    keys = choice.sample(sorted(MEMBERS), len(MEMBERS) - choice.choice([0, 0, 1, 2]))
    return {key: choice.choice(MEMBERS[key]) for key in keys}


def stream_of(choice, bodies, options):
    """The frames of messages, of which some are damaged."""
    writer, is_odd = Writer(choice, chance(choice, 3)), chance(choice, 3)
    contents = [about_as_long(choice, writer.bytes(one), options) for one in messages_with_damage(choice, bodies)]
    frames = [frame_by(choice.choice(GOOD_HEADERS), one) if is_odd and chance(choice, 4) else frame(one) for one in contents]
    if frames and chance(choice, 3):
        place = choice.randrange(len(frames))
        frames[place] = odd_frame(choice, contents[place], options.get("max_header", 8192))
    return bytes_with_damage(choice, b"".join(frames), 4)


def messages_with_damage(choice, values):
    """The messages, mostly with one or some damaged, or in another order."""
    values = list(values)
    if chance(choice, 5):
        values = changed_list(choice, values)
    for _ in range(choice.choice([0, 0, 1, 1, 2, 4]) if values else 0):
        place = choice.randrange(len(values))
        values[place] = changed_message(choice, values[place])
    return values


def changed_message(choice, message):
    """With another value at a key that its command knows, or with any change."""
    known = keys_of(message.get("command")) if isinstance(message, dict) else []
    if not known or chance(choice, 3):
        return changed_value(choice, message, choice.choice([1, 1, 2]))
    return {**message, "arguments": changed_arguments(choice, known, message.get("arguments"))}


def keys_of(command):
    return COMMANDS[command].keys if is_text(command) and command in COMMANDS else []


def changed_arguments(choice, known, arguments):
    return {**(arguments if isinstance(arguments, dict) else {}), choice.choice(known).name: odd_value(choice)}


def about_as_long(choice, content, options):
    """Blanks behind it make it as long as may be, or a little shorter or longer."""
    is_chosen = "max_body" in options and len(content) < 1024 and chance(choice, 8)
    return content.ljust(1024 + choice.choice([-1, 0, 0, 1])) if is_chosen else content


def bytes_with_damage(choice, content, of):
    """The bytes, or one time of so many some of them changed, and seldom others behind some of them."""
    if not chance(choice, of):
        return content
    if chance(choice, 8):
        return content[: choice.randrange(len(content) + 1)] + noise(choice)
    return changed_bytes(choice, content)


# Header blocks, with the place of the body's length.
GOOD_HEADERS = [
    b"content-length:%d", b"CONTENT-LENGTH:\t %d \t", b"Content-Length: 000%d", b"X: y\r\nContent-Length: %d",
    b'Content-Length: %d\r\nContent-Type: a; b="c:d"', b"!~: \r\nContent-Length: %d\r\nA:",
    b"Content-Length: %d\r\nContent-Length-X: 1",
]
BAD_HEADERS = [
    b"Content-Length: %d\r\nContent-Length: %d", b"Content-Length: x\r\ncontent-lengtH: %d",
    b"Content-Length: %d\r\nCONTENT-LENGTH:", b"Content-Length %d", b"Content-Length : %d", b" Content-Length: %d",
    b"Content-Length: %d\n", b"Content-Length: %d\r", b"X:%d", b"\r\nContent-Length: %d", b"", b"Content-Length: %dx",
    b"Content-Length: +%d", b"Content-Length: -%d", b"Content-Length:", b"Content-Length: %d 0", b"Content-Length: 0x%x",
    b"Content-Length: %d99999999999999999999", b"Content-Length: 1:%d", b":a\r\nContent-Length: %d",
    b"a b: c\r\nContent-Length: %d", b"Content-Length: %d\r\nX", b"Content-Length: \x0b%d", b"X\x80: a\r\nContent-Length: %d",
    *(b"Content-Length: %%d\r\nX: %c" % code for code in (0, 10, 11, 13, 31, 127, 128, 255)),
]


def frame_by(header, body):
    return header % ((len(body),) * header.count(b"%")) + b"\r\n\r\n" + body


def odd_frame(choice, body, max_header):
    """A frame whose header is bad, or about as long as may be, or has another length than the body."""
    kind, length = choice.randrange(4), len(body)
    if kind == 0:
        zeros = b"0" * (max_header - 20 - len(str(length)) + choice.choice([-1, 0, 1]))
        return frame_by(b"Content-Length: " + zeros + b"%d", body)
    if kind == 1:
        length = max(0, length + choice.choice([-2, -1, 1, 2]))
        return frame_by(b"Content-Length: %d" % length, body)
    return frame_by(choice.choice(BAD_HEADERS), body)


# Recordings


def recording_case(choice):
    """A recording, mostly damaged, and a session or a script over it where it can be read."""
    told = recording_of(choice.choice(RECORDINGS)) if chance(choice, 4) else random_recording(choice)
    if chance(choice, 12):
        told["moments"][0]["threads"][0]["frames"][0]["scopes"] = [{"name": "s", "variables": chain(choice)}]
    told = changed_value(choice, told, choice.choice([0, 1, 1, 1, 2, 3]))
    content = Writer(choice, chance(choice, 3)).bytes(told)
    content = bytes_with_damage(choice, content, 8)
    return script_over(choice, content) if chance(choice, 3) else session_over(choice, content)


def chain(choice):
    """Variables within variables, about as deep as can be read."""
    count = choice.choice([57, 58, 59, 60, 61])
    return Raw('[{"name":"a","value":"b","variables":' * count + "[]" + "}]" * count)


def session_over(choice, content):
    options = other_limits(choice)
    requests = [request(1, "initialize")]
    if is_recording(content):
        guided = mixed_session(choice, made_file(content), 40)
        options, requests = {**guided.limits, **options}, guided.requests
    return Case("serve", [content, b"".join(frame(json.dumps(one).encode()) for one in requests)], options)


def script_over(choice, content):
    script, options = b"", {}
    if is_recording(content):
        script, options = random_script(choice, read_recording(content))
    return Case("drive", [content, script], with_check(choice, options))


def is_recording(content):
    try:
        read_recording(content)
    except Refused:
        return False
    return True


# Scripts


def script_case(choice):
    path = choice.choice([choice.choice(RECORDINGS), recording_file(choice)])
    script, options = random_script(choice, recording_of(path))
    lines = script.splitlines(keepends=True)
    if chance(choice, 4):
        lines = changed_list(choice, lines)
    for _ in range(choice.choice([0, 0, 0, 1, 1, 2])):
        place = choice.randrange(len(lines) + 1)
        lines[place : place + 1] = [odd_line(choice, b"".join(lines[place : place + 1]))]
    return Case("drive", [bytes_of(path), bytes_with_damage(choice, b"".join(lines), 10)], with_check(choice, options))


def with_check(choice, options):
    return {**options, "check": True} if chance(choice, 4) else options


def odd_line(choice, line):
    """The line with damaged arguments, or another one."""
    if chance(choice, 8):
        return choice.choice([b"run", b"poll", b"turn", b"", b"run ", b"Run", b"send", b"send next", b"turn\r", b"#", b"# run"]) + b"\n"
    command, value = sent_by(line)
    command = command or choice.choice([*sorted(COMMANDS), "goto"])
    if command in ("launch", "attach") and chance(choice, 3):
        depth = choice.choice([98, 99, 100])
        value = {"a": Raw("[" * depth + "]" * depth)}
    elif keys_of(command) and chance(choice, 2):
        value = changed_arguments(choice, keys_of(command), value)
    else:
        value = changed_value(choice, value, choice.choice([1, 1, 2]))
    return f"send {command} ".encode() + line_writer(choice).bytes(value) + b"\n"


def sent_by(line):
    """The command that a line sends, if it sends one, and arguments."""
    word, _, rest = line.rstrip(b"\r\n").partition(b" ")
    command, _, text = rest.partition(b" ")
    command = command.decode(errors="replace") if word == b"send" else None
    try:
        return command, read_json(text)
    except Refused:
        return command, {"threadId": 1}


def line_writer(choice):
    """What it writes has no LF in it."""
    return Writer(choice, chance(choice, 2), (" ", "\t", "\r"))


# Transcripts


def transcript_case(choice):
    """A transcript that was broken by edits, and perhaps by damage, which can hide what the edits broke."""
    content = edited(choice, transcript(choice))
    if chance(choice, 2):
        content = damaged_lines(choice, content)
    options = {name: True for name in ("explain", "all", "open", "bodies") if chance(choice, 2)}
    if chance(choice, 2):
        options["any_seq"] = choice.choice([True, "both", "client", "adapter"])
    return Case("check", [content], options)


def damaged_lines(choice, content):
    lines = content.splitlines(keepends=True)
    if chance(choice, 4):
        lines = changed_list(choice, lines)
    for _ in range(choice.choice([0, 1, 1, 2]) if lines else 0):
        place = choice.randrange(len(lines))
        lines[place] = odd_message(choice, lines[place])
    return bytes_with_damage(choice, b"".join(lines), 5)


def transcript(choice):
    """What both ends write by a script, or one of real debuggers."""
    recording = recording_of(RECORDING) if chance(choice, 4) else recording_of(recording_file(choice))
    script, limits = random_script(choice, recording)
    _, made, _ = drive_of(recording, script, **limits)
    name = choice.choice(["delve", "delve", "delve", "debugpy"])
    return made or bytes_of(os.path.join(EXAMPLES, "transcripts", name + ".txt"))


def odd_message(choice, line):
    """The line with a damaged body."""
    try:
        value = read_json(line[2:])
    except Refused:
        value = {}
    return line[:2] + line_writer(choice).bytes(changed_value(choice, value)) + b"\n"


GROUPS = {"streams": stream_case, "recordings": recording_case, "scripts": script_case, "transcripts": transcript_case}
