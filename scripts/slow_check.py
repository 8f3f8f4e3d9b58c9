#!/usr/bin/env python3
"""Checks a transcript of a debug session against eight rules: slowly, each rule a statement on places in the list of lines.

    scripts/slow_check.py session.txt            (`legal`, or `line L rule K` of the first finding)
    scripts/slow_check.py session.txt --any-seq  (numbers may come in any order: rule 1 is not tested; `=client` or
                                                  `=adapter`: not for that side)
    scripts/slow_check.py session.txt --all      (every line that breaks a rule, and how many there are)
    scripts/slow_check.py session.txt --open     (after that each request that nothing has answered)
    scripts/slow_check.py session.txt --bodies   (rule 8 is tested too)
    scripts/slow_check.py session.txt --facts    (after a finding, in which way the rule is broken, and by which lines)

It says what `dap check` says, with the same statuses, shares nothing with it and keeps nothing from line to line. Each line
is `> ` and a message of the client, or `< ` and one of the adapter. The rules:

1. The k-th message of a side has the seq k.
2. A response answers an earlier request of the other side, with its seq and its command, that was not answered before. A
   request has not the seq of an unanswered request of its side.
3. The client's first request is `initialize`, and its second comes after a response to the first.
4. The adapter's event `initialized` comes after a successful response to `initialize`.
5. A request of the client that needs a capability comes where the adapter's capabilities have it: those of the last
   successful response to `initialize`, as later events `capabilities` have changed them.
6. A `frameId` of `scopes`, `evaluate` or `completions`, and a `variablesReference` of `variables` or `setVariable`, was
   given as such by an earlier response, and the debuggee was not resumed since.
7. After a successful response to `disconnect` comes no request of the client and no message of the adapter.
8. The arguments of a request, and the body of a successful response and of an event, are of the type that scripts/shapes.txt has
   for the command or the event: each required key is there, and each value at a key of the table is of its type. `null` counts as
   absent. It is tested where it is asked for.
"""
import argparse
import dataclasses
import itertools
import json
import re
import sys

from commands import COMMANDS, ENDING, GATES, GIVEN, LEAST, RESUMING, USED
from shape_table import read_table

MAX_FILE = 67108864
GREATEST_SEQ = 9007199254740991
GREATEST_REFERENCE = 2147483647
MAX_COMMAND = 64
MAX_NESTING = 127

CLIENT, ADAPTER = ">", "<"


# Lines and messages


class Refused(Exception):
    """What is no line or no message, by its name and where it stands."""


@dataclasses.dataclass
class Message:
    """A line of the transcript. What its kind of message does not have is None."""

    line: int
    side: str
    seq: int
    type: str
    command: str = None
    arguments: object = None
    request_seq: int = None
    success: bool = None
    body: object = None
    event: str = None
    reason: str = None


def lines_of(content):
    """The lines that are not empty, with their numbers. A line ends with LF, or CR LF; the last one may have no end."""
    pieces = content.split(b"\n")
    last = pieces.pop()
    pieces = [piece.removesuffix(b"\r") for piece in pieces] + ([last] if last else [])
    return [(number, piece) for number, piece in enumerate(pieces, 1) if piece]


def read_transcript(content):
    """The messages of a transcript, or the refusal of the first line that is none."""
    said = []
    for number, line in lines_of(content):
        side, body = line[:2], line[2:]
        if side not in (b"> ", b"< "):
            raise Refused(f"BadLine at line {number}")
        try:
            said.append(read_message(number, side.decode()[0], body))
        except Refused as refusal:
            raise Refused(f"{refusal} at line {number}") from None
    return said


def read_message(number, side, body):
    """The message, or the first refusal. `null` counts as absent where a key may be absent."""
    told = read_json(body)
    need(isinstance(told, dict), "NotObject")
    need(is_seq(told.get("seq")), "BadSeq")
    need(is_text(told.get("type")), "BadType")
    message = Message(number, side, told["seq"], told["type"])
    if message.type in ("request", "response"):
        need(is_command(told.get("command")), "BadCommand")
        message.command = told["command"]
    if message.type == "request":
        message.arguments = told.get("arguments")
    if message.type == "response":
        need(is_seq(told.get("request_seq")), "BadRequestSeq")
        need(isinstance(told.get("success"), bool), "BadSuccess")
        message.request_seq, message.success = told["request_seq"], told["success"]
    if message.type == "event":
        need(is_text(told.get("event")), "BadEvent")
        message.event = told["event"]
    if message.type == "response":
        need(told.get("message") is None or is_text(told["message"]), "BadMessage")
        message.reason = told.get("message")
    if message.type in ("response", "event"):
        message.body = told.get("body")
    return message


def need(holds, refusal):
    if not holds:
        raise Refused(refusal)


def is_text(value):
    return isinstance(value, str)


def is_whole(value):
    return isinstance(value, int) and not isinstance(value, bool)


def is_seq(value):
    return is_whole(value) and 0 <= value <= GREATEST_SEQ


def is_command(value):
    return is_text(value) and len(value.encode()) <= MAX_COMMAND


# JSON, as the crate `serde_json` reads it: Python's own reader takes more, and what it takes more is refused here.


def read_json(body):
    try:
        text = body.decode("utf-8")
        refuse_tokens(text)
        return json.loads(text, parse_int=whole_number, parse_float=float_number, parse_constant=no_number)
    except ValueError:
        raise Refused("NotJson") from None


def refuse_tokens(text):
    """Refuses arrays and objects that nest too deep, and halves of characters, also where another member takes the place."""
    depth = 0
    for token in re.findall(r'"(?:[^"\\]|\\.)*"|[][{}]', text, re.DOTALL):
        if token[0] == '"' and "\\u" in token:
            json.loads(token).encode("utf-8")
        depth += {"[": 1, "{": 1, "]": -1, "}": -1}.get(token, 0)
        if depth > MAX_NESTING:
            raise ValueError("too deep")


def whole_number(digits):
    """A whole number has 64 bits; one of more, and minus zero, is a float."""
    if len(digits) <= 20 and digits != "-0" and -(2**63) <= int(digits) < 2**64:
        return int(digits)
    return float_number(digits)


def float_number(digits):
    value = float(digits)
    if value in (float("inf"), float("-inf")):
        raise ValueError("too great")
    return value


def no_number(name):
    raise ValueError(name)


# What the rules speak of


def other(side):
    return ADAPTER if side == CLIENT else CLIENT


def before(place):
    return range(place)


def between(first, last):
    return range(first + 1, last)


def is_request(message, side):
    return message.type == "request" and message.side == side


def is_response(message, side):
    return message.type == "response" and message.side == side


def is_event(message, name):
    """Events are the adapter's."""
    return message.type == "event" and message.side == ADAPTER and message.event == name


def succeeds(message, command):
    """A successful response of the adapter to this command."""
    return is_response(message, ADAPTER) and message.success and message.command == command


def answered(said, request, place):
    """Where, before this place, the request at another place is answered: the first response to its seq after it."""
    asked = said[request]
    for k in between(request, place):
        if is_response(said[k], other(asked.side)) and said[k].request_seq == asked.seq:
            return k
    return None


def same_seq(said, side, seq, place):
    """The places before this one with a request of that side and seq."""
    return [j for j in before(place) if is_request(said[j], side) and said[j].seq == seq]


def resumes(message):
    return any(succeeds(message, command) for command in RESUMING) or any(is_event(message, name) for name in ENDING)


def given(message):
    """The references that a message gives, as pairs of kind and number."""
    if not is_response(message, ADAPTER) or not message.success or message.command not in GIVEN:
        return []
    kind, array, key = GIVEN[message.command]
    body = message.body if isinstance(message.body, dict) else {}
    elements = body.get(array) if array else [body]
    found = [element.get(key) for element in elements if isinstance(element, dict)] if isinstance(elements, list) else []
    return [(kind, number) for number in found if is_whole(number) and LEAST[kind] <= number <= GREATEST_REFERENCE]


# The rules. Each says how the message at a place breaks it, or None.


@dataclasses.dataclass
class Broken:
    """How a rule is broken, by which earlier lines, and what was wanted."""

    way: str
    against: list = dataclasses.field(default_factory=list)
    wanted: object = None


def rule_1(said, place):
    k = 1 + len([j for j in before(place) if said[j].side == said[place].side])
    return None if said[place].seq == k else Broken("the seq is another", [], k)


def rule_2(said, place):
    message = said[place]
    if message.type == "response":
        return rule_2_response(said, place)
    if message.type == "request":
        for j in same_seq(said, message.side, message.seq, place):
            if answered(said, j, place) is None:
                return Broken("an unanswered request has the seq", [said[j].line])
    return None


def rule_2_response(said, place):
    message = said[place]
    requests = same_seq(said, other(message.side), message.request_seq, place)
    if not requests:
        return Broken("no request has the seq")
    waiting = [j for j in requests if answered(said, j, place) is None]
    if not waiting:
        request = requests[-1]
        return Broken("the request was answered", [said[request].line, said[answered(said, request, place)].line])
    if all(said[j].command != message.command for j in waiting):
        return Broken("the request has another command", [said[waiting[-1]].line], said[waiting[-1]].command)
    return None


def rule_3(said, place):
    if not is_request(said[place], CLIENT):
        return None
    earlier = [j for j in before(place) if is_request(said[j], CLIENT)]
    if not earlier and said[place].command != "initialize":
        return Broken("the first request is another")
    if len(earlier) == 1 and answered(said, earlier[0], place) is None:
        return Broken("the first request is not answered", [said[earlier[0]].line])
    return None


def rule_4(said, place):
    if not is_event(said[place], "initialized"):
        return None
    if any(succeeds(said[j], "initialize") for j in before(place)):
        return None
    failed = [
        said[j].line for j in before(place) if is_response(said[j], ADAPTER) and said[j].command == "initialize"
    ]
    return Broken("no initialize succeeded", failed)


def rule_5(said, place):
    if not is_request(said[place], CLIENT) or said[place].command not in GATES:
        return None
    gate = GATES[said[place].command]
    succeeded = [j for j in before(place) if succeeds(said[j], "initialize")]
    if not succeeded:
        return Broken("no initialize succeeded", [], gate)
    last = succeeded[-1]
    changes = [j for j in between(last, place) if is_event(said[j], "capabilities") and gate in capabilities(said[j])]
    if changes:
        allowed = capabilities(said[changes[-1]])[gate] is True
        return None if allowed else Broken("an event took the capability", [said[last].line, said[changes[-1]].line], gate)
    body = said[last].body
    allowed = isinstance(body, dict) and body.get(gate) is True
    return None if allowed else Broken("the response has not the capability", [said[last].line], gate)


def capabilities(event):
    """The object that an event `capabilities` holds; it changes nothing where there is none."""
    body = event.body if isinstance(event.body, dict) else {}
    held = body.get("capabilities")
    return held if isinstance(held, dict) else {}


def rule_6(said, place):
    message = said[place]
    if not is_request(message, CLIENT) or message.command not in USED or not isinstance(message.arguments, dict):
        return None
    key, kind = USED[message.command]
    number = message.arguments.get(key)
    if not is_whole(number):
        return None
    givers = [j for j in before(place) if (kind, number) in given(said[j])]
    if not givers:
        others = [said[j].line for j in before(place) if number in [n for _, n in given(said[j])]]
        return Broken("given as another kind" if others else "never given", others[-1:], number)
    resumptions = [k for k in between(givers[-1], place) if resumes(said[k])]
    if resumptions:
        return Broken("resumed since it was given", [said[givers[-1]].line, said[resumptions[0]].line], number)
    return None


def rule_7(said, place):
    message = said[place]
    if message.side == CLIENT and message.type != "request":
        return None
    for j in before(place):
        if succeeds(said[j], "disconnect"):
            return Broken("disconnect was answered", [said[j].line])
    return None


# Rule 8: a fault is said in one sentence, the way to the value and what is wrong with it.

SHAPES = read_table()
WORDS = {"text": "text", "boolean": "boolean", "whole": "whole number", "number": "number", "whole-or-text": "whole number and no text"}


def rule_8(said, place):
    message = said[place]
    if message.type not in SHAPES.messages or message.type == "response" and not message.success:
        return None
    name = message.event if message.type == "event" else message.command
    if name not in SHAPES.messages[message.type]:
        return None
    required, shape = SHAPES.messages[message.type][name]
    key, value = ("arguments", message.arguments) if message.type == "request" else ("body", message.body)
    subject = {"request": "request ", "response": "response to ", "event": "event "}[message.type] + name
    if value is None:
        return Broken(f"{subject} has no {key}") if required else None
    fault = next(faults(key, value, shape), None)
    return Broken(f"{subject}: {fault}") if fault else None


def faults(path, value, shape):
    """What is wrong with a value and within it, in order."""
    if shape.startswith("["):
        if not isinstance(value, list):
            yield f"{path} is no list"
        for place, item in enumerate(value if isinstance(value, list) else []):
            yield from faults(f"{path}[{place}]", item, shape[1:-1])
    elif shape in SHAPES.types:
        yield from object_faults(path, value, SHAPES.types[shape])
    elif shape in SHAPES.choices:
        if value not in SHAPES.choices[shape]:
            yield " ".join([f"{path} is none of", *SHAPES.choices[shape]])
    elif not is_of(value, shape):
        yield f"{path} is no {WORDS[shape]}"


def object_faults(path, value, rows):
    if not isinstance(value, dict):
        yield f"{path} is no object"
        return
    for key, required, shape in rows:
        if value.get(key) is not None:
            yield from faults(f"{path}.{key}", value[key], shape)
        elif required:
            yield f"{path} has no {key}"


def is_of(value, shape):
    if shape == "boolean":
        return isinstance(value, bool)
    is_number = isinstance(value, float) or is_whole(value)
    return {"text": is_text(value), "number": is_number, "whole": is_whole(value)}.get(shape, is_text(value) or is_whole(value))


RULES = {1: rule_1, 2: rule_2, 3: rule_3, 4: rule_4, 5: rule_5, 6: rule_6, 7: rule_7, 8: rule_8}


# Whose numbers rule 1 does not ask for, by the value of --any-seq; no value means both.
FREE = {None: "", "client": CLIENT, "adapter": ADAPTER, "both": CLIENT + ADAPTER, True: CLIENT + ADAPTER}


def findings(said, any_seq=None, bodies=False):
    """Each place where a rule is broken, with the least rule and how, in order. A line that breaks a rule counts for those
    after it as any other does."""
    for place in range(len(said)):
        for rule, test in RULES.items():
            is_free = rule == 1 and said[place].side in FREE[any_seq] or rule == 8 and not bodies
            broken = None if is_free else test(said, place)
            if broken is not None:
                yield place, rule, broken
                break


def unanswered(said):
    """The requests of both sides that no later line answers, in order."""
    return [
        message
        for place, message in enumerate(said)
        if message.type == "request" and answered(said, place, len(said)) is None
    ]


def shown(text):
    """Control characters, U+0000 to U+001F and U+007F, are shown as `?`."""
    return "".join("?" if ord(sign) < 32 or ord(sign) == 127 else sign for sign in text)


def count_of(number):
    return {0: "legal", 1: "1 finding"}.get(number, f"{number} findings")


def own_numbers(said, any_seq=None):
    """The hint at sides that number their messages in a way of their own: of two or more, no message has the number that is
    due where it is."""
    own = []
    for side, name in ((CLIENT, "client"), (ADAPTER, "adapter")):
        places = [place for place, message in enumerate(said) if message.side == side]
        if side not in FREE[any_seq] and len(places) >= 2 and all(rule_1(said, place) for place in places):
            own.append(name)
    if len(own) == 2:
        yield "each message breaks rule 1: --any-seq leaves the numbers of both sides untested"
    for name in own if len(own) == 1 else []:
        yield f"each message of the {name} breaks rule 1: --any-seq={name} leaves its numbers untested"


# The commands of the published protocol that are none of this profile.
OTHER_COMMANDS = """dataBreakpointInfo disassemble goto gotoTargets readMemory restartFrame setDataBreakpoints setExpression
setInstructionBreakpoints stepInTargets terminateThreads writeMemory""".split()


def words_of_command(command):
    """What is said of the command of a request that nothing has answered."""
    if command in COMMANDS or command == "runInTerminal":
        return []
    return ["known to the protocol, not in this profile" if command in OTHER_COMMANDS else "unknown to the protocol"]


def lines_of_check(said, any_seq=None, explain=False, every=False, unanswered_too=False, bodies=False):
    """What is printed of a transcript. Why a rule is broken is said in other words than those of `dap check`, but for rule 8."""
    found = findings(said, any_seq, bodies)
    found = list(found) if every else list(itertools.islice(found, 1))
    for place, rule, broken in found:
        yield f"line {said[place].line} rule {rule}"
        if explain:
            yield broken.way
    if every or not found:
        yield count_of(len(found))
    if explain:
        yield from own_numbers(said, any_seq)
    for message in unanswered(said) if unanswered_too else []:
        yield f"line {message.line} request {message.seq} {shown(message.command)} is not answered"
        yield from words_of_command(message.command) if explain else []


def check(content, any_seq=None, explain=False, all=False, open=False, bodies=False):
    """What `dap check` prints of these bytes, by its options: the status, its output and its errors."""
    try:
        said = read_transcript(content)
    except Refused as refusal:
        return 3, "", f"dap: {refusal}\n"
    out = "".join(line + "\n" for line in lines_of_check(said, any_seq, explain, all, open, bodies))
    return (0 if next(findings(said, any_seq, bodies), None) is None else 3), out, ""


def facts(content, any_seq=None, bodies=False):
    """How the first finding's rule is broken, by which earlier lines, and what was wanted; None where all is legal."""
    found = next(findings(read_transcript(content), any_seq, bodies), None)
    return found[2] if found else None


def main():
    words = argparse.ArgumentParser(description=__doc__, formatter_class=argparse.RawDescriptionHelpFormatter)
    words.add_argument("file", metavar="FILE")
    words.add_argument("--any-seq", choices=("client", "adapter", "both"), help="do not test rule 1, for a side or for both")
    words.add_argument("--all", action="store_true", help="each line that breaks a rule, and how many there are")
    words.add_argument("--open", action="store_true", help="after that each request that nothing has answered")
    words.add_argument("--bodies", action="store_true", help="test rule 8 too")
    words.add_argument("--facts", action="store_true", help="tell how the rule is broken, and by which earlier lines")
    told = words.parse_args(["--any-seq=both" if word == "--any-seq" else word for word in sys.argv[1:]])
    try:
        with open(told.file, "rb") as file:
            content = file.read(MAX_FILE + 1)
    except OSError:
        print("dap: Read", file=sys.stderr)
        return 5
    if len(content) > MAX_FILE:
        print("dap: FileTooLong", file=sys.stderr)
        return 3
    status, out, err = check(content, told.any_seq, all=told.all, open=told.open, bodies=told.bodies)
    sys.stdout.write(out)
    sys.stderr.write(err)
    if told.facts and out and status:
        broken = facts(content, told.any_seq, told.bodies)
        print(broken.way, *[f"line {number}" for number in broken.against], sep=", ")
    return status


if __name__ == "__main__":
    sys.exit(main())
