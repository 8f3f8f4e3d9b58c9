#!/usr/bin/env python3
"""Random scripts for `dap drive`, and the transcripts that it makes of them, broken at random, for `dap check`.

    scripts/try_transcripts.py                 (some hundred scripts, in some 20 seconds)
    scripts/try_transcripts.py --count 10000   (as many scripts)
    DAP=PATH scripts/try_transcripts.py        (tries the program at PATH)

Each script asks for what the client may send, in many orders, under small and great limits; some end with a line that is
refused. What `drive` prints is what scripts/drive_model.py has, byte for byte. Its transcript is legal for `dap check` and
for scripts/slow_check.py. Then it is broken by one edit or more, mostly with all messages numbered anew so that more than
the numbers is wrong, and the two say the same of it, with --any-seq or without. The seed is fixed.
"""
import argparse
import collections
import copy
import json
import os
import random
import sys

import slow_check
from commands import COMMANDS, ENDING, EVENTS, GATES, GIVEN, RESUMING, USED, body_giving
from drive_model import Drive, Fault, drive_of, script_line
from trial import RECORDINGS, expect, failures, recording_of, run, words_of

COUNT = 300
EDITS = 6
FLAGS = sorted(set(GATES.values()))
ODD_NUMBERS = [0, 1, 2, 3, 4, 5, -1, 1.0, -0.0, 2147483647, 2147483648, 2**53 - 1, 2**53, 2**64 - 1, 2**64, -(2**63), None]


def is_known(command):
    """Whether the program has this command. Where it has not, that is the one failure."""
    status, _, err = run([command, "--help"])
    expect(f"the program has the command `{command}`", (status, err), (0, b""))
    return status == 0


# Scripts


class Scripted:
    """A script, each line chosen by what both ends have come to."""

    def __init__(self, choice, recording, limits):
        self.choice = choice
        self.drive = Drive(recording, **limits)
        self.ids = sorted({thread["id"] for moment in recording["moments"] for thread in moment["threads"]})
        self.names = [source["path"] for source in recording["sources"] if "path" in source] or ["/none"]
        self.lines = []
        self.is_over = False

    def line(self, line):
        self.lines.append(line)
        try:
            # An empty line is skipped.
            if line:
                script_line(self.drive, line)
        except Fault:
            self.is_over = True

    def number(self, kind):
        known = sorted(number for its_kind, number in self.drive.client.known if its_kind == kind)
        return self.choice.choice(known or [1])

    def thread(self):
        there = [thread["id"] for thread in self.drive.adapter.debuggee.threads()]
        return self.choice.choice(there if there and self.choice.randrange(8) else self.ids)

    def arguments(self, command):
        pick = self.choice.choice
        if command in USED:
            key, kind = USED[command]
            told = {key: self.number(kind), "expression": pick(["x", "p", "q"])}
            if command == "setVariable":
                live = [thing for its_kind, thing in self.drive.adapter.references.live if its_kind == "holder"]
                names = [variable["name"] for thing in live for variable in thing.get("variables", [])]
                return {**told, "name": pick(names + ["none"]), "value": pick(["", "9", "\u00e9" * 90])}
            return told if command != "evaluate" or self.choice.randrange(6) else {"expression": "x"}
        if command == "setBreakpoints":
            source = pick([{"path": pick(self.names)}, {"sourceReference": 1}])
            return {"source": source, "breakpoints": [{"line": self.choice.randrange(5)} for _ in range(pick([0, 1, 2, 9]))]}
        if command == "cancel":
            return pick([None, {"requestId": max(1, self.drive.client.seq - self.choice.randrange(3))}])
        if command in ("launch", "attach"):
            console = {"console": pick(["terminal", "terminal", 1])}
            return pick([None, {}, {"program": "a", "env": {"\u00e9": [1, None, "\n"]}}, console, console])
        if command == "initialize":
            terminals = {"supportsRunInTerminalRequest": True}
            return pick([None, {"adapterID": "rec"}, {"linesStartAt1": False, "columnsStartAt1": False}, terminals, terminals])
        if command == "source":
            return {"sourceReference": pick([0, 1, 1, 2])}
        return {"threadId": self.thread(), "filters": [], "levels": pick([0, 0, 1]), "startFrame": pick([None, 0, 1])}

    def send(self):
        """What may be sent: mostly what leads on, to a stop and from there to variables."""
        lead = {"Fresh": ["initialize"], "Configuring": ["launch", "configurationDone", "setBreakpoints"]}
        resuming = self.choice.choice(sorted(RESUMING))
        lead["Stopped"] = [resuming] * 2 + ["stackTrace", "scopes", "variables", "evaluate"] * 3
        if any(kind == "variables" for kind, _ in self.drive.client.known):
            lead["Stopped"] += ["variables", "setVariable", "setVariable"] * 4
        lead["Running"] = ["pause"]
        client = self.drive.client
        if len(client.waiting) >= client.max_requests and self.choice.randrange(8):
            return self.line(b"run")
        for _ in range(20):
            commands = [c for c in sorted(COMMANDS) if c not in ("disconnect", "terminate") or self.choice.randrange(8) == 0]
            command = self.choice.choice(lead.get(client.phase, commands) if self.choice.randrange(3) else commands)
            arguments = self.arguments(command)
            if client.refusal(command, arguments) is None:
                text = "" if arguments is None else " " + json.dumps(arguments, ensure_ascii=self.choice.randrange(2) == 0)
                return self.line(f"send {command}{text}".encode())
        return self.line(b"run")

    def step(self):
        if self.drive.client.incoming and self.choice.randrange(3) == 0:
            self.line(self.choice.choice([b"terminal ok", b"terminal ok", b"terminal no"]))
        elif self.choice.randrange(5) < 3:
            self.send()
        else:
            self.line(self.choice.choice([b"run"] * 6 + [b"turn", b"turn", b"poll", b""]))

    def refused(self):
        """A line that is refused where it stands, or mostly so."""
        lines = [b"jump", b"send", b"send jump", b"run ", b"send threads {", b"send  threads", b"\xff", b"send threads \xff"]
        lines += [b"terminal", b"terminal ok ", b"terminal no", b"#", b"# run", b"#run", b"run # to the end"]
        lines += [b"send next {}", b"send launch []", b'send launch {"a":1.5}', b"send initialize", b"send restart"]
        lines += [b'send scopes {"frameId":99}', b'send stackTrace {"threadId":1}']
        lines += [b'send variables {"variablesReference":-1}', b'send variables {"variablesReference":1}']
        self.line(self.choice.choice(lines))


def random_script(choice, recording):
    """The bytes of a script, and the limits that it is run under."""
    limits = {"max_requests": choice.choice([2, 3, 64]), "max_references": choice.choice([2, 9, 65536])}
    limits["max_reference"] = choice.choice([5, 2147483647])
    limits["max_seq"] = choice.choice([9007199254740991] * 9 + [choice.randrange(1, 20)])
    limits["max_body"] = choice.choice([1024, 4194304])
    scripted = Scripted(choice, recording, limits)
    for _ in range(choice.randrange(5, 60)):
        if not scripted.is_over:
            scripted.step()
    if choice.randrange(8) == 0 and not scripted.is_over:
        scripted.refused()
    end = choice.choice([b"\n", b"\n", b"\n", b"\r\n"])
    return end.join(scripted.lines) + choice.choice([b"", end]), limits


# Edits. A transcript is a list of pairs, the side and the message; an edit changes the list.


def some(choice, said, test=lambda message: True):
    """A place whose message passes; the first one where none does."""
    return choice.choice([k for k, (_, message) in enumerate(said) if test(message)] or [0])


def drop(choice, said):
    del said[some(choice, said)]


def swap(choice, said):
    one, other = some(choice, said), some(choice, said)
    said[one], said[other] = said[other], said[one]


def move(choice, said):
    one = said.pop(some(choice, said))
    said.insert(choice.randrange(len(said) + 1), one)


def repeat(choice, said):
    said.insert(choice.randrange(len(said) + 1), copy.deepcopy(said[some(choice, said, lambda m: m["type"] == "response")]))


def other_side(choice, said):
    said[some(choice, said)][0] = choice.choice("<>")


def other_seq(choice, said):
    said[some(choice, said)][1]["seq"] = choice.choice([0, 1, 2, 3, len(said), 9007199254740991])


def other_request_seq(choice, said):
    message = said[some(choice, said, lambda m: m["type"] == "response")][1]
    message["request_seq"] = choice.choice([0, 1, 2, message.get("request_seq", 0) + 1])


def other_command(choice, said):
    message = said[some(choice, said, lambda m: "command" in m)][1]
    message["command"] = choice.choice(["initialize", "disconnect", "next", "stackTrace", "", *GATES])


def other_success(choice, said):
    message = said[some(choice, said, lambda m: m["type"] == "response")][1]
    message["success"] = not message.get("success")


def numbered_keys(value):
    """Each object within, with a key that has a reference."""
    if isinstance(value, dict):
        yield from ((value, key) for key in ("id", "frameId", "variablesReference") if key in value)
    for inner in value.values() if isinstance(value, dict) else value if isinstance(value, list) else []:
        yield from numbered_keys(inner)


def other_reference(choice, said):
    there = [one for _, message in said for one in numbered_keys(message)]
    if there:
        told, key = choice.choice(there)
        told[key] = choice.choice(ODD_NUMBERS)


def flags(choice):
    return {flag: choice.choice([True, True, False, None, 1]) for flag in FLAGS if choice.randrange(2)}


def event(name, body=None):
    return {"seq": 0, "type": "event", "event": name, "body": body}


def put(choice, said, *lines):
    """Lines put in at one place, mostly after the start, each with some chance to stand a little later than the one before."""
    least = min(len(said), choice.choice([0, 2, 2, 2]))
    place = choice.randrange(least, len(said) + 1)
    for line in lines:
        said.insert(place, list(line))
        place = min(len(said), place + 1 + choice.choice([0, 0, 0, 1, 3]))


def ask(choice, command, arguments=None):
    """A request whose number is far from all others."""
    told = {"seq": 10**6 + choice.randrange(10**6), "type": "request", "command": command}
    return told if arguments is None else {**told, "arguments": arguments}


def exchange(choice, command, body=None, arguments=None):
    """A request of the client, and its answer: mostly a success."""
    request = ask(choice, command, arguments)
    told = {"seq": 0, "type": "response", "request_seq": request["seq"], "success": choice.randrange(8) > 0}
    told = {**told, "command": command} if body is None else {**told, "command": command, "body": body}
    return [(">", request), ("<", told)]


def put_event(choice, said):
    """An event, mostly of the adapter."""
    put(choice, said, (choice.choice("<<<>"), event(choice.choice(EVENTS))))


def put_offer(choice, said):
    """What changes the capabilities, early or late, and a request that needs one."""
    bodies = [{"capabilities": flags(choice)}] * 6 + [flags(choice), None, {"capabilities": None}, {"capabilities": [1]}]
    change = [(choice.choice("<<<<>"), event("capabilities", choice.choice(bodies)))]
    change = choice.choice([change] * 4 + [exchange(choice, "initialize", flags(choice))])
    lines = [*change, (choice.choice(">>>>><"), ask(choice, choice.choice(sorted(GATES))))]
    if choice.randrange(3) == 0:
        said.insert(0, ["<", event("capabilities", {"capabilities": {flag: True for flag in FLAGS}})])
        put(choice, said, lines[-1])
    else:
        put(choice, said, *lines)


def put_other(choice, said):
    put(choice, said, (choice.choice("<>"), {"seq": 0, "type": choice.choice(["x", "Request", ""]), "command": "disconnect"}))


def put_request(choice, said):
    """A request of one of the sides, mostly of the client, and perhaps its answer."""
    command = choice.choice([*GATES, *sorted(RESUMING), "initialize", "stackTrace", "goto", "disconnect"])
    arguments = {key: choice.choice(ODD_NUMBERS) for key in ("frameId", "variablesReference") if choice.randrange(4) == 0}
    lines = exchange(choice, command, flags(choice) if command == "initialize" else None, choice.choice([None, arguments]))
    if choice.randrange(5) == 0:
        lines = [("<" if side == ">" else ">", message) for side, message in lines]
    put(choice, said, *lines[: choice.choice([1, 2, 2])])


def put_end(choice, said):
    """The end after some line, and one message more."""
    del said[choice.randrange(min(len(said), 2), len(said) + 1) :]
    more = [ask(choice, "threads"), event("output"), {"seq": 0, "type": "x"}, exchange(choice, "threads")[1][1]]
    said += [list(line) for line in exchange(choice, "disconnect")]
    said.append([choice.choice("<>>"), choice.choice(more)])


def resumption(choice):
    """What ends the life of references; where it fails, or is of the other side, it does not."""
    if choice.randrange(2):
        return exchange(choice, choice.choice(sorted(RESUMING)))
    return [(choice.choice("<<<>"), event(choice.choice([*ENDING, "stopped"])))]


def use(choice, kind, number):
    """A request that names a reference, mostly as what it is."""
    commands = [command for command, (_, its_kind) in USED.items() if its_kind == kind or choice.randrange(8) == 0]
    command = choice.choice(commands)
    return choice.choice(">>>>>>>>>>>><"), ask(choice, command, {USED[command][0]: number})


def put_reference(choice, said):
    """A reference that is given, perhaps a resumption, and a request that names it, or another one."""
    number = choice.choice([*ODD_NUMBERS, 500, 501, 502, 503, 504, 505])
    command = choice.choice(sorted(GIVEN))
    kind, body = body_giving(command, number)
    between = choice.choice([[], resumption(choice)])
    used = number if choice.randrange(8) or not isinstance(number, int) else number + 1
    put(choice, said, *exchange(choice, command, body), *between, use(choice, kind, used))


def put_use(choice, said):
    """A request that names what was given earlier: it may be of another stop by now."""
    given = [(kind, number) for side, message in said for kind, number in given_by(side, message)]
    if given:
        put(choice, said, *choice.choice([[], [], resumption(choice)]), use(choice, *choice.choice(given)))


def given_by(side, message):
    told = {key: message.get(key) for key in ("type", "command", "success", "body")}
    return slow_check.given(slow_check.Message(0, side, 0, **told))


def same_number(choice, said):
    """A request with the number of an earlier one of its side, which may wait."""
    places = [k for k, (side, message) in enumerate(said) if side == ">" and message["type"] == "request"]
    if len(places) > 1:
        k = choice.randrange(1, len(places))
        said[places[k]][1]["seq"] = said[places[k - 1]][1]["seq"]


def allow_all(said):
    """Capabilities that hide no other rule."""
    for _, message in said:
        if message.get("command") == "initialize" and isinstance(message.get("body"), dict):
            message["body"].update({flag: True for flag in FLAGS})


def other_value(choice, said):
    """A value in what a message holds, changed or left out."""
    holders = [message[key] for _, message in said for key in ("arguments", "body") if isinstance(message.get(key), dict) and message[key]]
    if not holders:
        return
    held = choice.choice(holders)
    while True:
        key = choice.choice(sorted(held)) if isinstance(held, dict) else choice.randrange(len(held))
        if isinstance(held[key], (dict, list)) and held[key] and choice.randrange(4):
            held = held[key]
            continue
        if choice.randrange(3) == 0 and isinstance(held, dict):
            del held[key]
        else:
            held[key] = choice.choice([None, "x", 7, -1, 1.5, True, {}, [], [7], ["x"], {"id": "x"}])
        return


CHANGES = [drop, swap, move, repeat, other_side, other_seq, other_request_seq, other_command, other_success]
CHANGES += [other_reference] * 2 + [put_other] + [put_event] * 3 + [put_request] * 4 + [put_offer] * 4
CHANGES += [put_reference] * 9 + [put_use] * 6 + [put_end] * 2 + [other_value] * 6


def numbered_anew(said):
    """Each side's messages get the numbers 1, 2, .., and each response the new number of what it answers."""
    numbers = {"<": {}, ">": {}}
    counts = {"<": 0, ">": 0}
    for side, message in said:
        counts[side] += 1
        if message["type"] == "request":
            numbers[side][message["seq"]] = counts[side]
        if message["type"] == "response":
            asked = numbers["<" if side == ">" else ">"]
            message["request_seq"] = asked.get(message.get("request_seq"), message.get("request_seq"))
        message["seq"] = counts[side]


def text_of(said):
    return "".join(f"{side} {json.dumps(message)}\n" for side, message in said).encode()


def broken_text(choice, text):
    """An edit of the bytes alone."""
    place = choice.randrange(len(text) + 1)
    parts = [b"\n", b"\r", b"\r\n", b"\n\n", b"> ", b"<", b"x\n", b"\xff", b"\n> []\n", b"{", b"\n\r\n", b'"', b",", b"0"]
    return choice.choice(
        [
            text.replace(b"\n", b"\r\n"),
            text.replace(b"\n", b"\n\n", choice.randrange(5)),
            text[: -choice.randrange(1, 3)],
            text[:place] + choice.choice(parts) + text[place + choice.randrange(3) :],
        ]
    )


def edited(choice, transcript):
    said = [[line[:1].decode(), json.loads(line[2:])] for line in transcript.splitlines()]
    if choice.randrange(2):
        allow_all(said)
    for _ in range(choice.choice([1, 1, 1, 2, 3])):
        choice.choice(CHANGES)(choice, said)
        said = said or [[">", {"seq": 1, "type": "x"}]]
    if choice.randrange(4):
        numbered_anew(said)
    if choice.randrange(12) == 0:
        same_number(choice, said)
    text = text_of(said)
    return broken_text(choice, text) if choice.randrange(12) == 0 else text


# The trial


# Words of `check`, and the same for the slow checker.
OPTIONS = {
    (): {},
    ("--any-seq",): {"any_seq": "both"},
    ("--any-seq=adapter", "--all"): {"any_seq": "adapter", "all": True},
    ("--any-seq=client", "--open"): {"any_seq": "client", "open": True},
    ("--any-seq=both", "--all", "--open"): {"any_seq": "both", "all": True, "open": True},
    ("--all", "--open"): {"all": True, "open": True},
    ("--bodies",): {"bodies": True},
    ("--bodies", "--any-seq", "--all", "--open"): {"bodies": True, "any_seq": "both", "all": True, "open": True},
}


def kind_of(verdict):
    """What a verdict is counted as: the rule of its first finding."""
    status, out, err = verdict
    first = out.partition("\n")[0]
    return (first.split(" ", 2)[-1] if status else first).strip() or err.split()[1]


class Trial:
    def __init__(self):
        self.wrong = []
        self.counts = collections.Counter()
        self.drives = collections.Counter()

    def compare(self, name, text, words=()):
        """What the program says of a transcript, and what the slow checker does."""
        wanted = slow_check.check(text, **OPTIONS[words])
        self.counts[kind_of(wanted)] += 1
        got = run(["check", text, *words])
        if got != (wanted[0], wanted[1].encode(), wanted[2].encode()):
            self.keep(name, text, got, wanted)
        return wanted

    def keep(self, name, text, got, wanted):
        """A difference, with what shows it."""
        self.wrong.append(name)
        if len(self.wrong) <= 5:
            print("DIFFERENT", name, "\n  got   ", got, "\n  wanted", wanted, f"\n{text.decode(errors='backslashreplace')}")

    def script(self, seed):
        choice = random.Random(seed)
        path = RECORDINGS[seed % len(RECORDINGS)]
        recording = recording_of(path)
        script, limits = random_script(choice, recording)
        words = words_of(limits)
        wanted = drive_of(recording, script, **limits)
        got = run(["drive", path, script, *words])
        self.drives[wanted[2].decode().split(" at ")[0].strip() or "done"] += 1
        if got != wanted:
            self.keep(f"{seed}: drive {os.path.basename(path)} {' '.join(words)}", script, got, wanted)
        if wanted[0] or not wanted[1]:
            return
        if self.compare(f"{seed}: legal", wanted[1])[0]:
            self.wrong.append(f"{seed}: what `drive` makes is not legal")
        self.compare(f"{seed}: bodies", wanted[1], ("--bodies",))
        for place in range(EDITS):
            words = choice.choice(list(OPTIONS))
            self.compare(f"{seed}: edit {place} {' '.join(words)}", edited(choice, wanted[1]), words)


def random_transcripts(count=COUNT):
    # Both are asked, so that each that is missing is told.
    if [command for command in ("drive", "check") if not is_known(command)]:
        return
    trial = Trial()
    for seed in range(count):
        trial.script(seed)
    for name, counts in (("drive", trial.drives), ("check", trial.counts)):
        print(f"{name}:", ", ".join(f"{kind} {times}" for kind, times in sorted(counts.items())))
    expect(f"{count} random scripts, and their transcripts broken", trial.wrong, [])
    missed = [kind for kind in ["legal", *(f"rule {k}" for k in range(1, 8))] if not trial.counts[kind]]
    expect("each rule is broken by some edit", missed, [])


GROUPS = {"random_transcripts": random_transcripts}


def main():
    words = argparse.ArgumentParser(description=__doc__, formatter_class=argparse.RawDescriptionHelpFormatter)
    words.add_argument("--count", type=int, default=COUNT, help="how many scripts")
    random_transcripts(words.parse_args().count)
    print(f"{len(failures)} failed")
    return 1 if failures else 0


if __name__ == "__main__":
    sys.exit(main())
