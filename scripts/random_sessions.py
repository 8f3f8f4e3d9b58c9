"""Sessions whose requests are chosen by what scripts/session_model.py answers, and random recordings.

scripts/try_sessions.py and scripts/fuzz_cases.py use them.
"""
import json

from commands import RESUMING
from session_model import Closed, Session
from trial import recording_of, request, split, words_of


class Guided:
    """A session whose requests are chosen by what the model answers."""

    def __init__(self, path, **limits):
        self.path = path
        self.limits = limits
        self.words = words_of(limits)
        self.session = Session(recording_of(path), **limits)
        # Responses of the client are among them.
        self.requests = []
        self.answers = []
        # The name of the fault that the last one ends it with, if it does.
        self.fault = None

    def ask(self, command, arguments=None):
        """The body of the response; none where it fails."""
        one = request(len(self.requests) + 1, command, arguments)
        self.requests.append(one)
        self.answers.append(self.session.handle(one))
        for _, body in split(self.answers[-1]):
            told = json.loads(body)
            if told.get("request_seq") == one["seq"]:
                return told.get("body") if told["success"] else None
        return None

    def respond(self, request_seq, success=True, command="runInTerminal", body=None):
        """A response to a request of the adapter."""
        told = {"type": "response", "request_seq": request_seq, "success": success, "command": command}
        one = {"seq": len(self.requests) + 1, **told, **({} if body is None else {"body": body})}
        self.requests.append(one)
        try:
            self.answers.append(self.session.handle(one))
        except Closed as closed:
            self.answers.append(b"")
            self.fault = str(closed)


TEXTS = ["", "a", "b", "\u00e9" * 100, "\u0001\n\t\"\\/", "\U0001f333", "x" * 300, "\x7f\u2028", "\u001f" * 120]
# Reasons of a stop, of which one has as many bytes as may be.
REASONS = ["", "breakpoint", "exception", "step", "pause", "entry", "a\u0001\"\U0001f333", "x" * 64]
# What stands beside: among it keys that elements have themselves, and those by which a client would find references.
BESIDE = [{}, {"type": "int"}, {"value": 1, "type": "\u00e9\u0001", "own": [{}, None, -(2**63), 2**64 - 1]}]
BESIDE += [{"scopes": [], "stackFrames": [{"id": 1}], "variables": 0, "variablesReference": 7, "source": {}}]


def random_recording(choice):
    """A recording with whatever may stand in one."""
    lines = ["a", "a\n", "\n\n", "a\n\u00e9\nb", "one\ntwo\nthree\nfour\n"]
    sources = [{"name": choice.choice(TEXTS), "text": choice.choice(lines)} for _ in range(choice.randrange(1, 5))]
    for source in sources:
        if choice.randrange(3):
            source["path"] = choice.choice(["/a", "/b", ""])
        if choice.randrange(4) == 0:
            source["onDisk"] = choice.choice([True, False])

    def with_more(told):
        return {**told, "more": choice.choice(BESIDE)} if choice.randrange(3) == 0 else told

    def variable(depth):
        told = with_more({"name": choice.choice(TEXTS[:5]), "value": choice.choice(TEXTS)})
        if depth and choice.randrange(2):
            told["variables"] = [variable(depth - 1) for _ in range(choice.randrange(4))]
        return told

    def scope():
        told = with_more({"name": choice.choice(TEXTS)})
        return {**told, "variables": [variable(3) for _ in range(choice.randrange(5))]} if choice.randrange(5) else told

    def shown():
        place = choice.randrange(len(sources))
        text = sources[place]["text"]
        line = choice.randrange(text.count("\n") + (text[-1] != "\n")) + 1
        told = with_more({"name": choice.choice(TEXTS), "source": place, "line": line})
        return {**told, "scopes": [scope() for _ in range(choice.randrange(3))]} if choice.randrange(4) else told

    def moment():
        ids = choice.sample([-9007199254740991, -5, 0, 1, 7, 9007199254740991], choice.randrange(1, 4))
        stacks = [[shown() for _ in range(choice.randrange(1, 5))] for _ in ids]
        threads = [{"id": n, "name": choice.choice(TEXTS), "frames": frames} for n, frames in zip(ids, stacks)]
        told = {"threads": threads, "thread": choice.choice(ids), "waits": choice.randrange(4) == 0}
        if choice.randrange(4) == 0:
            told["stop"] = choice.choice(REASONS)
        for key in ("description", "text") if choice.randrange(4) == 0 else ():
            told[key] = choice.choice(REASONS + ["x" * 128, "\u00e9" * 64])
        return {**told, "output": choice.choice(TEXTS)} if choice.randrange(2) else told

    return {"exit": choice.randrange(-9, 9), "sources": sources, "moments": [moment() for _ in range(choice.randrange(1, 13))]}


BAD_VALUES = [None, True, -1, 1.5, 1.0, "1", [], [None], {}, {"path": 1}, 2147483648, 9007199254740992, -9007199254740992]
MIXED = ["stackTrace"] * 8 + ["scopes"] * 8 + ["variables"] * 12 + ["evaluate"] * 7 + ["setBreakpoints"] * 5 + ["source"] * 3
MIXED += ["setVariable"] * 6 + ["loadedSources", "threads", "pause", "pause", "stepIn", "stepBack", "reverseContinue"]
MIXED += sorted(RESUMING)
RARE = ["initialize", "launch", "attach", "configurationDone", "terminate", "disconnect", "cancel"]
RARE += ["modules", "restart", "goto"]


class Mixed(Guided):
    """Requests as they come to mind: mostly what fits, also what is dead, of the other kind, unknown or malformed."""

    def __init__(self, choice, path, **limits):
        super().__init__(path, **limits)
        self.choice = choice
        recording = recording_of(path)
        self.paths = [source["path"] for source in recording["sources"] if "path" in source] + ["/none", ""]
        self.ids = sorted({thread["id"] for moment in recording["moments"] for thread in moment["threads"]} | {5})

    def some(self):
        return self.choice.choice([None, None, 0, 0, 0, 0, 1, 1, 2, 3, 2147483647])

    def live(self, kind):
        """The numbers of this kind that can be asked for, each with its thing."""
        given = self.session.references
        return [(given.dead + place, thing) for place, (its_kind, thing) in enumerate(given.live, 1) if its_kind == kind]

    def number(self, kind):
        given = self.session.references
        live = [number for number, _ in self.live(kind)]
        if live and self.choice.randrange(8):
            return self.choice.choice(live)
        return self.choice.choice([*range(given.dead + len(given.live) + 2), 2147483647])

    def thread(self):
        there = [thread["id"] for thread in self.session.debuggee.threads()]
        return self.choice.choice(there if there and self.choice.randrange(8) else self.ids)

    def source(self):
        told = {"path": self.choice.choice(self.paths)} if self.choice.randrange(3) else {}
        return {**told, "sourceReference": self.some()} if self.choice.randrange(2) else told

    def watched(self):
        """A frame and a name, mostly of a variable that stands in one of its scopes."""
        frames = self.live("frame")
        there = [
            (number, variable["name"])
            for number, thing in frames
            for scope in thing.get("scopes", [])
            for variable in scope.get("variables", [])
        ]
        if there and self.choice.randrange(4):
            return self.choice.choice(there)
        return self.choice.choice([self.number("frame")] * 4 + [None]), self.choice.choice(["", "a", "none"])

    def assigned(self):
        """A holder, mostly a name in it, and a text. The request is no longer than a body may be."""
        number = self.number("holder")
        there = [variable["name"] for variable in dict(self.live("holder")).get(number, {}).get("variables", [])]
        name = self.choice.choice(there if there and self.choice.randrange(6) else ["", "a", "none"])
        room = self.limits.get("max_body", 65536) - 200 - len(json.dumps(name))
        texts = [text for text in [*TEXTS, "y" * 5000, "\U0001f333" * 2000] if len(json.dumps(text)) <= room]
        return {"variablesReference": number, "name": name, "value": self.choice.choice(texts)}

    def arguments(self, command):
        pick = self.choice.choice
        if command == "scopes":
            return {"frameId": self.number("frame")}
        if command == "variables":
            return {"variablesReference": self.number("holder"), "start": self.some(), "count": self.some()}
        if command == "evaluate":
            return dict(zip(("frameId", "expression"), self.watched()))
        if command == "setVariable":
            return self.assigned()
        if command == "setBreakpoints":
            lines = [pick([0, 1, 2, 3, 4, 2147483647]) for _ in range(pick([0, 1, 1, 2, 2, 3, 25]))]
            told = {"breakpoints": [{"line": line} for line in lines]} if self.choice.randrange(3) else {"lines": lines}
            return {"source": self.source(), **told}
        if command == "source":
            return {"source": pick([None, self.source()]), "sourceReference": self.some()}
        if command == "cancel":
            return {"requestId": self.choice.randrange(9)}
        if command in ("launch", "attach"):
            return {"console": pick(["terminal"] * 6 + ["Terminal", "", None, 1, ["terminal"]])}
        window = {"startFrame": self.some(), "levels": self.some()} if command == "stackTrace" else {}
        return {"threadId": self.thread(), **window}

    def damaged(self, arguments):
        key = self.choice.choice(sorted(arguments))
        value = self.choice.choice(BAD_VALUES)
        return self.choice.choice([{**arguments, key: value}] * 6 + [{}, None, [], "x", 1])

    def fitting(self):
        """What leads to a stop, and there from frames to variables."""
        if self.session.phase == "Stopped":
            known = "variables" if self.live("holder") else "scopes" if self.live("frame") else "stackTrace"
            known = [known] + ["evaluate"] * bool(self.live("frame")) + ["setVariable"] * bool(self.live("holder"))
            return self.choice.choice(known)
        ahead = {"Fresh": "initialize", "Ready": "launch", "Configured": "launch", "Parked": "configurationDone"}
        return {**ahead, "Running": "pause"}.get(self.session.phase, "source")

    def terminal(self):
        """Mostly what fits the request for a terminal; where none waits, or the command is another, it closes the adapter."""
        pick, asked = self.choice.choice, self.session.asked
        is_bad = asked is None or self.choice.randrange(9) == 0
        number = pick([asked or 0, 0, 1, self.session.seq, self.session.seq + 1]) if is_bad else asked
        command = pick(["runInTerminal", "runInTerminal", "launch", ""]) if is_bad else "runInTerminal"
        self.respond(number, pick([True, True, False]), command, pick([None, {}, {"processId": 7}, {"processId": "x"}, [1]]))

    def step(self):
        if self.choice.randrange(3 if self.session.phase == "Asked" else 200) == 0:
            return self.terminal()
        kinds = [RARE] + [MIXED] * 24 + [[self.fitting()]] * 12
        command = self.choice.choice(self.choice.choice(kinds))
        arguments = self.arguments(command)
        self.ask(command, self.damaged(arguments) if self.choice.randrange(12) == 0 else arguments)


def mixed_session(choice, path, most=120):
    """A random session over the recording of a file, of fewer requests than `most` and the first, under random limits."""
    limits = {
        "max_references": choice.choice([None, None, None, 2, 5, 9]),
        "max_reference": choice.choice([None, None, None, None, 9, 30]),
        "max_breakpoints": choice.choice([None, 1, 2, 5]),
        "max_body": choice.choice([None, None, 1024]),
    }
    guided = Mixed(choice, path, **{name: value for name, value in limits.items() if value is not None})
    flags = ("linesStartAt1", "columnsStartAt1", "supportsVariablePaging")
    if choice.randrange(8):
        terminals = {"supportsRunInTerminalRequest": choice.choice([None, True, True, False])}
        guided.ask("initialize", {**{flag: choice.choice([None, True, False]) for flag in flags}, **terminals})
    for _ in range(choice.randrange(most)):
        guided.step()
        if guided.fault or guided.session.phase == "Exited" and choice.randrange(4) == 0:
            break
    return guided
