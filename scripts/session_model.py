#!/usr/bin/env python3
"""A model of an adapter over a recorded run, for trying the program: from requests to the bytes that `serve` writes.

It is written from the tables of docs/PROFILE.md and docs/RECORDINGS.md, on Python's own JSON, and shares nothing with the
crates. Each message is answered, and the debuggee is polled, before the next one is read: so at most a launch that waits for
`configurationDone`, or for a terminal, is kept.

    scripts/session_model.py serve RECORDING [--max-body N] ..  (in the program's place, to try what tries the program)
"""
import argparse
import json
import sys

from commands import BACK, CAPABILITIES, COMMANDS, RESUMING, TERMINAL, failure

GREATEST = 9007199254740991
# Where a client finds references in a body: in those of `evaluate` and `setVariable`, nothing beside may stand there.
REFERENCES = ("scopes", "stackFrames", "variables", "variablesReference")
# What the client's terminal is asked to run.
RUN_IN_TERMINAL = {"args": ["recorded"], "cwd": "/", "kind": "integrated", "title": "recorded"}


def frame(body):
    return b"Content-Length: %d\r\n\r\n" % len(body) + body


def written(message):
    return json.dumps(message, sort_keys=True, separators=(",", ":"), ensure_ascii=False).encode()


def is_text(value):
    return isinstance(value, str)


def is_truth(value):
    return isinstance(value, bool)


def is_int(value):
    return isinstance(value, int) and not isinstance(value, bool) and -GREATEST <= value <= GREATEST


def is_seq(value):
    return is_int(value) and value >= 0


def is_count(value):
    """A count, a line or a reference."""
    return is_int(value) and 0 <= value <= 2147483647


def is_breakpoint(value):
    return isinstance(value, dict) and is_count(value.get("line"))


def is_source(value):
    if not isinstance(value, dict):
        return False
    path, reference = value.get("path"), value.get("sourceReference")
    return (path is None or is_text(path)) and (reference is None or is_count(reference))


def is_named_source(value):
    return is_source(value) and name_of(value) is not None


def name_of(source):
    """What breakpoints are set by: the path where there is one, be it empty, else the reference. 0 is none."""
    if source.get("path") is not None:
        return "path", source["path"]
    return ("reference", source["sourceReference"]) if source.get("sourceReference") else None


# What a value of each kind in the table of commands is.
IS_OF = {
    "text": is_text,
    "boolean": is_truth,
    "thread": is_int,
    "seq": is_seq,
    **dict.fromkeys(("count", "line", "frame", "variables"), is_count),
    "breakpoint": is_breakpoint,
    "function": lambda value: isinstance(value, dict) and is_text(value.get("name")),
    "Source": is_source,
    "NamedSource": is_named_source,
}


def is_of(value, kind):
    if kind.startswith("["):
        return isinstance(value, list) and all(map(IS_OF[kind[1:-1]], value))
    return IS_OF[kind](value)


def bad_key(command, arguments):
    """The first bad key of a command's arguments. Of a `launch` they are an object, where there are any."""
    keys = COMMANDS[command].keys if command in COMMANDS else []
    if arguments is None:
        return "arguments" if any(key.is_required for key in keys) else None
    if not isinstance(arguments, dict) and (keys or command in ("launch", "attach")):
        return "arguments"
    for key in keys:
        value = arguments.get(key.name)
        if not is_of(value, key.kind) and (value is not None or key.is_required):
            return key.name
    return None


def pieces(output):
    """The pieces of a moment's output: each as long as may be, of at most 128 bytes and of whole characters."""
    piece = ""
    for character in output:
        if len((piece + character).encode()) > 128:
            yield piece
            piece = ""
        piece += character
    if piece:
        yield piece


def beside(told, own, *absent):
    """An element's own members, and what a recording tells beside them: in place of none, also not of one that is absent."""
    return {**{key: value for key, value in told.get("more", {}).items() if key not in absent}, **own}


class Failed(Exception):
    """A request fails, by one of the names of `FAILURES`."""

    def __init__(self, name, key=None):
        super().__init__(name)
        self.name = name
        self.key = key


class Closed(Exception):
    """A response closes the adapter, by the name of the fault."""


def reason_of(moment, other):
    """What a stop there is told with: the reason that the moment has, with its texts, or else the move's own."""
    texts = {key: moment[key] for key in ("description", "text") if "stop" in moment and key in moment}
    return {"reason": moment.get("stop", other), **texts}


class Recorded:
    """A recorded run. Its frames, and the scopes and variables that hold others, are the objects of the recording itself."""

    def __init__(self, recording):
        self.sources = recording["sources"]
        self.moments = recording["moments"]
        self.exit = recording["exit"]
        self.at = None
        self.told = []
        # Where the run goes, and what the stop there is told with.
        self.goal = None
        self.held = False
        # The lines last set, by the name of a source.
        self.lines = {}
        # The values set at this stop: of each holder, by its identity, those of its variables, by their place.
        self.values = {}

    def threads(self):
        return self.moments[self.at]["threads"] if self.at is not None else []

    def scopes(self, frame):
        return frame.get("scopes", [])

    def children(self, holder):
        return holder.get("variables", [])

    def value(self, holder, place):
        """A value that was set counts before the recorded one."""
        return self.values.get(id(holder), {}).get(place, self.children(holder)[place]["value"])

    def place(self, holder, name):
        """Where the first variable of that name stands directly in a holder; None where there is none."""
        return next((place for place, one in enumerate(self.children(holder)) if one["name"] == name), None)

    def evaluate(self, frame, text):
        """The first variable of that name that stands directly in a scope of the frame, and its value."""
        for scope in self.scopes(frame) if frame is not None else []:
            place = self.place(scope, text)
            if place is not None:
                return self.children(scope)[place], self.value(scope, place)
        raise Failed("debuggee")

    def assigned(self, holder, name, text):
        """The first variable of that name, and the value that it would have: the text."""
        place = self.place(holder, name)
        if place is None:
            raise Failed("debuggee")
        return self.children(holder)[place], text

    def assign(self, holder, name, text):
        self.values.setdefault(id(holder), {})[self.place(holder, name)] = text

    def names(self, place):
        """The names of a source: its place from 1, and its path, where it has one."""
        path = self.sources[place].get("path")
        return [("reference", place + 1)] + ([("path", path)] if path is not None else [])

    def verify(self, name, lines):
        """Of each line whether some source of that name has it."""
        texts = [source["text"] for place, source in enumerate(self.sources) if name in self.names(place)]
        counts = [text.count("\n") + (text[-1:] not in ("", "\n")) for text in texts]
        return [any(1 <= line <= count for count in counts) for line in lines]

    def frames(self, place):
        """The frames of the thread that came to a moment."""
        moment = self.moments[place]
        return next(thread["frames"] for thread in moment["threads"] if thread["id"] == moment["thread"])

    def depth(self, place):
        return len(self.frames(place))

    def is_at_breakpoint(self, place):
        top = self.frames(place)[0]
        return any(top["line"] in self.lines.get(name, []) for name in self.names(top["source"]))

    def start(self):
        self.at = 0
        self.told = list(pieces(self.moments[0].get("output", "")))
        self.goal = (0, reason_of(self.moments[0], "entry"))

    def ahead(self, is_goal):
        """The nearest moment ahead that is one, or has a reason of its own; else the exit."""
        last = len(self.moments)
        return next((k for k in range(self.at + 1, last) if is_goal(k) or "stop" in self.moments[k]), last)

    def target(self, how):
        at = self.at
        if how == "stepIn":
            return at + 1, "step"
        if how == "next":
            return self.ahead(lambda k: self.depth(k) <= self.depth(at)), "step"
        if how == "stepOut":
            return self.ahead(lambda k: self.depth(k) < self.depth(at)), "step"
        if how == "continue":
            return self.ahead(self.is_at_breakpoint), "breakpoint"
        if how == "stepBack":
            return max(at - 1, 0), "step"
        behind = next(filter(self.is_at_breakpoint, range(at - 1, -1, -1)), None)
        return (0, "entry") if behind is None else (behind, "breakpoint")

    def resume(self, how):
        place, reason = self.target(how)
        stop = {"reason": reason}
        self.told = []
        self.held = False
        self.values = {}
        if how not in BACK:
            waiting = [k for k in range(self.at + 1, place) if self.moments[k].get("waits", False)]
            if waiting:
                place, stop, self.held = waiting[0], {"reason": "pause"}, True
            elif place < len(self.moments):
                stop = reason_of(self.moments[place], reason)
            for moment in self.moments[self.at + 1 : place + 1]:
                self.told += pieces(moment.get("output", ""))
        self.goal = (place, stop)

    def pause(self):
        self.held = False

    def end(self):
        self.at = None

    def poll(self):
        """What happens while it runs: a piece of output, nothing, a stop or the exit."""
        if self.told:
            return "output", self.told.pop(0)
        if self.held:
            return None, None
        place, stop = self.goal
        if place == len(self.moments):
            self.at = None
            return "exited", self.exit
        self.at = place
        return "stopped", stop


class References:
    """What was named in this stop, each with its number: the numbers rise from 1, and go on after those that died."""

    def __init__(self, most, greatest):
        self.most = most
        self.greatest = greatest
        self.live = []
        self.dead = 0

    def number(self, kind, thing):
        for place, (_, known) in enumerate(self.live):
            if known is thing:
                return self.dead + place + 1
        if len(self.live) >= self.most:
            raise Failed("tooManyReferences")
        if self.dead + len(self.live) >= self.greatest:
            raise Failed("referencesExhausted")
        self.live.append((kind, thing))
        return self.dead + len(self.live)

    def thing(self, kind, number):
        place = number - self.dead - 1
        if 0 <= place < len(self.live) and self.live[place][0] == kind:
            return self.live[place][1]
        raise Failed("staleReference")

    def clear(self):
        self.dead += len(self.live)
        self.live = []


def window(items, start, count):
    """The items from `start` on, at most so many; 0 asks for all."""
    return items[start or 0 :][: count or None]


class Session:
    """The adapter: `handle` answers a request, or a response, with the bytes that come for it."""

    def __init__(self, recording, max_body=4194304, max_references=65536, max_breakpoints=4096, max_reference=2147483647):
        self.debuggee = Recorded(recording)
        self.references = References(max_references, max_reference)
        self.max_body = max_body
        self.max_breakpoints = max_breakpoints
        self.next_breakpoint = 1
        self.phase = "Fresh"
        self.seq = 0
        self.parked = None
        # The number of the request for a terminal, until its response comes.
        self.asked = None
        self.out = b""
        # What the client counts from, whether it asks for parts of lists, and whether it runs terminals.
        self.first_line = self.first_column = 1
        self.paging = False
        self.terminals = False
        self.bodies = {
            "threads": self.threads,
            "stackTrace": self.stack_trace,
            "scopes": self.scopes,
            "variables": self.variables,
            "evaluate": self.evaluate,
            "source": self.content,
            "loadedSources": self.loaded_sources,
        }

    def text(self, message):
        """The message as it is written next."""
        return written({**message, "seq": self.seq + 1})

    def write(self, message):
        self.out += frame(self.text(message))
        self.seq += 1

    def respond(self, request, body=None):
        """Where a response may be too long, nothing but references has changed before it."""
        message = {"type": "response", "request_seq": request["seq"], "success": True, "command": request["command"]}
        message = message if body is None else {**message, "body": body}
        if len(self.text(message)) > self.max_body:
            raise Failed("tooLarge")
        self.write(message)

    def fail(self, request, name, key=None):
        message = {"type": "response", "request_seq": request["seq"], "command": request["command"]}
        self.write({**message, **failure(name, key)})

    def event(self, name, body=None):
        self.write({"type": "event", "event": name} if body is None else {"type": "event", "event": name, "body": body})

    def handle(self, request):
        """Nothing is looked at once the session has ended."""
        self.out = b""
        if self.phase == "Ended":
            return b""
        if request["type"] == "response":
            self.take_response(request)
            self.polls()
            return self.out
        told = len(self.references.live)
        try:
            self.test(request["command"], request.get("arguments"))
            self.serve(request, request["command"], request.get("arguments"))
        except Failed as failure:
            # What a refused answer named was not told.
            del self.references.live[told:]
            self.fail(request, failure.name, failure.key)
        self.polls()
        return self.out

    def test(self, command, arguments):
        """The failures that hold of the name, the arguments and the phase, in their order."""
        key = bad_key(command, arguments)
        if self.phase == "Fresh" and command not in ("initialize", "disconnect"):
            raise Failed("notInitialized")
        if self.phase != "Fresh" and command == "initialize":
            raise Failed("alreadyInitialized")
        if command not in COMMANDS:
            raise Failed("unknownCommand")
        served = COMMANDS[command].served
        if not served:
            raise Failed("unsupported")
        if key is not None:
            raise Failed("badArguments", key)
        if self.phase not in served:
            raise Failed("notStopped" if served == {"Stopped"} and self.phase == "Running" else "wrongPhase")

    def serve(self, request, command, arguments):
        if command == "initialize":
            self.phase = "Ready"
            self.count_as(arguments or {})
            self.respond(request, CAPABILITIES)
            self.event("initialized")
        elif command in ("launch", "attach") and self.phase == "Ready":
            self.phase = "Parked"
            self.parked = request
        elif command in ("launch", "attach") and self.wants_terminal(request):
            self.parked = request
            self.ask_terminal()
        elif command in ("launch", "attach"):
            self.start(request)
        elif command == "configurationDone":
            self.respond(request)
            if self.phase == "Parked" and self.wants_terminal(self.parked):
                self.ask_terminal()
            elif self.phase == "Parked":
                self.start(self.parked)
            else:
                self.phase = "Configured"
        elif command == "disconnect":
            if self.parked is not None:
                self.fail(self.parked, "cancelled")
            self.respond(request)
            self.end("Ended")
        elif command == "terminate":
            self.respond(request)
            self.event("terminated")
            self.end("Exited")
        elif command == "setBreakpoints":
            self.set_breakpoints(request, arguments)
        elif command == "setVariable":
            self.set_variable(request, arguments)
        elif command in self.bodies:
            self.respond(request, self.bodies[command](arguments or {}))
        elif command in RESUMING:
            self.thread(arguments)
            self.debuggee.resume(command)
            self.references.clear()
            self.phase = "Running"
            self.respond(request, {"allThreadsContinued": True} if command == "continue" else None)
        else:
            if command == "pause" and self.phase == "Running":
                self.debuggee.pause()
            self.respond(request)

    def count_as(self, options):
        """Lines and columns count from 1 where nothing else is said; `null` says nothing."""
        self.first_line = 0 if options.get("linesStartAt1") is False else 1
        self.first_column = 0 if options.get("columnsStartAt1") is False else 1
        self.paging = options.get("supportsVariablePaging") is True
        self.terminals = options.get("supportsRunInTerminalRequest") is True

    def wants_terminal(self, launch):
        """`attach` never does. Arguments of a launch are an object where there are any."""
        told = launch.get("arguments") or {}
        return self.terminals and launch["command"] == "launch" and told.get("console") == "terminal"

    def ask_terminal(self):
        self.phase = "Asked"
        self.write({"type": "request", "command": TERMINAL, "arguments": RUN_IN_TERMINAL})
        self.asked = self.seq

    def take_response(self, response):
        """Once `disconnect` is answered it comes too late, and does nothing more."""
        if self.asked is None or response["request_seq"] != self.asked:
            raise Closed("Unmatched")
        if response["command"] != TERMINAL:
            raise Closed("CommandMismatch")
        self.asked = None
        if self.phase != "Asked":
            return
        if response["success"]:
            self.start(self.parked)
        else:
            self.fail(self.parked, "debuggee")
            self.parked = None
            self.phase = "Configured"

    def start(self, launch):
        self.debuggee.start()
        self.phase = "Running"
        self.parked = None
        self.respond(launch)

    def end(self, phase):
        self.debuggee.end()
        self.references.clear()
        self.parked = None
        self.phase = phase

    def set_breakpoints(self, request, arguments):
        """The answer is measured before anything changes. The debuggee counts lines from 1; the answer has them as asked."""
        name = name_of(arguments["source"])
        asked = arguments.get("lines") or []
        if arguments.get("breakpoints") is not None:
            asked = [one["line"] for one in arguments["breakpoints"]]
        lines = [line + 1 - self.first_line for line in asked]
        others = sum(len(there) for other, there in self.debuggee.lines.items() if other != name)
        if others + len(lines) > self.max_breakpoints:
            raise Failed("tooManyBreakpoints")
        verified = self.debuggee.verify(name, lines)
        rows = [
            {"id": self.next_breakpoint + place, "line": line, "verified": is_there}
            for place, (line, is_there) in enumerate(zip(asked, verified))
        ]
        self.respond(request, {"breakpoints": rows})
        self.next_breakpoint += len(lines)
        self.debuggee.lines[name] = lines

    def set_variable(self, request, arguments):
        """The answer is measured before the debuggee is asked to set the value. Nothing is named in it."""
        holder = self.references.thing("holder", arguments["variablesReference"])
        found, value = self.debuggee.assigned(holder, arguments["name"], arguments["value"])
        self.respond(request, beside(found, {"value": value}, *REFERENCES))
        self.debuggee.assign(holder, arguments["name"], arguments["value"])

    def threads(self, _):
        there = self.debuggee.threads()
        return {"threads": [beside(thread, {"id": thread["id"], "name": thread["name"]}) for thread in there]}

    def thread(self, arguments):
        for thread in self.debuggee.threads():
            if thread["id"] == arguments["threadId"]:
                return thread
        raise Failed("unknownThread")

    def stack_trace(self, arguments):
        frames = self.thread(arguments)["frames"]
        rows = [
            beside(one, {
                "column": self.first_column,
                "id": self.references.number("frame", one),
                "line": one["line"] - 1 + self.first_line,
                "name": one["name"],
                "source": self.source(one["source"]),
            })
            for one in window(frames, arguments.get("startFrame"), arguments.get("levels"))
        ]
        return {"stackFrames": rows, "totalFrames": len(frames)}

    def scopes(self, arguments):
        frame = self.references.thing("frame", arguments["frameId"])
        rows = [
            beside(one, {"expensive": False, "name": one["name"], "variablesReference": self.references.number("holder", one)})
            for one in self.debuggee.scopes(frame)
        ]
        return {"scopes": rows}

    def holder(self, variable):
        """The number of a variable that has children; else 0."""
        return self.references.number("holder", variable) if self.debuggee.children(variable) else 0

    def variables(self, arguments):
        """A part of them only where the client has said that it asks for parts."""
        holder = self.references.thing("holder", arguments["variablesReference"])
        there = [(one, self.debuggee.value(holder, place)) for place, one in enumerate(self.debuggee.children(holder))]
        if self.paging:
            there = window(there, arguments.get("start"), arguments.get("count"))
        rows = [
            beside(one, {"name": one["name"], "value": value, "variablesReference": self.holder(one)})
            for one, value in there
        ]
        return {"variables": rows}

    def evaluate(self, arguments):
        number = arguments.get("frameId")
        frame = None if number is None else self.references.thing("frame", number)
        found, value = self.debuggee.evaluate(frame, arguments["expression"])
        own = {"result": value, "variablesReference": self.holder(found)}
        return beside(found, own, *REFERENCES)

    def content(self, arguments):
        inner = (arguments.get("source") or {}).get("sourceReference")
        place = (inner or arguments.get("sourceReference") or 0) - 1
        if not 0 <= place < len(self.debuggee.sources):
            raise Failed("unknownSource")
        return {"content": self.debuggee.sources[place]["text"]}

    def source(self, place):
        told = self.debuggee.sources[place]
        path = {"path": told["path"]} if "path" in told else {}
        number = {} if path and told.get("onDisk", False) else {"sourceReference": place + 1}
        return beside(told, {"name": told["name"], **path, **number}, "path", "sourceReference")

    def loaded_sources(self, _):
        return {"sources": [self.source(place) for place in range(len(self.debuggee.sources))]}

    def polls(self):
        while self.phase == "Running" and self.poll_once():
            pass

    def poll_once(self):
        """Whether something happened."""
        what, value = self.debuggee.poll()
        if what == "output":
            self.event("output", {"category": "stdout", "output": value})
        elif what == "stopped":
            self.phase = "Stopped"
            thread = self.debuggee.moments[self.debuggee.at]["thread"]
            self.event("stopped", {"allThreadsStopped": True, **value, "threadId": thread})
        elif what == "exited":
            self.end("Exited")
            self.event("exited", {"exitCode": value})
            self.event("terminated")
        return what is not None


def main():
    words = argparse.ArgumentParser(description="Serves a recording, as the model has it.")
    words.add_argument("--version", action="version", version="a model of dap")
    serve = words.add_subparsers(required=True).add_parser("serve")
    serve.add_argument("recording")
    for name in ("body", "references", "breakpoints", "reference"):
        serve.add_argument(f"--max-{name}", type=int, default=argparse.SUPPRESS)
    limits = vars(words.parse_args())
    with open(limits.pop("recording"), encoding="utf-8") as file:
        session = Session(json.load(file), **limits)
    while session.phase != "Ended" and (line := sys.stdin.buffer.readline()):
        sys.stdin.buffer.readline()
        message = json.loads(sys.stdin.buffer.read(int(line.partition(b":")[2])))
        if message["type"] in ("request", "response"):
            try:
                sys.stdout.buffer.write(session.handle(message))
            except Closed as closed:
                sys.exit(told_fault(closed))
            sys.stdout.buffer.flush()


def told_fault(closed):
    sys.stderr.write(f"dap: {closed}\n")
    return 3


if __name__ == "__main__":
    main()
