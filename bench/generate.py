#!/usr/bin/env python3
"""Writes a stream of framed Debug Adapter Protocol messages to standard output.

    generate.py KIND SIZE SEED > FILE

or, where KIND is `recording`, a recording for a server, or, where it is `transcript` or `transcript_small`, a transcript.

KIND `large` is what an adapter sends where the debuggee is big: `stackTrace`, `variables`, `loadedSources` and
`modules` responses and long `output` events, of some 4 KB to 170 KB each. KIND `small` is both ends of sessions
that step and look around: requests, short responses and short events, of some 50 to 400 bytes each.

These two end with the first frame that reaches SIZE bytes. KIND `requests` is one client's side of a session: an
`initialize`, and SIZE more requests that leave the session in the phase after it. KIND `stopped` is another's: three
requests until the debuggee has stopped, and SIZE more that look around there. They are for the server of a
`recording` with the same SEED; its SIZE is how many moments it has, at least two.

KIND `client_mixed` is an adapter's side of one session that stops again and again, and `client_events` of one with
little but events: what comes back where a client sends the requests of `client_mixed_requests` or
`client_events_requests`. SIZE is that of the adapter's side, which ends with the first stop that reaches it.

KIND `transcript` is both sides of such a session as `client_mixed`, in order, each message a line after `> ` or `< `, and
`transcript_small` one of short lines. SIZE is that of the lines, also of `transcript_framed` and `transcript_small_framed`,
which have the same messages as frames. All rules of a transcript are kept.

KIND `stops` is the requests of a client that steps on SIZE times less one, and at each stop asks for the stack, the scope of its
newest frame and the variables of that; `stops_recording` is what a server plays then. `host_stops` is the same for a host of
`stops_sources`, of which SIZE is how many there are: each request as a line, and what the debugger did; in `host_stops_later` the variables are told once they are
asked for. The SEED does not matter to these.

The same KIND, SIZE and SEED give the same bytes on every machine: of Python's generator only `random()` is used, whose
sequence does not change between versions.

A stream of the first two kinds is sessions, one after the other. Each session has an adapter and a client, after the
wire habits of real ones: the order of keys, blanks after colons, which characters are escaped, and how `seq` counts.
"""

import argparse
import copy
import itertools
import json
import random
import sys

COMPACT = (",", ":")


# ---- How the ends write JSON -------------------------------------------------------------------------------

SORTED = json.JSONEncoder(ensure_ascii=False, sort_keys=True, separators=COMPACT)
PLAIN = json.JSONEncoder(ensure_ascii=False, separators=COMPACT)
SPACED = json.JSONEncoder()


def go_text(message):
    """Go escapes three characters more; in JSON text they stand within strings only."""
    text = PLAIN.encode(message)
    return text.replace("<", "\\u003c").replace(">", "\\u003e").replace("&", "\\u0026")


# For each adapter: its writer, and whether its `seq` counts or is always 0.
ADAPTERS = {
    "lldb": (SORTED.encode, False),
    "delve": (go_text, False),
    "debugpy": (SPACED.encode, True),
    "rdbg": (PLAIN.encode, True),
}
CLIENTS = {"editor": PLAIN.encode, "go": go_text, "python": SPACED.encode}


def frame(text):
    body = text.encode("utf-8")
    return b"Content-Length: %d\r\n\r\n%s" % (len(body), body)


# ---- What the messages speak of ----------------------------------------------------------------------------

WORDS = """account address alias arena batch block bucket buffer builder cache chunk client column config
context cursor decoder depth digest encoder entry epoch event factory field filter folder frame graph handler
header index inner iterator journal kernel label layout ledger length limit listener lock lookup manifest mapper
marker matrix method monitor node offset option order owner packet parent parser payload pending pool prefix
query queue range reader record region registry request result retry root router row scanner schema scope
segment selector server session shard signal slot snapshot source state store stream table target task ticket
token total tracker tree update value vector version visitor watcher weight window worker writer""".split()
NON_ASCII = ["café", "naïve", "Größe", "σύνολο", "данные", "日本語", "名前", "→", "✓", "“done”", "😀", "🚀", "—"]
EXTENSIONS = {"lldb": [".cpp", ".c", ".h", ".rs"], "delve": [".go"], "debugpy": [".py"], "rdbg": [".rb"]}
FOLDERS = {
    "lldb": ["/home/user/project/src", "/usr/include/c++/12/bits", "/build/glibc-2.36/sysdeps/x86_64"],
    "delve": ["/home/user/go/src/project", "/usr/lib/go-1.19/src/runtime", "/usr/lib/go-1.19/src/net/http"],
    "debugpy": ["/home/user/project", "/usr/lib/python3.11/asyncio", "/home/user/venv/lib/python3.11/site-packages"],
    "rdbg": ["/home/user/project/lib", "/usr/lib/ruby/3.1.0", "/var/lib/gems/3.1.0/gems/rack-2.2.6/lib/rack"],
}
TYPES = {
    "lldb": ["int", "unsigned long", "const char *", "double", "bool", "std::string", "Node *",
             "std::vector<int, std::allocator<int> >", "std::map<std::string, Entry>"],
    "delve": ["int", "uint64", "string", "float64", "bool", "[]byte", "*main.node", "map[string]main.entry",
              "chan<- error"],
    "debugpy": ["int", "str", "float", "bool", "list", "dict", "NoneType", "Node"],
    "rdbg": ["Integer", "String", "Float", "TrueClass", "Array", "Hash", "NilClass", "Node"],
}


class World:
    """Draws what one session speaks of."""

    def __init__(self, draw, adapter):
        self.draw = draw
        self.adapter = adapter

    def below(self, count):
        return int(self.draw() * count)

    def between(self, low, high):
        return low + int(self.draw() * (high - low + 1))

    def pick(self, options):
        return options[int(self.draw() * len(options))]

    def chance(self, share):
        return self.draw() < share

    def word(self):
        return self.pick(WORDS)

    def name(self):
        one, two = self.word(), self.word()
        if self.adapter == "delve":
            return one + two.capitalize()
        return one if self.chance(0.4) else one + "_" + two

    def function(self):
        one, two = self.word(), self.name()
        if self.adapter == "lldb":
            return self.pick([two, one + "::" + two, "std::vector<%s, std::allocator<%s> >::%s" % (one, one, two),
                              one.capitalize() + "::" + two + "(std::string const&, unsigned long)"])
        if self.adapter == "delve":
            return self.pick(["main." + two, "main.(*" + one + ")." + two, "runtime." + two, "net/http." + two])
        if self.adapter == "debugpy":
            return self.pick([two, "<module>", "<lambda>", one.capitalize() + "." + two])
        return self.pick(["Object#" + two, one.capitalize() + "#" + two, "block in <main>", "[C] Array#each"])

    def file(self):
        return self.word() + "_" + self.word() + self.pick(EXTENSIONS[self.adapter])

    def path(self, file):
        return self.pick(FOLDERS[self.adapter]) + "/" + self.word() + "/" + file

    def address(self):
        return "0x%016x" % (0x7F0000000000 + self.below(1 << 40))

    def source(self):
        file = self.file()
        path = self.path(file)
        if self.adapter == "debugpy":
            return {"path": path, "sourceReference": 0}
        if self.adapter == "rdbg":
            return {"name": file, "path": path, "sourceReference": None}
        return {"name": file, "path": path}

    def category(self):
        return self.pick(["stdout", "stderr", "console"])

    def words(self, count):
        return " ".join(self.word() for _ in range(count))

    def value(self, kind):
        """The text of a value, as adapters show it; so with quotes and escapes in it."""
        if kind in ("int", "unsigned long", "uint64", "Integer"):
            return str(self.below(1 << self.between(1, 40)))
        if kind in ("double", "float64", "float", "Float"):
            return "%.6f" % (self.draw() * 1000)
        if kind in ("bool", "TrueClass"):
            return self.pick(["true", "false"]) if self.adapter != "debugpy" else self.pick(["True", "False"])
        if kind in ("NoneType", "NilClass"):
            return "None" if kind == "NoneType" else "nil"
        if "char" in kind or kind in ("string", "str", "String", "std::string"):
            text = '"' + self.words(self.between(1, 6)) + self.pick(["", "", "\\n", " \\\"x\\\"", "\\t"]) + '"'
            if self.chance(0.08):
                text = text[:-1] + " " + self.pick(NON_ASCII) + '"'
            return self.address() + " " + text if "char" in kind else text
        if self.chance(0.3):
            return self.address()
        if self.adapter == "debugpy":
            return "<__main__.%s object at %s>" % (self.word().capitalize(), self.address())
        if self.adapter == "rdbg":
            return "#<%s:%s @%s=%d>" % (self.word().capitalize(), self.address(), self.word(), self.below(1000))
        return "{%s: %d, %s: \"%s\"}" % (self.word(), self.below(1000), self.word(), self.name())

    def variable(self):
        kind = self.pick(TYPES[self.adapter])
        name = "[%d]" % self.below(1000) if self.chance(0.15) else self.name()
        value = self.value(kind)
        held = value[:1] in "<#{0" and self.chance(0.8)
        reference = self.between(1, 100000) if held else 0
        made = {"name": name, "value": value, "type": kind}
        if self.adapter == "delve":
            made["presentationHint"] = {}
        if self.chance(0.8):
            made["evaluateName"] = name if self.chance(0.5) else self.name() + "." + name
        made["variablesReference"] = reference
        if reference and self.chance(0.4):
            made["indexedVariables"] = self.below(1000)
        if self.adapter == "rdbg":
            made["namedVariables"] = self.below(10)
        if self.adapter == "lldb":
            made["id"] = self.between(1, 1000)
        if reference and self.chance(0.3):
            made["memoryReference"] = self.address()
        if self.adapter == "debugpy" and self.chance(0.1):
            made["presentationHint"] = {"attributes": ["readOnly"], "visibility": "private"}
        return made

    def stack_frame(self, number):
        made = {"id": number, "name": self.function(), "source": self.source(), "line": self.between(1, 5000),
                "column": self.between(0, 80)}
        if self.adapter in ("lldb", "delve") or self.chance(0.3):
            made["instructionPointerReference"] = self.address()
        if self.chance(0.5):
            made["moduleId"] = self.below(400) if self.chance(0.5) else self.word() + ".so.6"
        if self.chance(0.3):
            made["presentationHint"] = self.pick(["subtle", "label", "normal"])
        return made

    def loaded_source(self):
        made = self.source()
        if self.chance(0.2):
            made["origin"] = self.words(3)
        if self.chance(0.25):
            digest = "".join("%08x" % self.below(1 << 32) for _ in range(8))
            made["checksums"] = [{"algorithm": "SHA256", "checksum": digest}]
        return made

    def module(self, number):
        file = "lib%s_%s.so.%d" % (self.word(), self.word(), self.below(20))
        path = "/usr/lib/x86_64-linux-gnu/" + file
        made = {"id": number if self.chance(0.5) else file, "name": file, "path": path, "isOptimized": self.chance(0.7),
                "isUserCode": self.chance(0.2), "version": "%d.%d.%d" % (self.below(9), self.below(40), self.below(99)),
                "symbolStatus": self.pick(["Symbols loaded.", "Symbols not found.", "Skipped loading symbols."])}
        if self.chance(0.5):
            made["symbolFilePath"] = "/usr/lib/debug/.build-id/%02x/%08x.debug" % (self.below(256), self.below(1 << 32))
        made["addressRange"] = self.address()
        return made

    def breakpoint(self, number):
        made = {"id": number, "verified": self.chance(0.9), "line": self.between(1, 3000)}
        if self.chance(0.5):
            made["source"] = self.source()
        return made

    def log(self, size):
        """Lines of a log, of at least so many characters: quotes, colours, tabs and some letters past ASCII."""
        lines, made = [], 0
        while made < size:
            kind = self.below(6)
            if kind == 0:
                line = "\x1b[3%dm%s\x1b[0m %s: %s" % (self.between(1, 6), self.pick(["INFO", "WARN", "DEBUG"]),
                                                       self.name(), self.words(self.between(3, 12)))
            elif kind == 1:
                line = "%s: {\"%s\": \"%s\", \"%s\": %d}" % (self.name(), self.word(), self.name(), self.word(),
                                                             self.below(100000))
            elif kind == 2:
                line = "\t" + self.function() + " (" + self.path(self.file()) + ":" + str(self.below(3000)) + ")"
            elif kind == 3:
                line = "%s %s %s" % (self.words(4), self.pick(NON_ASCII), self.words(3))
            else:
                line = "%02d:%02d:%02d.%03d %s" % (self.below(24), self.below(60), self.below(60), self.below(1000),
                                                   self.words(self.between(4, 14)))
            lines.append(line)
            made += len(line) + 1
        return "\n".join(lines) + "\n"


# ---- Sessions ----------------------------------------------------------------------------------------------


class Session:
    """Two ends: what each of them writes, as frames in the order of the wire."""

    def __init__(self, draw):
        adapter = list(ADAPTERS)[int(draw() * len(ADAPTERS))]
        self.client = list(CLIENTS)[int(draw() * len(CLIENTS))]
        self.client_writer = CLIENTS[self.client]
        self.speak_as(adapter, draw)
        self.asked = 0
        self.told = 0
        self.frames = []

    def speak_as(self, adapter, draw):
        self.adapter = adapter
        self.world = World(draw, adapter)
        self.adapter_writer, self.counts = ADAPTERS[adapter]

    def take(self):
        frames, self.frames = self.frames, []
        return frames

    def say(self, message):
        """The client's end writes."""
        self.frames.append(frame(self.client_writer(message)))

    def tell(self, message):
        """The adapter's end writes."""
        self.frames.append(frame(self.adapter_writer(message)))

    def next_told(self):
        self.told += 1
        return self.told if self.counts else 0

    def request(self, command, arguments=None):
        self.asked += 1
        if self.client == "editor":
            message = {"command": command, "arguments": arguments, "type": "request", "seq": self.asked}
        else:
            message = {"seq": self.asked, "type": "request", "command": command, "arguments": arguments}
        if arguments is None:
            del message["arguments"]
        self.say(message)

    def respond(self, command, body=None, failure=None, to=None):
        """Answers a request by its number, or the last one."""
        number, to = self.next_told(), to or self.asked
        if self.adapter == "rdbg":
            message = {"type": "response", "command": command, "request_seq": to, "success": failure is None,
                       "message": failure or "Success"}
        else:
            message = {"seq": number, "type": "response", "request_seq": to, "success": failure is None,
                       "command": command}
            if failure is not None:
                message["message"] = failure
        if body is not None:
            message["body"] = body
        if self.adapter == "rdbg":
            message["seq"] = number
        self.tell(message)

    def event(self, name, body=None):
        number = self.next_told()
        if self.adapter == "rdbg":
            message = {"type": "event", "event": name, "body": body, "seq": number}
        else:
            message = {"seq": number, "type": "event", "event": name, "body": body}
        if body is None:
            del message["body"]
        self.tell(message)

    # -- large messages

    def large(self):
        world = self.world
        self.asked += world.between(1, 3)
        kind = world.below(100)
        if kind < 35:
            count = world.between(20, 200)
            first = world.between(1, 100000)
            frames = [world.stack_frame(first + place) for place in range(count)]
            self.respond("stackTrace", {"stackFrames": frames, "totalFrames": count})
        elif kind < 70:
            self.respond("variables", {"variables": [world.variable() for _ in range(world.between(50, 500))]})
        elif kind < 76:
            self.respond("loadedSources", {"sources": [world.loaded_source() for _ in range(world.between(50, 1300))]})
        elif kind < 82:
            count = world.between(20, 300)
            self.respond("modules", {"modules": [world.module(place) for place in range(count)], "totalModules": count})
        else:
            body = {"category": world.category(), "output": world.log(world.between(4000, 40000))}
            if world.chance(0.2):
                body["source"], body["line"] = world.source(), world.between(1, 3000)
            self.event("output", body)

    # -- small messages: what follows one step or one look

    def small(self):
        world = self.world
        thread = world.between(1, 9) if self.adapter != "lldb" else world.between(4000, 30000)
        kind = world.below(100)
        if kind < 22:
            self.step(thread)
        elif kind < 30:
            self.request("threads")
            self.respond("threads", {"threads": [{"id": thread + place, "name": world.name() if place else "main"}
                                                 for place in range(world.between(1, 4))]})
        elif kind < 42:
            arguments = {"threadId": thread}
            if world.chance(0.6):
                arguments["startFrame"] = 0
                arguments["levels"] = 1
            self.request("stackTrace", arguments)
            self.respond("stackTrace", {"stackFrames": [world.stack_frame(world.between(1, 600000))], "totalFrames": 1})
        elif kind < 52:
            self.request("scopes", {"frameId": world.between(1, 600000)})
            reference = world.between(1, 10000)
            scopes = [
                {"name": "Locals", "presentationHint": "locals", "variablesReference": reference, "expensive": False},
                {"name": "Globals", "variablesReference": reference + 1, "expensive": False},
            ]
            self.respond("scopes", {"scopes": scopes[:world.between(1, 2)]})
        elif kind < 66:
            self.request("variables", {"variablesReference": world.between(1, 100000)})
            self.respond("variables", {"variables": [world.variable() for _ in range(world.below(3))]})
        elif kind < 74:
            self.evaluate()
        elif kind < 80:
            self.breakpoints()
        elif kind < 94:
            body = {"category": world.category(), "output": world.log(world.between(1, 80))[-240:]}
            if self.adapter == "debugpy" and world.chance(0.05):
                body = {"category": "telemetry", "output": world.word(), "data": {"seconds": world.below(10000) / 1000}}
            self.event("output", body)
        elif kind < 97:
            self.event("thread", {"reason": world.pick(["started", "exited"]), "threadId": thread})
        else:
            self.event("breakpoint", {"reason": "changed", "breakpoint": world.breakpoint(world.between(1, 60))})

    def step(self, thread):
        world = self.world
        command = world.pick(["next", "next", "continue", "stepIn", "stepOut", "pause"])
        self.request(command, {"threadId": thread})
        self.respond(command, {"allThreadsContinued": True} if command == "continue" else None)
        if world.chance(0.6):
            self.event("continued", {"threadId": thread, "allThreadsContinued": True})
        reason = "pause" if command == "pause" else "breakpoint" if command == "continue" else "step"
        body = {"reason": reason, "threadId": thread, "allThreadsStopped": True}
        if self.adapter == "lldb":
            body["description"], body["preserveFocusHint"] = reason + " 1.1", False
        if reason == "breakpoint":
            body["hitBreakpointIds"] = [world.between(1, 60)]
        self.event("stopped", body)

    def evaluate(self):
        world = self.world
        expression = world.pick(["%s", "%s + 1", "len(%s)", "%s[0]", "%s == \"x\" && true"]) % world.name()
        self.request("evaluate", {"expression": expression, "frameId": world.between(1, 600000),
                                  "context": world.pick(["watch", "hover", "repl"])})
        self.tell_value(lambda: world.below(4))

    def tell_value(self, reference, to=None):
        """Answers an `evaluate`, where there is a value with the reference that a function gives."""
        world = self.world
        if world.chance(0.25):
            text = "could not find symbol value for " + world.name()
            body = {"error": {"id": 2009, "format": text, "showUser": False}}
            self.respond("evaluate", body, "Unable to evaluate", to=to)
        else:
            kind = world.pick(TYPES[self.adapter])
            body = {"result": world.value(kind), "type": kind, "variablesReference": reference()}
            self.respond("evaluate", body, to=to)

    def breakpoints(self):
        world = self.world
        count = world.between(1, 3)
        file = world.file()
        lines = [world.between(1, 3000) for _ in range(count)]
        asked = [{"line": line} for line in lines]
        if world.chance(0.3):
            asked[0]["condition"] = world.name() + " > " + str(world.below(100))
        self.request("setBreakpoints", {"source": {"name": file, "path": world.path(file)}, "breakpoints": asked})
        self.respond("setBreakpoints", {"breakpoints": [{"id": place + 1, "verified": True, "line": line}
                                                        for place, line in enumerate(lines)]})


# ---- One session at a client -------------------------------------------------------------------------------

OFFERED = ["supportsConfigurationDoneRequest", "supportsFunctionBreakpoints", "supportsConditionalBreakpoints",
           "supportsEvaluateForHovers", "supportsSetVariable", "supportsCompletionsRequest", "supportsModulesRequest",
           "supportsRestartRequest", "supportsExceptionInfoRequest", "supportTerminateDebuggee", "supportsLogPoints",
           "supportsTerminateRequest", "supportsCancelRequest", "supportsBreakpointLocationsRequest"]
RESUMING = ["continue", "continue", "next", "next", "stepIn", "stepOut"]


class Conversation(Session):
    """A session from its start to its end, with the frames of its two sides apart.

    The client sends each request once fewer than two wait and the session allows it. So each request is made below
    after the message that lets it go, and its number is known: the client numbers all that it sends, its answers to
    requests of the adapter too. Each stop is written in the ways of one of the adapters.
    """

    def __init__(self, draw, mixed):
        super().__init__(draw)
        self.mixed = mixed
        self.requests = []
        self.given = 0

    def say(self, message):
        self.requests.append(frame(self.client_writer(message)))

    def request(self, command, arguments=None):
        """Its number."""
        super().request(command, arguments)
        return self.asked

    def parts(self, total):
        """The requests, and what comes back, part by part; this has at least so many bytes."""
        threads, told = self.start(), 0
        while told < total:
            threads = self.stop(threads)
            told += sum(map(len, self.frames))
            yield self.take_both()
        self.end(threads)
        yield self.take_both()

    def take_both(self):
        requests, self.requests = self.requests, []
        return requests, self.take()

    def reference(self):
        """Those of a stop are numbered one after the other."""
        self.given += 1
        return self.given

    def start(self):
        world = self.world
        begun = self.request("initialize", {
            "clientID": "editor", "clientName": "Editor", "adapterID": self.adapter, "pathFormat": "path",
            "linesStartAt1": True, "columnsStartAt1": True, "supportsVariableType": True, "locale": "en"})
        self.respond("initialize", {flag: True for flag in OFFERED}, to=begun)
        launched = self.request("launch", {"program": world.path(world.file()), "cwd": "/home/user/project", "args": [],
                                           "env": {"LANG": "C.UTF-8"}, "stopOnEntry": False})
        self.event("initialized")
        self.breakpoints()
        configured = self.request("configurationDone")
        self.respond("configurationDone", to=configured)
        threads = self.request("threads")
        self.respond("launch", to=launched)
        return threads

    def stop(self, threads):
        """A stop, before which the client has asked for the threads, and the number of the next such request."""
        self.speak_as(self.world.pick(list(ADAPTERS)), self.world.draw)
        world = self.world
        self.given = world.below(1000)
        thread = world.between(4000, 30000) if self.adapter == "lldb" else world.between(1, 9)
        self.run(thread)
        self.event("stopped", {"reason": world.pick(["breakpoint", "step", "pause"]), "threadId": thread,
                               "allThreadsStopped": True})
        frame = self.stack(thread, threads)
        holder = self.scopes(frame)
        return self.values(thread, frame, holder)

    def run(self, thread):
        """What happens before a stop. The client waits for it with the threads asked for and nothing else to send."""
        world = self.world
        for _ in range(world.below(4) if self.mixed else world.between(4, 24)):
            kind = world.below(100)
            if kind < 8:
                self.event("thread", {"reason": world.pick(["started", "exited"]), "threadId": thread + world.below(9)})
            elif kind < 14:
                self.event("breakpoint", {"reason": "changed", "breakpoint": world.breakpoint(world.between(1, 60))})
            elif kind < 18:
                self.event("module", {"reason": "new", "module": {"id": world.below(400), "name": world.file()}})
            else:
                self.output()
        if world.chance(0.02):
            self.ask()

    def output(self):
        world = self.world
        text = world.log(150)[-world.between(30, 200):] if self.mixed else world.log(1)[-world.between(4, 64):]
        self.event("output", {"category": world.category(), "output": text})

    def ask(self):
        """A request of the adapter's. The client's answer takes a number."""
        world = self.world
        shown = {"kind": "integrated", "title": world.name(), "cwd": "/home/user/project",
                 "args": [world.path(world.file())]}
        self.tell({"seq": self.next_told(), "type": "request", "command": "runInTerminal", "arguments": shown})
        self.asked += 1

    def stack(self, thread, threads):
        """The newest frame's id."""
        world = self.world
        levels = STACK if self.mixed else 1
        asked = self.request("stackTrace", {"threadId": thread, "startFrame": 0, "levels": levels})
        self.respond("threads", {"threads": [{"id": thread + place, "name": world.name() if place else "main"}
                                             for place in range(world.between(1, 4))]}, to=threads)
        frames = [world.stack_frame(self.reference()) for _ in range(levels)]
        self.respond("stackTrace", {"stackFrames": frames, "totalFrames": levels}, to=asked)
        return frames[0]["id"]

    def scopes(self, frame):
        """The reference of the first scope."""
        asked = self.request("scopes", {"frameId": frame})
        if self.mixed:
            self.output()
        shown = [{"name": name, "presentationHint": name.lower(), "variablesReference": self.reference(),
                  "expensive": False} for name in ("Locals", "Arguments", "Globals")[:3 if self.mixed else 1]]
        self.respond("scopes", {"scopes": shown}, to=asked)
        return shown[0]["variablesReference"]

    def values(self, thread, frame, holder):
        """The client asks for two things at once, and goes on once the first is there; the number of its `threads`."""
        world = self.world
        listed = self.request("variables", {"variablesReference": holder})
        expression = world.pick(["%s", "%s + 1", "len(%s)", "%s[0]", "%s == \"x\" && true"]) % world.name()
        evaluated = self.request("evaluate", {"expression": expression, "frameId": frame, "context": "watch"})
        variables = [world.variable() for _ in range(100 if self.mixed else world.below(3))]
        for variable in variables:
            if variable["variablesReference"]:
                variable["variablesReference"] = self.reference()
        self.respond("variables", {"variables": variables}, to=listed)
        self.look_further(holder, variables)
        command = world.pick(RESUMING)
        resumed = self.request(command, {"threadId": thread})
        self.tell_value(self.reference, to=evaluated)
        threads = self.request("threads")
        continued = world.below(3)
        if continued == 0:
            self.event("continued", {"threadId": thread, "allThreadsContinued": True})
        self.respond(command, {"allThreadsContinued": True} if command == "continue" else None, to=resumed)
        if continued == 1:
            self.event("continued", {"threadId": thread, "allThreadsContinued": True})
        return threads

    def look_further(self, holder, variables):
        """What else the client asks for before it goes on."""

    def end(self, threads):
        left = self.request("disconnect", {"terminateDebuggee": True})
        self.respond("threads", {"threads": []}, to=threads)
        self.event("exited", {"exitCode": 0})
        self.event("terminated")
        self.respond("disconnect", to=left)


def side(place, mixed):
    """What writes the requests (0) or what comes back (1), once that has so many bytes."""
    def write_side(total, seed, write):
        for part in Conversation(random.Random(seed).random, mixed).parts(total):
            for made in part[place]:
                write(made)
    return write_side


# ---- Transcripts -------------------------------------------------------------------------------------------


class Transcript(Conversation):
    """A session as both sides wrote it, in order, each message a line. The messages of either side count from 1."""

    OPENED = 4

    def speak_as(self, adapter, draw):
        super().speak_as(adapter, draw)
        self.counts = True

    def say(self, message):
        self.frames.append(b"> %s\n" % self.client_writer(message).encode("utf-8"))

    def tell(self, message):
        self.frames.append(b"< %s\n" % self.adapter_writer(message).encode("utf-8"))

    def ask(self):
        super().ask()
        self.say({"seq": self.asked, "type": "response", "request_seq": self.told, "success": True,
                  "command": "runInTerminal", "body": {"processId": self.world.between(1000, 30000)}})

    def variable(self):
        """With a number of this stop, where it has one."""
        made = self.world.variable()
        if made["variablesReference"]:
            made["variablesReference"] = self.reference()
        return made

    def look_further(self, holder, variables):
        """It opens some of the variables, looks into one deeper each time, and now and then sets one."""
        world = self.world
        held = [variable["variablesReference"] for variable in variables if variable["variablesReference"]]
        for _ in range(self.OPENED if held else 0):
            asked = self.request("variables", {"variablesReference": world.pick(held)})
            shown = [self.variable() for _ in range(world.between(1, 6))]
            self.respond("variables", {"variables": shown}, to=asked)
            held += [variable["variablesReference"] for variable in shown if variable["variablesReference"]]
        if world.chance(0.25):
            made = world.pick(variables)
            asked = self.request("setVariable", {"variablesReference": holder, "name": made["name"], "value": "0"})
            self.respond("setVariable", {"value": "0", "type": made["type"], "variablesReference": 0}, to=asked)


SHORT_EVENTS = ["breakpoint", "module", "process", "thread", "loadedSource", "memory", "invalidated"]
SHORT_REQUESTS = ["threads", "threads", "threads", "modules", "loadedSources"]


class ShortTranscript(Transcript):
    """A session whose messages have nothing that the rules of a transcript do not ask for."""

    def __init__(self, draw, mixed):
        super().__init__(draw, mixed)
        self.client, self.client_writer = "editor", PLAIN.encode
        self.speak_as("lldb", draw)

    def start(self):
        begun = self.request("initialize", {"adapterID": "short"})
        self.respond("initialize", {flag: True for flag in (*OFFERED, "supportsLoadedSourcesRequest")}, to=begun)
        self.event("initialized")
        for command in ("launch", "configurationDone"):
            self.respond(command, to=self.request(command))

    def stop(self, _):
        world = self.world
        for _ in range(world.between(24, 48)):
            if world.chance(0.15):
                command = world.pick(SHORT_REQUESTS)
                self.respond(command, to=self.request(command))
            else:
                self.event(world.pick(SHORT_EVENTS))
        self.event("stopped")
        frame, holder = self.reference(), self.reference()
        self.respond("stackTrace", {"stackFrames": [{"id": frame}]}, to=self.request("stackTrace"))
        self.respond("scopes", {"scopes": [{"variablesReference": holder}]},
                     to=self.request("scopes", {"frameId": frame}))
        self.respond("variables", to=self.request("variables", {"variablesReference": holder}))
        self.respond("next", to=self.request("next"))

    def end(self, _):
        self.respond("disconnect", to=self.request("disconnect"))


def framed(line):
    """The message of a line, as a frame."""
    body = line[2:-1]
    return b"Content-Length: %d\r\n\r\n%s" % (len(body), body)


def transcript(make, form=bytes):
    """What writes the lines until they have so many bytes, each in a form."""
    def write_lines(total, seed, write):
        for _, lines in make(random.Random(seed).random, True).parts(total):
            for line in lines:
                write(form(line))
    return write_lines


# ---- Requests to one server --------------------------------------------------------------------------------

# The commands with a thread, which fit no session that has not started; those that `dap serve` knows and never serves;
# and names that it does not know: some of the standard, some that real clients add to it, and one that is misspelt.
OF_A_THREAD = ["next", "next", "stepIn", "stepOut", "continue", "pause", "stepBack", "reverseContinue"]
UNSERVED = ["setFunctionBreakpoints", "restart", "modules", "exceptionInfo", "breakpointLocations", "completions"]
UNKNOWN = ["goto", "gotoTargets", "stepInTargets", "restartFrame", "setExpression", "readMemory", "writeMemory",
           "disassemble", "terminateThreads", "dataBreakpointInfo", "setDataBreakpoints", "locations",
           "setInstructionBreakpoints", "setDebuggerProperty", "pydevdSystemInfo", "debugInBrowser", "Threads"]
FILTERS = ["raised", "uncaught", "userUnhandled", "cpp_throw", "cpp_catch", "any", "RuntimeError", "panic",
           "unrecovered-panic", "fatal-throw"]


class Client:
    """A client: it numbers its requests and writes them."""

    def __init__(self):
        self.asked = 0

    def frame(self, command, arguments=None):
        self.asked += 1
        message = {"command": command, "arguments": arguments, "type": "request", "seq": self.asked}
        if arguments is None:
            del message["arguments"]
        return frame(PLAIN.encode(message))

    def initialize(self):
        return self.frame("initialize", {
            "clientID": "editor", "clientName": "Editor", "adapterID": "rec", "pathFormat": "path",
            "linesStartAt1": True, "columnsStartAt1": True, "supportsVariableType": True,
            "supportsVariablePaging": True, "supportsRunInTerminalRequest": True, "locale": "en"})


class Requests(Client):
    """A client that asks again and again before it starts the debuggee."""

    def __init__(self, draw):
        super().__init__()
        self.world = World(draw, "debugpy")

    def next(self):
        world = self.world
        kind = world.below(100)
        if kind < 30:
            return self.frame("threads")
        if kind < 55:
            return self.frame(world.pick(OF_A_THREAD), self.thread())
        if kind < 62:
            return self.frame(world.pick(OF_A_THREAD), self.bad_thread())
        if kind < 74:
            command = world.pick(UNSERVED)
            return self.frame(command, self.unserved(command))
        if kind < 81:
            return self.frame(world.pick(UNKNOWN), {"threadId": world.between(1, 9), world.name(): world.below(1000)})
        if kind < 90:
            return self.frame("cancel", self.cancel())
        if kind < 98:
            return self.frame("setExceptionBreakpoints", self.filters())
        return self.frame("terminate", {"restart": False} if world.chance(0.5) else None)

    def thread(self):
        world = self.world
        made = {"threadId": world.between(1, 9) if world.chance(0.5) else world.between(4000, 30000)}
        if world.chance(0.3):
            made["granularity"] = world.pick(["statement", "line", "instruction"])
        if world.chance(0.1):
            made["singleThread"] = world.chance(0.5)
        return made

    def bad_thread(self):
        """Arguments without a thread, or with none that is a number, or no arguments."""
        world = self.world
        kind = world.below(10)
        if kind < 4:
            return {}
        if kind < 6:
            return {"granularity": "line"}
        if kind < 8:
            return {"threadId": world.pick(["main", "1", True, [1], 1.5])}
        if kind < 9:
            return {"threadId": None}
        return None

    def unserved(self, command):
        world = self.world
        if command == "setFunctionBreakpoints":
            return {"breakpoints": [{"name": world.function()} for _ in range(world.below(4))]}
        if command == "restart":
            return None if world.chance(0.5) else {}
        if command == "modules":
            return {"startModule": world.below(50), "moduleCount": world.below(100)}
        if command == "exceptionInfo":
            return {"threadId": world.between(1, 9)}
        if command == "breakpointLocations":
            return {"source": world.source(), "line": world.between(1, 3000)}
        return {"text": world.name() + ".", "column": world.between(1, 40), "frameId": world.between(1, 1000)}

    def cancel(self):
        world = self.world
        kind = world.below(10)
        if kind < 5:
            return {"requestId": world.between(1, self.asked)}
        if kind < 7:
            return {"requestId": self.asked + world.between(2, 1000)}
        if kind < 8:
            return {"requestId": world.pick(["7", -1, 2.5])}
        return {} if kind < 9 else None

    def filters(self):
        world = self.world
        kind = world.below(20)
        if kind == 0:
            return {}
        if kind == 1:
            return {"filters": world.pick(["any", [1], {"filter": "any"}])}
        made = {"filters": [world.pick(FILTERS) for _ in range(world.below(6))]}
        if world.chance(0.2):
            made["filterOptions"] = [{"filterId": world.pick(FILTERS), "condition": world.name() + " > 0"}]
        return made


def requests(count, seed, write):
    client = Requests(random.Random(seed).random)
    write(client.initialize())
    for _ in range(count):
        write(client.next())


# ---- A recording, and requests at its stops ----------------------------------------------------------------

SOURCES = 6
SOURCE_LINES = 300
STACK = 20
TOP_SCOPES = (("Locals", 100), ("Arguments", 6), ("Globals", 30))
CHILDREN = 3
THREAD = {"threadId": 1}
ASKED_LINES = 50


class Recording:
    """What is recorded of one thread: at each moment the same frames, the newest at another line and with other values."""

    def __init__(self, seed):
        self.world = World(random.Random("recording %d" % seed).random, "lldb")
        self.sources = [self.source() for _ in range(SOURCES)]
        self.frames = [self.stack_frame(place) for place in range(STACK)]

    def source(self):
        world = self.world
        file = world.file()
        text = "".join("    " * world.below(4) + world.words(world.below(7)) + "\n" for _ in range(SOURCE_LINES))
        return {"name": file, "path": world.path(file), "text": text}

    def variable(self, names):
        """A variable with a name of its own; one that shows what it holds has children."""
        world = self.world
        made = world.variable()
        name = made["name"]
        while name in names:
            name = name + "_" + world.word()
        names.add(name)
        told = {"name": name, "value": made["value"]}
        if made["variablesReference"]:
            told["variables"] = [{"name": world.word(), "value": str(world.below(1000))} for _ in range(CHILDREN)]
        return told

    def stack_frame(self, place):
        world = self.world
        names = set()
        scopes = [{"name": name, "variables": [self.variable(names) for _ in range(count)]}
                  for name, count in (TOP_SCOPES if place == 0 else [("Locals", world.between(1, 9))])]
        return {"name": world.function(), "source": world.below(SOURCES), "line": world.between(1, SOURCE_LINES),
                "scopes": scopes}

    def moments(self):
        while True:
            frames = copy.deepcopy(self.frames)
            yield {"thread": 1, "threads": [{"id": 1, "name": "main", "frames": frames}]}
            top = self.frames[0]
            top["line"] = top["line"] % SOURCE_LINES + 1
            for scope in top["scopes"]:
                for variable in scope["variables"][:10]:
                    if "variables" not in variable:
                        variable["value"] = str(self.world.below(1000))


def recording(moments, seed, write):
    told = Recording(seed)
    made = {"exit": 0, "sources": told.sources, "moments": list(itertools.islice(told.moments(), moments))}
    write(PLAIN.encode(made).encode("utf-8"))


class Stopped(Client):
    """A client that looks around where the debuggee has stopped. It knows which number each thing gets: those asked for
    in a stop count on from the last one, in the order in which they are first told."""

    def __init__(self, draw, seed):
        super().__init__()
        self.world = World(draw, "lldb")
        told = Recording(seed)
        self.sources = told.sources
        self.variables = [scope["variables"] for scope in told.frames[0]["scopes"]]
        self.last = 0
        self.numbers = {}

    def number(self, *thing):
        if thing not in self.numbers:
            self.last += 1
            self.numbers[thing] = self.last
        return self.numbers[thing]

    def launched(self):
        return [self.initialize(), self.frame("launch", {"program": "recorded"}), self.frame("configurationDone")]

    def stack_trace(self):
        for place in range(STACK):
            self.number("frame", place)
        return self.frame("stackTrace", {**THREAD, "startFrame": 0, "levels": STACK})

    def scopes(self):
        for place, _ in enumerate(self.variables):
            self.number("scope", place)
        return self.frame("scopes", {"frameId": self.number("frame", 0)})

    def locals(self):
        for place, variable in enumerate(self.variables[0]):
            if "variables" in variable:
                self.number("variable", place)
        return self.frame("variables", {"variablesReference": self.number("scope", 0)})

    def evaluate(self):
        place = self.world.below(len(self.variables[0]))
        return self.frame("evaluate", {"expression": self.variables[0][place]["name"],
                                       "frameId": self.number("frame", 0), "context": "hover"})

    def breakpoints(self):
        """Lines of a source, in order; a few are past its end. Both lists are there, as editors send them."""
        world = self.world
        source = world.pick(self.sources)
        every = SOURCE_LINES // ASKED_LINES
        lines = [every * place + world.between(1, 2 * every) for place in range(ASKED_LINES)]
        return self.frame("setBreakpoints", {
            "source": {"name": source["name"], "path": source["path"]}, "lines": lines,
            "breakpoints": [{"line": line} for line in lines], "sourceModified": False})

    def look(self):
        return [self.stack_trace(), self.scopes(), self.locals()]

    def move(self, command):
        self.numbers = {}
        return [self.frame(command, dict(THREAD)), *self.look()]

    def looks(self):
        """All that it asks. Once it has looked, it asks for things that have a number."""
        yield from self.look()
        while True:
            kind = self.world.below(100)
            if kind < 22:
                yield self.stack_trace()
            elif kind < 44:
                yield self.scopes()
            elif kind < 66:
                yield self.locals()
            elif kind < 89:
                yield self.evaluate()
            elif kind < 99:
                yield self.breakpoints()
            else:
                yield from self.move("next")
                yield from self.move("stepBack")


def stopped(count, seed, write):
    client = Stopped(random.Random(seed).random, seed)
    for made in client.launched():
        write(made)
    for made in itertools.islice(client.looks(), count):
        write(made)


# ---- Stops, for a server and for a host

STOP_LINES, STOP_FRAMES, STOP_VARIABLES = 200, 20, 100


def stop_sources(count=1):
    text = "".join("line %d\n" % line for line in range(STOP_LINES))
    more = [{"name": "a%d.c" % i, "path": "/w/a%d.c" % i, "text": "line\n"} for i in range(1, count)]
    return [{"name": "a.c", "path": "/w/a.c", "text": text}] + more


def stop_variables(stop):
    return [{"name": "v%d" % i, "value": str(stop * 1000 + i)} for i in range(STOP_VARIABLES)]


def stop_moment(stop, is_whole=True):
    frames = [{"name": "f%d" % i, "source": 0, "line": 1 + (stop + i) % STOP_LINES} for i in range(STOP_FRAMES)]
    frames[0]["scopes"] = [{"name": "Locals", "variables": stop_variables(stop)} if is_whole else {"name": "Locals"}]
    return {"threads": [{"id": 1, "name": "main", "frames": frames}], "thread": 1}


def stops_recording(count, _, write):
    made = {"exit": 0, "sources": stop_sources(), "moments": [stop_moment(stop) for stop in range(count)]}
    write(PLAIN.encode(made).encode("utf-8"))


def stops_sources(count, _, write):
    write(PLAIN.encode({"sources": stop_sources(count)}).encode("utf-8"))


def looks_at_stops(count):
    """The requests of each part of a session, before the first stop and at each: those that look, and the one that goes on. A
    stop gives numbers to its frames and to the scope."""
    yield [("initialize", {"adapterID": "bench"}), ("launch", {}), ("configurationDone", None)], []
    for stop in range(count):
        first = (STOP_FRAMES + 1) * stop
        looks = [("stackTrace", {"threadId": 1}), ("scopes", {"frameId": first + 1})]
        ends = [("next", {"threadId": 1})] if stop + 1 < count else [("disconnect", {})]
        yield looks, [("variables", {"variablesReference": first + STOP_FRAMES + 1})] + ends


def numbered(requests, seqs):
    for command, arguments in requests:
        made = {"seq": next(seqs), "type": "request", "command": command}
        if arguments is not None:
            made["arguments"] = arguments
        yield PLAIN.encode(made)


def stops(count, _, write):
    seqs = itertools.count(1)
    for looks, ends in looks_at_stops(count):
        for request in numbered(looks + ends, seqs):
            write(frame(request))


def host_stops(is_whole):
    def write_lines(count, _, write):
        seqs = itertools.count(1)

        def say(mark, text):
            write(("%s %s\n" % (mark, text)).encode("utf-8"))

        for stop, (looks, ends) in enumerate(looks_at_stops(count), -1):
            if stop >= 0:
                told = {"happened": "stopped", "reason": "step" if stop else "entry", "thread": 1,
                        "moment": stop_moment(stop, is_whole)}
                say("!", PLAIN.encode(told if is_whole else {**told, "later": True}))
            for request in numbered(looks, seqs):
                say(">", request)
            if stop >= 0 and not is_whole:
                say("!", PLAIN.encode({"happened": "learned", "holder": 0, "variables": stop_variables(stop)}))
            for request in numbered(ends, seqs):
                say(">", request)
    return write_lines


def stream(kind, total, seed, write):
    draw = random.Random(seed).random
    written = 0
    while written < total:
        session = Session(draw)
        steps = 10 + int(draw() * (40 if kind == "large" else 400))
        for _ in range(steps):
            if kind == "large":
                session.large()
            else:
                session.small()
            for made in session.take():
                if written >= total:
                    return
                write(made)
                written += len(made)


KINDS = {
    "requests": requests, "stopped": stopped, "recording": recording,
    "client_mixed": side(1, True), "client_mixed_requests": side(0, True),
    "client_events": side(1, False), "client_events_requests": side(0, False),
    "transcript": transcript(Transcript), "transcript_framed": transcript(Transcript, framed),
    "transcript_small": transcript(ShortTranscript), "transcript_small_framed": transcript(ShortTranscript, framed),
    "stops": stops, "stops_recording": stops_recording, "stops_sources": stops_sources,
    "host_stops": host_stops(True), "host_stops_later": host_stops(False),
}


def main():
    words = argparse.ArgumentParser(description="Writes a stream of framed messages, a transcript or a recording to standard output.")
    words.add_argument("kind", choices=["large", "small", *KINDS], metavar="KIND",
                       help="large, small, %s" % ", ".join(KINDS))
    words.add_argument("size", type=int, metavar="SIZE",
                       help="the stream or transcript ends with the frame or the stop that reaches these bytes; of requests and "
                       "stopped: how many; of a recording: how many moments")
    words.add_argument("seed", type=int, metavar="SEED", help="a whole number")
    words = words.parse_args()
    if words.kind in KINDS:
        KINDS[words.kind](words.size, words.seed, sys.stdout.buffer.write)
    else:
        stream(words.kind, words.size, words.seed, sys.stdout.buffer.write)
    sys.stdout.buffer.flush()


if __name__ == "__main__":
    main()
