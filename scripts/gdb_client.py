"""A client of the adapter of examples/gdb, and what the scripts that try it share. It knows no program that is debugged."""
import json
import os
import shutil
import subprocess
import time
import uuid

import client
from trial import DAP, HERE, expect, fine, run

EXAMPLE = os.path.join(HERE, "examples", "gdb")
ADAPTER = os.path.join(EXAMPLE, "dap-gdb")
SOURCE = os.path.join(EXAMPLE, "sample.c")
# Every process that is started with this has the mark, and those that it starts.
MARK = "TRIED_BY=" + uuid.uuid4().hex
ENVIRONMENT = {**os.environ, "DAP": DAP, **dict([MARK.split("=")])}


def line_of(text, source=SOURCE):
    """The line of a source that has the text."""
    with open(source) as file:
        return next(n for n, line in enumerate(file, 1) if text in line)


def made(folder, name, *words, compiler="gcc"):
    """The path of a program that the compiler makes of these words."""
    path = os.path.join(folder, name)
    subprocess.run([compiler, "-g", "-O0", "-o", path, *words], check=True)
    return path


def is_able(program, command, text):
    """Whether gdb alone prints the text."""
    words = ["gdb", "-q", "-nx", "-batch", "-ex", "break main", "-ex", "run", "-ex", command, program]
    return text in subprocess.run(words, capture_output=True).stdout


def why_skipped(program):
    """Why nothing can be tried here, if so."""
    if run(["host", "--help"])[0]:
        return "this program has no command `host`"
    return "" if is_able(program, "continue", b"exited with code 03") else "gdb may run no program here"


def missing_tool(*tools):
    return next((tool for tool in tools if not shutil.which(tool)), None)


def is_left(pid):
    """Whether a process has the mark, and has not ended."""
    try:
        with open("/proc/%s/environ" % pid, "rb") as file:
            return MARK.encode() in file.read().split(b"\0")
    except OSError:
        return False


def left_behind(seconds=5):
    """The names of the processes with the mark that are still there after so long."""
    for _ in range(seconds * 50):
        left = [pid for pid in os.listdir("/proc") if pid.isdigit() and is_left(pid)]
        if not left:
            return []
        time.sleep(0.02)
    return sorted(os.path.basename(os.readlink("/proc/%s/exe" % pid)) for pid in left)


def judge_adapter(path):
    """Whether no line of the adapter's in a transcript breaks a rule, where the client's do."""
    _, output, _ = run(["check", path, "--bodies", "--all"])
    with open(path, "rb") as file:
        lines = file.readlines()
    found = [int(line.split()[1]) for line in output.splitlines() if line.startswith(b"line ")]
    expect("findings of the transcript of %d lines" % len(lines), [lines[place - 1] for place in found if lines[place - 1][:1] == b"<"], [])
    expect("it was judged", bool(found), True)


def judge(path, unoffered=None):
    """Whether a transcript is legal, or breaks a rule by the one request of a command that was not offered."""
    with open(path, "rb") as file:
        lines = file.readlines()
    wanted = fine(b"legal\n")
    if unoffered:
        place = next(place for place, line in enumerate(lines, 1) if json.loads(line[2:]).get("command") == unoffered)
        wanted = 3, b"line %d rule 5\n1 finding\n" % place, b""
    expect("the transcript of %d lines" % len(lines), run(["check", path, "--bodies", "--all"]), wanted)


class Client(client.Client):
    """A client of the adapter, whose transcript is written to a file."""

    def __init__(self, folder, name, *words, seconds=120, says=(), unoffered=None, lawful=True, **more):
        self.path, self.says, self.unoffered, self.lawful = os.path.join(folder, name), dict(says), unoffered, lawful
        super().__init__([ADAPTER, *words], seconds, **{"env": ENVIRONMENT, **more})

    def event(self, *names):
        """The next event of one of these names, and what the program wrote before it."""
        found = self.events_to(*names)
        output = "".join(one["body"]["output"] for one in found if one["event"] == "output")
        return found[-1]["event"], found[-1].get("body", {}), output

    def output_to(self, name):
        """What was written until the event of this name, by category; and its body."""
        *before, last = self.events_to(name)
        told = {}
        for one in (one["body"] for one in before if one["event"] == "output"):
            told[one["category"]] = told.get(one["category"], "") + one["output"]
        return told, last.get("body", {})

    def begin(self, lines, source=SOURCE, request="launch", **arguments):
        """Asks for the program with these breakpoints, and gives the number of the request."""
        self.ask("initialize", adapterID="gdb", **self.says)
        self.event("initialized")
        asked = self.send(request, **arguments)
        self.verified = self.set_breakpoints(lines, source)
        self.ask("configurationDone")
        return asked

    def start(self, lines, source=SOURCE, request="launch", **arguments):
        """Starts the program with these breakpoints, and gives which are verified."""
        self.answer_to(self.begin(lines, source, request, **arguments))
        return self.verified

    def breakpoints(self, lines, source=SOURCE):
        """Sets breakpoints, and gives the line of each, if it is verified."""
        answer = self.ask("setBreakpoints", source={"path": source}, breakpoints=[line if isinstance(line, dict) else {"line": line} for line in lines])
        return [one["verified"] and one["line"] for one in answer["breakpoints"]]

    def set_breakpoints(self, lines, source=SOURCE):
        return [line is not False for line in self.breakpoints(lines, source)]

    def resume(self, command):
        self.ask(command, threadId=1)
        return self.stop()

    def stop(self):
        """Where it stops: why, the name of the function, the line, and what was written before."""
        _, body, output = self.event("stopped")
        self.look()
        return body["reason"], self.frames[0]["name"], self.frames[0]["line"], output

    def look(self):
        self.frames = self.ask("stackTrace", threadId=1)["stackFrames"]

    def scopes(self, level):
        """The scopes of a frame, each with the reference of its variables."""
        scopes = self.ask("scopes", frameId=self.frames[level]["id"])["scopes"]
        return {one["name"]: one["variablesReference"] for one in scopes}

    def variables(self, reference):
        """The variables of a reference, each with its value and its own reference."""
        variables = self.ask("variables", variablesReference=reference)["variables"]
        return {one["name"]: (one["value"], one["variablesReference"]) for one in variables}

    def values(self, reference):
        return {name: value for name, (value, _) in self.variables(reference).items()}

    def under(self, *names, level=0, scope="Locals"):
        """The variables that a way of names leads to, from a scope on."""
        found = self.variables(self.scopes(level)[scope])
        for name in names:
            found = self.variables(found[name][1])
        return found

    def evaluate(self, text, level, **more):
        """The value of a text in a frame, or why there is none."""
        answer = self.ask("evaluate", expression=text, frameId=self.frames[level]["id"], **more)
        return answer if isinstance(answer, str) else answer["result"]

    def why(self, text, level, **more):
        """Why a text has no value in a frame, in gdb's words."""
        asked = self.send("evaluate", expression=text, frameId=self.frames[level]["id"], **more)
        return self.answer_to(asked, whole=True)["body"]["error"]["variables"]["why"]

    def set_variable(self, reference, name, value):
        return self.ask("setVariable", variablesReference=reference, name=name, value=value)["value"]

    def frame_of(self, name):
        return next(level for level, frame in enumerate(self.frames) if frame["name"] == name)

    def leave(self):
        self.ask("disconnect")
        expect("nothing is left, and the status", super().leave(), (b"", 0))
        self.keep()

    def keep(self):
        """Writes the transcript, and judges it."""
        with open(self.path, "wb") as file:
            file.write(b"".join(self.transcript))
        if self.lawful:
            judge(self.path, self.unoffered)
        else:
            judge_adapter(self.path)
