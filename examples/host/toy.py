#!/usr/bin/env python3
"""A debugger of a toy language, made an adapter of the Debug Adapter Protocol by `dap host`.

    toy.py PROGRAM [DAP]    speaks the protocol over its standard input and output

A program has a statement a line: `NAME = NUMBER`, `NAME = NAME + NUMBER` or `print NAME`. All of the protocol is in `dap host`:
docs/HOST.md has the lines that go between the two.
"""
import json
import os
import subprocess
import sys
import tempfile
import threading

HERE = os.path.dirname(os.path.abspath(__file__))


class Toy:
    """The debugger: where the program is, and what its variables are. It knows nothing of the protocol."""

    def __init__(self, path):
        self.path = path
        with open(path) as file:
            self.lines = file.read().splitlines()
        self.at, self.variables, self.printed, self.past, self.stops = 0, {}, [], [], set()

    def step(self):
        self.past.append((self.at, dict(self.variables)))
        words = self.lines[self.at].split()
        if words[0] == "print":
            self.printed.append("%d\n" % self.sum_of(words[1]))
        elif words:
            self.variables[words[0]] = self.sum_of(" ".join(words[2:]))
        self.at += 1

    def back(self):
        if self.past:
            self.at, self.variables = self.past.pop()

    def resume(self, how):
        """Goes on by one statement or more: why it stops."""
        move = self.back if how in ("stepBack", "reverseContinue") else self.step
        move()
        if how not in ("continue", "reverseContinue"):
            return "step"
        while self.at < len(self.lines) and self.past and self.at + 1 not in self.stops:
            move()
        return "breakpoint"

    def sum_of(self, text):
        return sum(self.variables[word] if word in self.variables else int(word) for word in text.replace("+", " ").split())

    def moment(self):
        variables = [{"name": name, "value": str(value)} for name, value in self.variables.items()]
        frame = {"name": "main", "source": 0, "line": self.at + 1, "scopes": [{"name": "Variables", "variables": variables}]}
        return {"threads": [{"id": 1, "name": "main", "frames": [frame]}], "thread": 1}


class Host:
    def __init__(self, toy, dap):
        self.toy, self.lock = toy, threading.Lock()
        text = "".join(line + "\n" for line in toy.lines)
        with tempfile.NamedTemporaryFile("w", suffix=".json", delete=False) as file:
            json.dump({"sources": [{"name": os.path.basename(toy.path), "path": toy.path, "text": text}]}, file)
        self.sources = file.name
        self.dap = subprocess.Popen([dap, "host", self.sources], stdin=subprocess.PIPE, stdout=subprocess.PIPE)

    def line(self, text):
        self.dap.stdin.write(text)
        self.dap.stdin.flush()

    def say(self, happened, **more):
        self.line(b"! " + json.dumps({"happened": happened, **more}).encode() + b"\n")

    def stopped(self, reason):
        for text in self.toy.printed:
            self.say("output", category="stdout", output=text)
        self.toy.printed = []
        if self.toy.at >= len(self.toy.lines):
            self.say("exited", code=0)
        else:
            self.say("stopped", reason=reason, thread=1, moment=self.toy.moment())

    def do(self, act):
        if act["act"] == "start":
            self.stopped("entry")
        elif act["act"] == "resume":
            self.stopped(self.toy.resume(act["how"]))
        elif act["act"] == "setBreakpoints":
            self.toy.stops = set(act["lines"])
        elif act["act"] == "setVariable":
            self.toy.variables[act["name"]] = int(act["value"])

    def learn(self, message):
        """What the message asks to be worked out, before it is answered."""
        key = {"evaluate": "expression", "setVariable": "value"}.get(message["command"])
        if key:
            text = message["arguments"][key]
            try:
                self.say("learned", text=text, value=str(self.toy.sum_of(text)))
            except ValueError:
                self.say("learned", text=text, why="It has a word that is neither a variable nor a number.")

    def hear_client(self):
        """Hands on what the client asks."""
        came = sys.stdin.buffer
        while True:
            length = 0
            for field in iter(came.readline, b"\r\n"):
                if not field:
                    return
                if field.lower().startswith(b"content-length:"):
                    length = int(field[15:])
            body = came.read(length)
            with self.lock:
                try:
                    self.learn(json.loads(body))
                except (ValueError, KeyError, TypeError, AttributeError):
                    pass  # `dap host` answers what is wrong with it
                self.line(b"> " + b" ".join(body.splitlines()) + b"\n")

    def hear_dap(self):
        """Hands on what the client is answered, and does the acts."""
        for text in self.dap.stdout:
            if text.startswith(b"< "):
                body = text[2:-1]
                sys.stdout.buffer.write(b"Content-Length: %d\r\n\r\n%s" % (len(body), body))
                sys.stdout.buffer.flush()
            elif text.startswith(b'! {"act"'):
                with self.lock:
                    self.do(json.loads(text[2:]))
            else:
                print(text.decode().strip(), file=sys.stderr)


def main():
    toy = Toy(os.path.abspath(sys.argv[1]))
    host = Host(toy, sys.argv[2] if len(sys.argv) > 2 else os.path.join(HERE, "..", "..", "bin", "dap"))
    answers = threading.Thread(target=host.hear_dap)
    answers.start()
    host.hear_client()
    with host.lock:
        host.dap.stdin.close()
    answers.join()
    os.unlink(host.sources)


main()
