#!/usr/bin/env python3
"""A model of `dap drive`: a client and an adapter over a recorded run, and the transcript that a script makes of them.

It is written from the tables of docs/PROFILE.md, on Python's own JSON, and shares nothing with the crates. The adapter is
the one of session_model.py; what it does not have stands here: requests that wait, `turn` and `poll`, `cancel`, `busy`.

    scripts/drive_model.py drive RECORDING SCRIPT [--max-body N] ..  (in the program's place, to try what tries the program)
"""
import argparse
import json
import sys

from commands import COMMANDS, GATES, GONE, RESUMING, TERMINAL, USED, failure
from session_model import GREATEST, Failed, Session, bad_key, name_of, written
from slow_check import MAX_FILE, Message, Refused, given, lines_of, read_json

AFTER_START = {"Configuring", "Running", "Stopped", "Resuming"}


class Fault(Exception):
    """What ends a run, as the program prints it after `dap: `."""


def is_plain(value, depth=100):
    """Whether arguments of a launch can be written: no floats, and not nested too deep."""
    if isinstance(value, (dict, list)):
        inner = value.values() if isinstance(value, dict) else value
        return depth > 0 and all(is_plain(one, depth - 1) for one in inner)
    return not isinstance(value, float)


def call_of(command, arguments):
    """The arguments as they are written: without what is not known, and without keys that have their default value."""
    if command in ("launch", "attach"):
        return arguments
    # Where no key is known, arguments may be anything.
    told = arguments if isinstance(arguments, dict) else {}
    told = {key: value for key, value in told.items() if value is not None}
    if command == "initialize":
        flags = {key: False for key in ("columnsStartAt1", "linesStartAt1") if told.get(key) is False}
        on = {key: True for key in ("supportsRunInTerminalRequest", "supportsVariablePaging") if told.get(key)}
        return {"adapterID": told.get("adapterID", ""), **flags, **on}
    if command == "setBreakpoints":
        kind, name = name_of(told["source"])
        lines = [one["line"] for one in told["breakpoints"]] if "breakpoints" in told else told.get("lines", [])
        source = {"path" if kind == "path" else "sourceReference": name}
        return {"breakpoints": [{"line": line} for line in lines], "source": source}
    if command == "source":
        inner = (told.get("source") or {}).get("sourceReference")
        return {"sourceReference": inner or told.get("sourceReference", 0)}
    known = [key.name for key in COMMANDS[command].keys if told.get(key.name) or key.name in told and not key.has_default]
    return {key: told[key] for key in known} or None


class Client:
    def __init__(self, max_body, max_requests, max_references, max_seq):
        self.max_body = max_body
        self.max_requests = max_requests
        self.max_references = max_references
        self.max_seq = max_seq
        self.phase = "Fresh"
        self.ready = False
        self.flags = {}
        self.known = set()
        self.seq = 0
        # The command of each request that waits, and the one request that left a stop.
        self.waiting = {}
        self.resuming = None
        # The numbers of the adapter's requests for a terminal that are kept.
        self.incoming = []

    def refusal(self, command, arguments):
        """Why a request may not be sent; not the limits."""
        sent = COMMANDS[command].sent
        late = sent == {"Stopped"} and self.phase in ("Running", "Resuming")
        if self.phase == "Ended":
            return "Ended"
        if self.phase not in sent and not late:
            return "WrongPhase"
        if COMMANDS[command].needs_ready and not self.ready:
            return "WrongPhase"
        if command in GATES and self.flags.get(GATES[command]) is not True:
            return "NotSupported"
        if late:
            return "NotStopped"
        if command in USED:
            key, kind = USED[command]
            if key in (arguments or {}) and (kind, arguments[key]) not in self.known:
                return "UnknownReference"
        return None

    def send(self, command, arguments):
        arguments = call_of(command, arguments)
        request = {"seq": self.seq + 1, "type": "request", "command": command}
        request = request if arguments is None else {**request, "arguments": arguments}
        refused = self.refusal(command, arguments)
        if refused is None and len(written(request)) > self.max_body:
            refused = "TooLarge"
        if refused is None and len(self.waiting) >= self.max_requests:
            refused = "Full"
        if refused is None and self.seq >= self.max_seq:
            refused = "SeqExhausted"
        if refused is not None:
            raise Fault(refused)
        self.seq += 1
        self.waiting[self.seq] = command
        if command == "initialize":
            self.phase = "Initializing"
        elif command == "disconnect":
            self.go("Ended")
        elif command in (*RESUMING, "terminate", "restart") and self.phase == "Stopped":
            self.phase = "Resuming"
            self.resuming = self.seq
        return request

    def go(self, phase):
        """References are lost on the way."""
        self.phase = phase
        self.known = set()

    def answer(self, is_there):
        """The response to the oldest request that is kept."""
        if not self.incoming:
            raise Fault("Call")
        if self.seq >= self.max_seq:
            raise Fault("Client")
        self.seq += 1
        told = {"type": "response", "seq": self.seq, "request_seq": self.incoming.pop(0), "command": TERMINAL}
        return {**told, **({"success": True, "body": {}} if is_there else failure("terminalRefused"))}

    def take(self, message):
        if message["type"] == "event":
            self.take_event(message["event"])
        elif message["type"] == "request":
            # The adapter asks for a terminal alone, where it was announced, and for one at a time.
            self.incoming.append(message["seq"])
        else:
            self.take_response(message)

    def take_event(self, event):
        if event == "initialized":
            self.ready = True
        elif event == "stopped" and self.phase in ("Configuring", "Running"):
            self.phase = "Stopped"
        elif event == "stopped" and self.phase == "Resuming":
            self.go("Stopped")
        elif event == "continued" and self.phase in ("Stopped", "Resuming"):
            self.go("Running")
        elif event in GONE and self.phase in AFTER_START:
            self.go("Exited")

    def take_response(self, message):
        command = self.waiting.pop(message["request_seq"])
        if command == "initialize":
            self.phase = "Configuring" if message["success"] else "Fresh"
            self.flags = message.get("body", {})
        elif command in ("launch", "attach") and message["success"] and self.phase == "Configuring":
            self.phase = "Running"
        elif self.phase == "Resuming" and message["request_seq"] == self.resuming:
            if message["success"]:
                self.go("Running")
            else:
                self.phase = "Stopped"
        if self.phase in ("Stopped", "Resuming"):
            self.known |= set(given(Message(0, "<", **{k: v for k, v in message.items() if k != "message"})))
            if len(self.known) > self.max_references:
                raise Fault("Client")


class Adapter(Session):
    """Its calls give the bodies that they write."""

    def __init__(self, recording, max_requests=64, max_seq=GREATEST, **limits):
        super().__init__(recording, **limits)
        self.max_requests = max_requests
        self.max_seq = max_seq
        self.kept = []
        self.bodies_out = []

    def write(self, message):
        self.bodies_out.append(self.text(message))
        self.seq += 1

    def handed_out(self):
        if self.seq > self.max_seq:
            raise Fault("Adapter")
        out, self.bodies_out = self.bodies_out, []
        return out

    def take(self, request):
        if request["command"] == "cancel":
            self.cancel(request)
        elif len(self.kept) >= self.max_requests:
            self.fail(request, "busy")
        else:
            self.kept.append(request)
        return self.handed_out()

    def cancel(self, request):
        """A request that is named, kept and not parked fails; with good arguments the `cancel` itself succeeds in any case."""
        arguments = request.get("arguments")
        try:
            self.test("cancel", arguments)
        except Failed as failure:
            self.fail(request, failure.name, failure.key)
            return
        named = (arguments or {}).get("requestId")
        for one in self.kept:
            if one["seq"] == named and one is not self.parked:
                self.fail(one, "cancelled")
                self.kept.remove(one)
                break
        self.respond(request)

    def answer(self, response):
        """What comes of a response. A launch that it ends is kept no longer."""
        launch = self.parked
        self.take_response(response)
        self.kept = [one for one in self.kept if one is not launch]
        return self.handed_out()

    def turn(self):
        """None where no request can be handled."""
        request = next((one for one in self.kept if one is not self.parked), None)
        if request is None:
            return None
        if request["command"] == "disconnect":
            for one in self.kept:
                if one is not request:
                    self.fail(one, "cancelled")
            self.kept, self.parked = [request], None
        parked, told = self.parked, len(self.references.live)
        try:
            self.test(request["command"], request.get("arguments"))
            self.serve(request, request["command"], request.get("arguments"))
        except Failed as failure:
            del self.references.live[told:]
            self.fail(request, failure.name, failure.key)
        # A launch is kept until it is answered.
        answered = [request] * (request is not self.parked) + [parked] * (parked is not None and parked is not self.parked)
        self.kept = [one for one in self.kept if not any(one is gone for gone in answered)]
        return self.handed_out()

    def poll(self):
        if self.phase == "Running":
            self.poll_once()
        return self.handed_out()

    def run(self):
        """What is handed out until no request can be handled, and then by polls."""
        while (bodies := self.turn()) is not None:
            yield bodies
        for _ in range(65536):
            bodies = self.poll()
            yield bodies
            if not bodies or self.phase == "Stopped":
                return

    def polls(self):
        """Requests are handled one at a time here, and polls are asked for."""


USUAL = {"max_body": 4194304, "max_requests": 64, "max_references": 65536, "max_seq": GREATEST}


class Drive:
    """Each message is a line of the transcript when it is written, and is delivered at once."""

    def __init__(self, recording, max_breakpoints=4096, max_reference=2147483647, **limits):
        limits = {**USUAL, **limits}
        self.client = Client(**limits)
        self.adapter = Adapter(recording, max_breakpoints=max_breakpoints, max_reference=max_reference, **limits)
        self.transcript = b""

    def delivered(self, bodies):
        for body in bodies:
            self.transcript += b"< " + body + b"\n"
            self.client.take(json.loads(body))

    def send(self, command, arguments=None):
        request = self.client.send(command, arguments)
        self.transcript += b"> " + written(request) + b"\n"
        self.delivered(self.adapter.take(request))

    def answer(self, is_there):
        response = self.client.answer(is_there)
        self.transcript += b"> " + written(response) + b"\n"
        self.delivered(self.adapter.answer(response))

    def turn(self):
        self.delivered(self.adapter.turn() or [])

    def poll(self):
        self.delivered(self.adapter.poll())

    def run(self):
        for bodies in self.adapter.run():
            self.delivered(bodies)


def script_line(drive, line):
    """What one line of a script asks for. Words are separated by one blank each."""
    if line in (b"turn", b"poll", b"run"):
        return getattr(drive, line.decode())()
    if line in (b"terminal ok", b"terminal no"):
        return drive.answer(line == b"terminal ok")
    word, _, rest = line.partition(b" ")
    command, blank, text = rest.partition(b" ")
    command = command.decode(errors="replace")
    if word != b"send" or command not in COMMANDS:
        raise Fault("Script")
    try:
        arguments = read_json(text) if blank else None
    except Refused:
        raise Fault("Script") from None
    if bad_key(command, arguments) or command in ("launch", "attach") and not is_plain(arguments):
        raise Fault("Call")
    return drive.send(command, arguments)


def drive_of(recording, script, **limits):
    """What `dap drive` prints: the status, the transcript, and the fault's line."""
    drive = Drive(recording, **limits)
    for number, line in lines_of(script):
        try:
            script_line(drive, line)
        except Fault as fault:
            at = "" if str(fault) in ("Adapter", "Client") else f" at line {number}"
            return 3, b"", f"dap: {fault}{at}\n".encode()
    return 0, drive.transcript, b""


def main():
    words = argparse.ArgumentParser(description="Drives a client and an adapter by a script, as the model has it.")
    drive = words.add_subparsers(required=True).add_parser("drive")
    drive.add_argument("recording")
    drive.add_argument("script")
    for name in ("body", "requests", "references", "breakpoints", "seq", "reference"):
        drive.add_argument(f"--max-{name}", type=int, default=argparse.SUPPRESS)
    limits = vars(words.parse_args())
    with open(limits.pop("recording"), encoding="utf-8") as file:
        recording = json.loads(file.read(MAX_FILE))
    with open(limits.pop("script"), "rb") as file:
        status, out, err = drive_of(recording, file.read(MAX_FILE), **limits)
    sys.stdout.buffer.write(out)
    sys.stderr.buffer.write(err)
    return status


if __name__ == "__main__":
    sys.exit(main())
