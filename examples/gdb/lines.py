"""The lines of `dap host`, as docs/HOST.md has them: a line in, its whole answer out.

It knows nothing of gdb, nor what becomes of an answer.
"""
import json
import os
import shutil
import subprocess
import tempfile

from texts import pieces_of

MOST_OUTPUT = 128  # bytes of a piece of output, as `dap host` has it
MOST_AT_ONCE = 16384  # bytes of lines that are written before their answers are read, so that neither pipe is ever full
HERE = os.path.dirname(os.path.abspath(__file__))
# of the sources, or where `make install` put both; the folder of an installed program may be another one, on the PATH
PLACES = [os.path.join(HERE, *up, "bin", "dap") for up in (("..", ".."), ("..", "..", ".."))]
DAP = os.environ.get("DAP") or next(filter(os.path.exists, PLACES), None) or shutil.which("dap") or PLACES[0]


class Ended(Exception):
    """`dap host` has ended, with this status."""


class Lines:
    def __init__(self, sources, offers, opened):
        self.count = 0  # of the lines that were written
        with tempfile.NamedTemporaryFile("w", suffix=".json") as file:
            json.dump({"sources": sources, "offers": offers, "open": opened}, file)
            file.flush()
            self.dap = subprocess.Popen([DAP, "host", file.name], stdin=subprocess.PIPE, stdout=subprocess.PIPE)
            self.answers([])

    def close(self):
        self.dap.stdin.close()
        self.dap.wait()

    def answers(self, lines):
        """What `dap host` says to these lines: of each line its bytes, and what they say if it is no message.

        An empty object is always refused, so that is where the answer ends."""
        self.count += len(lines) + 1
        found = []
        try:
            self.dap.stdin.write(b"".join(line + b"\n" for line in [*lines, b"! {}"]))
            self.dap.stdin.flush()
            while True:
                answer = self.dap.stdout.readline()
                told = {} if answer.startswith(b"< ") else json.loads(answer[2:])
                if told.get("refused") == self.count:
                    return found
                found.append((answer, told))
        except (OSError, ValueError):
            raise Ended(self.dap.wait()) from None


def line_of(**members):
    """A line that says these to `dap host`."""
    return b"! " + json.dumps(members).encode()


def said(happened, **more):
    """The line that says what the debugger did."""
    return line_of(happened=happened, **more)


def event_line(event, **body):
    """The line that tells the client an event by its name."""
    return line_of(event=event, body=body)


def answer_line(seq, body=None):
    """The line that answers a request of the client by success; without a body it has none."""
    return line_of(answer=seq, **({} if body is None else {"body": body}))


def failure_line(seq, name, number, words, shown):
    """The line that answers a request of the client by a failure with these words. Those of a debugger may have any character: a
    client puts them in their place."""
    text = {"format": "{why}", "variables": {"why": words}} if name == "debuggee" else {"format": words}
    error = {"id": number, **text, **({"showUser": True} if shown else {})}
    return line_of(answer=seq, message=name, body={"error": error})


def output_lines(category, text):
    """The lines that say an output, in groups that may be written at once."""
    group, size = [], 0
    for piece in pieces_of(text, MOST_OUTPUT):
        line = said("output", category=category, output=piece)
        if size + len(line) > MOST_AT_ONCE:
            yield group
            group, size = [], 0
        group.append(line)
        size += len(line)
    if group:
        yield group
