"""A client in Python that debugs `dap serve`, and prints what it hears: what examples/c/client.c does.

    YARNTAUPE=PATH/TO/libyarntaupe.so python3 session.py PATH/TO/dap RECORDING.json
"""
import os
import subprocess
import sys

import yarntaupe


class Session:
    def __init__(self, program, recording):
        self.adapter = subprocess.Popen([program, "serve", recording], stdin=subprocess.PIPE, stdout=subprocess.PIPE)
        self.client = yarntaupe.Client(self.write)
        self.bodies = iter(())

    def write(self, data):
        self.adapter.stdin.write(data)
        self.adapter.stdin.flush()

    def ask(self, command, arguments=None):
        """The number of the request, or None where the library refuses it: then no byte goes out."""
        try:
            return self.client.send(command, arguments)
        except yarntaupe.Refused as refused:
            print(f"{command} is refused: code {refused.code}")

    def next_body(self):
        for body in self.bodies:
            return body
        piece = os.read(self.adapter.stdout.fileno(), 4096)
        if not piece:
            sys.exit("session.py: the stream has ended")
        self.bodies = self.client.take(piece)
        return None

    def hear(self, seq, event=None):
        """Shows what comes, until the response to the request has come, and the event too, where one is named."""
        while seq is not None or event is not None:
            body = self.next_body()
            if body is None:
                continue
            heading, name = yarntaupe.heading(body)
            failed = " (failed)" if heading.kind == 2 and not heading.success else ""
            print(f"{heading.seq:2} {yarntaupe.KINDS[heading.kind]} {name}{failed}: {yarntaupe.PHASES[self.client.seen().phase]}")
            if heading.kind == 2 and heading.request_seq == seq:
                if name == "stackTrace":
                    print(f"   {body.decode()}")
                seq = None
            if heading.kind == 3 and name == event:
                event = None

    def close(self):
        self.client.close()
        try:
            self.client.seen()
        except yarntaupe.Refused as refused:
            print(f"after free: code {refused.code}")
        self.adapter.stdin.close()
        return self.adapter.wait()


def main(program, recording):
    session = Session(program, recording)
    session.ask("threads")  # too early: the library refuses it
    session.hear(session.ask("initialize", {"adapterID": "example"}), "initialized")
    launch = session.ask("launch", {})
    session.hear(session.ask("configurationDone"))
    session.hear(launch, "stopped")
    session.hear(session.ask("threads"))
    session.hear(session.ask("stackTrace", {"threadId": 1}))
    session.hear(session.ask("next", {"threadId": 1}), "stopped")
    session.hear(session.ask("disconnect"))
    return session.close()


if __name__ == "__main__":
    if len(sys.argv) != 3:
        sys.exit(__doc__)
    sys.exit(main(*sys.argv[1:]))
