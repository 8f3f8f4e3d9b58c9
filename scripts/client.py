"""A client over the pipes of a program: it asks one thing after the other, and keeps what was said as a transcript."""
import json
import subprocess
import threading


class Client:
    def __init__(self, words, seconds=60, **more):
        self.child = subprocess.Popen(words, stdin=subprocess.PIPE, stdout=subprocess.PIPE, **more)
        self.watch = threading.Timer(seconds, self.child.kill)
        self.watch.daemon = True
        self.watch.start()
        self.seq, self.transcript = 0, []
        # The events that came and were not asked for yet.
        self.events = []

    def write(self, stream):
        self.child.stdin.write(stream)
        self.child.stdin.flush()

    def next(self):
        """The next message; none where the stream has ended."""
        length = 0
        while (line := self.child.stdout.readline()) not in (b"\r\n", b""):
            length = int(line.partition(b":")[2])
        if not line:
            return None
        body = self.child.stdout.read(length)
        self.transcript.append(b"< " + body + b"\n")
        return json.loads(body)

    def send(self, command, **arguments):
        """The number of the request."""
        self.seq += 1
        body = json.dumps({"seq": self.seq, "type": "request", "command": command, "arguments": arguments}).encode()
        self.transcript.append(b"> " + body + b"\n")
        self.write(b"Content-Length: %d\r\n\r\n%b" % (len(body), body))
        return self.seq

    def answer_to(self, seq, whole=False):
        """The body of a success, or why it fails, or the whole response; none where the stream has ended."""
        while message := self.next():
            if message["type"] == "event":
                self.events.append(message)
            elif message["request_seq"] == seq:
                return message if whole else message.get("body", {}) if message["success"] else message["message"]

    def ask(self, command, **arguments):
        return self.answer_to(self.send(command, **arguments))

    def events_to(self, *names):
        """The events up to the next one of these names; up to the end of the stream where none comes."""
        found = []
        while event := self.events.pop(0) if self.events else self.next():
            found += [event] if event["type"] == "event" else []
            if event.get("event") in names:
                break
        return found

    def leave(self):
        """What is left of the stream, and the program's status."""
        self.child.stdin.close()
        rest, status = self.child.stdout.read(), self.child.wait(60)
        self.watch.cancel()
        return rest, status
