"""Frames, the lines of a transcript, and the relay: what scripts/transcripts and scripts/record share.

A transcript has a message a line: `> ` and a body of the client, or `< ` and one of the adapter. Where it could not be
written to its end, its last line is `! ` and the reason, which `dap check` refuses as `BadLine`.
"""
import json
import os
import re
import signal
import subprocess
import threading

CUT = b"! "


def one_line(body):
    """The body without the blanks between its tokens, where it has several lines."""
    if b"\n" not in body:
        return body
    return re.sub(rb'("(?:[^"\\]|\\.)*")|\s+', lambda token: token[1] or b"", body)


def line_of(is_client, body):
    return (b"> " if is_client else b"< ") + one_line(body) + b"\n"


def cut_line(reason):
    return CUT + b"this transcript is cut: " + reason.encode("utf-8", "replace") + b"\n"


class Frames:
    """The bodies of a stream of frames, which is fed in pieces."""

    def __init__(self, name):
        self.name = name
        self.rest = b""

    def feed(self, piece):
        """Each body that is whole by now. ValueError where a header is none; what follows it cannot be read."""
        self.rest += piece
        while (end := self.rest.find(b"\r\n\r\n")) >= 0:
            length = re.search(rb"^content-length:[ \t]*(\d+)[ \t]*\r$", self.rest[: end + 1], re.IGNORECASE | re.MULTILINE)
            if not length:
                raise ValueError(f"{self.name} has a header without Content-Length")
            start, stop = end + 4, end + 4 + int(length[1])
            if len(self.rest) < stop:
                return
            yield self.rest[start:stop]
            self.rest = self.rest[stop:]

    def why_cut(self):
        """What is wrong where the stream ends here, and `rest` is not empty."""
        return f"{self.name} ends within a message, after {len(self.rest)} bytes of it"


def keys_of(body):
    """The message's type, seq and request_seq; what is no message has none."""
    try:
        told = json.loads(body)
        return told.get("type"), told.get("seq"), told.get("request_seq")
    except (ValueError, AttributeError, RecursionError):
        return None, None, None


def merged(ups, downs):
    """The lines of both sides, the client's messages as late as they can stand: before the first response that one of
    them needs."""
    left = [(keys_of(up), up) for up in ups]
    waiting = []
    for body in downs:
        kind, _, answered = keys_of(body)
        if kind == "response" and answered not in waiting:
            # Up to the request, where there is one.
            count = next((k for k, ((kind, seq, _), _) in enumerate(left, 1) if (kind, seq) == ("request", answered)), 0)
            yield from (line_of(True, up) for _, up in left[:count])
            waiting += [seq for (kind, seq, _), _ in left[:count] if kind == "request"]
            del left[:count]
        if kind == "response" and answered in waiting:
            waiting.remove(answered)
        yield line_of(False, body)
    yield from (line_of(True, up) for _, up in left)


def hand_on(source, sink, is_client, out, cuts, lock):
    """Hands on what comes. A message is written down before its last bytes go on, so that no answer can come before it."""
    frames = Frames("the client's stream" if is_client else "the adapter's stream")
    is_read = True
    while piece := os.read(source, 65536):
        with lock:
            try:
                for body in frames.feed(piece) if is_read else []:
                    out.add(is_client, body)
            except ValueError as fault:
                is_read = False
                out.cut(str(fault))
        try:
            while piece:
                piece = piece[os.write(sink, piece) :]
        except BrokenPipeError:
            break
    else:
        if is_read and frames.rest:
            cuts.append(frames.why_cut())
    os.close(sink)


def relay(command, out):
    """Runs an adapter between this process's standard streams, and adds each message to `out` in the true order, by
    `out.add(is_client, body)`; where that can't go on, it calls `out.cut(reason)`. Gives the adapter's status; `out` gets
    nothing more after that.

    A signal that would end this process goes to the adapter, whose end is awaited. The client's side may wait for ever, so
    the process has to end by `os._exit`.
    """
    adapter = subprocess.Popen(command, stdin=subprocess.PIPE, stdout=subprocess.PIPE)
    for number in (signal.SIGTERM, signal.SIGINT, signal.SIGHUP):
        signal.signal(number, lambda number, _: adapter.send_signal(number))
    lock = threading.Lock()
    cuts = []
    to_adapter = (0, os.dup(adapter.stdin.fileno()), True, out, cuts, lock)
    adapter.stdin.close()
    threading.Thread(target=hand_on, args=to_adapter, daemon=True).start()
    hand_on(adapter.stdout.fileno(), os.dup(1), False, out, cuts, lock)
    adapter.stdout.close()
    status = adapter.wait()
    # It is never given back: what the client still writes goes nowhere.
    lock.acquire()
    for reason in cuts:
        out.cut(reason)
    return status if status >= 0 else 128 - status
