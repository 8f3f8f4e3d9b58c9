"""Yarntaupe for Python, by ctypes: frames, headings, the checker and the client's end.

It needs `libyarntaupe.so`, and nothing else: the one that the environment's `YARNTAUPE` names, else the one beside this file, else
the one that `make install` put somewhere with this file. The library answers codes: here they become the exception `Refused`, but
for those that say how far a call has come.
"""
import ctypes as c
import json
import os

HERE = os.path.dirname(os.path.abspath(__file__))
OK, READY, FINDING, FRAME, SMALL, NOTHING = 0, 1, 2, 31, 105, 106
PHASES = ("fresh", "initializing", "configuring", "running", "stopped", "resuming", "exited", "ended")
KINDS = ("none", "request", "response", "event", "other")

INSTALLED = "libyarntaupe.so.0"  # `make install` writes its whole path
BESIDE = os.path.join(HERE, "libyarntaupe.so")
library = c.CDLL(os.environ.get("YARNTAUPE") or (BESIDE if os.path.exists(BESIDE) else INSTALLED))


def struct(title, /, **fields):
    return type(title, (c.Structure,), {"_fields_": list(fields.items())})


Limits = struct("Limits", **dict.fromkeys(("header", "body", "requests", "references", "breakpoints", "seq", "reference"), c.c_uint64))
Handle = struct("Handle", at=c.c_void_p, full=c.c_bool)
Found = struct("Found", used=c.c_size_t, bytes=c.c_size_t, frame=c.c_size_t, at=c.c_uint64, cause=c.c_uint32)
Fed = struct("Fed", used=c.c_size_t, body=c.c_size_t, offset=c.c_uint64, cause=c.c_uint32)
Heading = struct("Heading", seq=c.c_uint64, request_seq=c.c_uint64, name=c.c_size_t, kind=c.c_uint32, success=c.c_bool)
Verdict = struct("Verdict", line=c.c_uint64, rule=c.c_uint32)
Sent = struct("Sent", seq=c.c_uint64, bytes=c.c_size_t)
Seen = struct("Seen", outstanding=c.c_size_t, incoming=c.c_size_t, oldest_incoming=c.c_uint64, references=c.c_size_t,
              held=c.c_size_t, phase=c.c_uint32, ready=c.c_bool)


class Refused(Exception):
    """A call was refused, with the code of `yarntaupe.h`."""

    def __init__(self, call, code, at=0, cause=0):
        super().__init__(f"{call}: code {code}")
        self.code, self.at, self.cause = code, at, cause


def call(name, *arguments):
    """Calls an export: bytes go as a pointer and a length, structs by reference, and numbers as they are given."""
    passed = []
    for a in arguments:
        if isinstance(a, (bytes, c.Array)):
            passed += [a, c.c_size_t(len(a))]
        elif isinstance(a, c.Structure):
            passed.append(c.byref(a))
        else:
            passed.append(a)
    export = getattr(library, name)
    export.restype = c.c_uint32
    return export(*passed)


def check_code(name, code, *allowed):
    if code not in (OK, *allowed):
        raise Refused(name, code)
    return code


def fetched(name, size, *before):
    """The bytes of that length that an export puts into a buffer."""
    out = (c.c_uint8 * size)()
    check_code(name, call(name, *before, out))
    return bytes(out)


def usual_limits():
    limits = Limits()
    library.yt_limits_usual(c.byref(limits))
    return limits


def heading(body):
    """What a message says of itself: `(heading, name)`, or None where it is no message."""
    found, name = Heading(), (c.c_uint8 * 64)()
    code = call("yt_heading", body, found, name)
    if code == SMALL:
        name = (c.c_uint8 * found.name)()
        code = call("yt_heading", body, found, name)
    return None if code == NOTHING else (found, bytes(name[: found.name]).decode())


def check(text, any_seq=0):
    """None where a transcript keeps the rules, else `(line, rule, sentence)` of the first finding."""
    verdict, size = Verdict(), c.c_size_t()
    code = call("yt_check", text, c.c_uint32(any_seq), verdict)
    if code == OK:
        return None
    if code != FINDING:
        raise Refused("yt_check", code, verdict.line)
    finding = (text, c.c_uint64(verdict.line), c.c_uint32(verdict.rule))
    # the first call tells how long the sentence is
    check_code("yt_explain", call("yt_explain", *finding, (c.c_uint8 * 1)(), c.byref(size)), SMALL)
    out = (c.c_uint8 * size.value)()
    check_code("yt_explain", call("yt_explain", *finding, out, c.byref(size)))
    return verdict.line, verdict.rule, bytes(out).decode()


class Frames:
    """The bodies of a stream that comes in pieces."""

    def __init__(self, limits=None):
        self.handle, self.fed = Handle(), Fed()
        check_code("yt_frames_open", call("yt_frames_open", self.handle, limits or usual_limits()))

    def bodies(self, piece):
        while piece:
            code = call("yt_frames_feed", self.handle, piece, self.fed)
            if code == FRAME:
                raise Refused("yt_frames_feed", code, self.fed.offset, self.fed.cause)
            check_code("yt_frames_feed", code, READY)
            piece = piece[self.fed.used:]
            if code == READY:
                yield fetched("yt_frames_body", self.fed.body, self.handle)
                call("yt_frames_release", self.handle)

    def close(self):
        library.yt_frames_free(c.byref(self.handle))


class Client:
    """The client's end. `write` is called with bytes that are to go to the adapter."""

    def __init__(self, write, limits=None):
        self.handle, self.write = Handle(), write
        check_code("yt_client_open", call("yt_client_open", self.handle, limits or usual_limits()))

    def write_out(self, size):
        if size:
            self.write(fetched("yt_client_bytes", size, self.handle))

    def send(self, command, arguments=None):
        """Sends a request, and answers its number."""
        sent = Sent()
        given = b"" if arguments is None else json.dumps(arguments).encode()
        check_code("yt_client_send", call("yt_client_send", self.handle, command.encode(), given, sent))
        self.write_out(sent.bytes)
        return sent.seq

    def take(self, piece):
        """The bodies that become whole in a piece, one by one; between two of them the client can be asked and can send."""
        while piece:
            found = Found()
            code = call("yt_client_take", self.handle, piece, found)
            if code != OK:
                raise Refused("yt_client_take", code, found.at, found.cause)
            piece = piece[found.used:]
            self.write_out(found.bytes)
            if found.frame:
                yield fetched("yt_client_frame", found.frame, self.handle).partition(b"\r\n\r\n")[2]

    def seen(self):
        seen = Seen()
        check_code("yt_client_state", call("yt_client_state", self.handle, seen))
        return seen

    def close(self):
        library.yt_client_free(c.byref(self.handle))
