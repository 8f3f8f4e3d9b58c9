"""Bytes: the frames of the client (Overview, "Base protocol"), and the terminal that the program writes to.

It knows nothing of gdb, nor what a message says.
"""
import codecs
import os
import re
import select
import threading
import tty

MOST_HEADER, MOST_BODY = 8192, 4194304  # bytes, as `dap` has them
MOST_WRITTEN = 1 << 16  # bytes of the terminal that are taken at once
FIELD = re.compile(rb"([!-9;-~]+):[\t ]*([\t -~]*?)[\t ]*\r\n")


class Fault(Exception):
    """Why a stream can't be read any further."""


def line_of(stream, left):
    line = stream.readline(left)
    if not line.endswith(b"\n"):
        raise Fault("HeaderTooLong" if len(line) == left else "Truncated")
    return line


def fields_of(stream):
    """The fields of the next header block: of each its name and its value."""
    fields, left = [], MOST_HEADER
    while True:
        line = line_of(stream, left)
        left -= len(line)
        if fields and line == b"\r\n":
            return fields
        field = FIELD.fullmatch(line)
        if not field:
            raise Fault("BadHeader")
        fields.append(field.groups())


def length_of(fields):
    values = [value for name, value in fields if name.lower() == b"content-length"]
    if len(values) != 1:
        raise Fault("TwoLengths" if values else "NoLength")
    if not values[0].isdigit():
        raise Fault("BadLength")
    digits = values[0].lstrip(b"0") or b"0"
    if len(digits) > len(str(MOST_BODY)) or int(digits) > MOST_BODY:
        raise Fault("BodyTooLong")
    return int(digits)


def bodies_of(stream):
    """The bodies of a client, up to a fault: its stream never just ends."""
    while stream.peek(1):
        length = length_of(fields_of(stream))
        body = stream.read(length)
        if len(body) < length:
            raise Fault("Truncated")
        yield body
    raise Fault("it hung up without `disconnect`")


def framed(body):
    return b"Content-Length: %d\r\n\r\n%b" % (len(body), body)


class Terminal:
    """The terminal of the program, and what it has written there."""

    MARK = b"\0" + os.urandom(8).hex().encode()

    def __init__(self):
        self.master, self.slave = os.openpty()
        tty.setraw(self.slave)
        self.name = os.ttyname(self.slave)
        self.taken, self.decoder = threading.Event(), codecs.getincrementaldecoder("utf-8")("replace")

    def hear(self, told):
        """Waits for ever, and calls `told` once something is there. It has to lead to `written`."""
        while True:
            select.select([self.master], [], [])
            self.taken.clear()
            told()
            self.taken.wait()

    def written(self, all):
        """What was written since it was asked before, or much of it. All of it where the program stands still: up to a mark."""
        data = self.pieces(lambda data: all or len(data) < MOST_WRITTEN, 0)
        if all:
            os.write(self.slave, self.MARK)
            data += self.pieces(lambda data: self.MARK not in data, 1)
        self.taken.set()
        return self.decoder.decode(data.replace(self.MARK, b""))

    def pieces(self, goes_on, seconds):
        """What is there, as long as it goes on, and something comes within so long."""
        data = bytearray()
        while goes_on(data) and select.select([self.master], [], [], seconds)[0]:
            data += os.read(self.master, MOST_WRITTEN)
        return bytes(data)
