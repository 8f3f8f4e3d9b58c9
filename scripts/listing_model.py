"""A model of `dap show`, `dap unwrap` and `dap wrap`: from the bytes of a file to a status, an output and the line of a fault.

It is written from docs/PROFILE.md, "Streams and frames", "Refusals of framing", "Listing a stream", "The bodies of a stream" and
"Framing the lines of a file", and shares nothing with the crates. Lines, JSON and messages are those of slow_check.py.
"""
import re

from session_model import frame
from slow_check import Refused, lines_of, need, read_message

MAX_HEADER = 8192
MAX_BODY = 4194304
# A name of the bytes 33 to 126 but the colon; a value of the bytes 9 and 32 to 126.
FIELD = re.compile(rb"([!-9;-~]+):([\t -~]*)")
CONTROL = re.compile("[\x00-\x1f\x7f]")


def frames_in(stream, max_header=MAX_HEADER, max_body=MAX_BODY):
    """The offset and the body of each frame, up to the first refusal."""
    at = 0
    while at < len(stream):
        end = stream.find(b"\r\n\r\n", at, at + max_header)
        if end < 0:
            raise Refused(f"HeaderTooLong at {at}" if len(stream) - at >= max_header else "Truncated")
        start = end + 4
        stop = start + given_at(f"at {at}", body_length, stream[at:end], max_body)
        need(stop <= len(stream), "Truncated")
        yield at, stream[start:stop]
        at = stop


def body_length(block, max_body):
    """What the lines of a header block say of the body."""
    fields = [FIELD.fullmatch(line) for line in block.split(b"\r\n")]
    need(all(fields), "BadHeader")
    lengths = [field[2].strip(b"\t ") for field in fields if field[1].lower() == b"content-length"]
    need(lengths, "NoLength")
    need(len(lengths) == 1, "TwoLengths")
    need(re.fullmatch(b"[0-9]+", lengths[0]), "BadLength")
    digits = lengths[0].lstrip(b"0") or b"0"
    need(len(digits) <= len(str(max_body)) and int(digits) <= max_body, "BodyTooLong")
    return int(digits)


def given_at(place, read, *given):
    """What `read` gives, or its refusal and the place."""
    try:
        return read(*given)
    except Refused as refusal:
        raise Refused(f"{refusal} {place}") from None


def refusal_of(refused):
    """The status and the line of what is refused."""
    return 4 if str(refused) == "Truncated" else 3, f"dap: {refused}\n".encode()


def line_for(offset, message):
    """The line of a message."""
    told = f"{offset} {message.seq} "
    if message.type == "request":
        return f"{told}request {without_controls(message.command)}\n"
    if message.type == "response":
        return f"{told}response {without_controls(message.command)} {message.request_seq} {'ok' if message.success else 'failed'}\n"
    if message.type == "event":
        return f"{told}event {without_controls(message.event)}\n"
    return f"{told}other {without_controls(message.type)}\n"


def line_with_reason(offset, message):
    """The same, with why a request failed behind it, where the response says so."""
    line = line_for(offset, message)
    if message.type != "response" or message.success or message.reason is None:
        return line
    return f"{line[:-1]} {without_controls(message.reason)}\n"


def without_controls(text):
    return CONTROL.sub("?", text)


def on_one_line(body):
    return body.replace(b"\n", b"").replace(b"\r", b"")


# The line of a body, by its form; then that of one which is no message.
FORMS = {
    "line": lambda offset, body, message: line_for(offset, message).encode(),
    "reasons": lambda offset, body, message: line_with_reason(offset, message).encode(),
    "object": lambda offset, body, message: b'{"offset":%d,"bytes":%d,"message":%b}\n' % (offset, len(body), on_one_line(body)),
    "body": lambda offset, body, message: on_one_line(body) + b"\n",
}
REFUSED_FORMS = {
    "line": lambda offset, body, name: f"{offset} refused {name}\n".encode(),
    "reasons": lambda offset, body, name: f"{offset} refused {name}\n".encode(),
    "object": lambda offset, body, name: b'{"offset":%d,"bytes":%d,"refused":"%b"}\n' % (offset, len(body), name.encode()),
}


def listing(stream, form, keep_going, max_header, max_body):
    """What was listed before a refusal stays."""
    lines, status = [], 0
    try:
        for offset, body in frames_in(stream, max_header, max_body):
            try:
                lines.append(FORMS[form](offset, body, read_message(None, None, body)))
            except Refused as refused:
                if not keep_going:
                    raise Refused(f"{refused} at {offset}") from None
                lines.append(REFUSED_FORMS[form](offset, body, str(refused)))
                status = 3
    except Refused as refused:
        status, line = refusal_of(refused)
        return status, b"".join(lines), line
    return status, b"".join(lines), b""


def show(stream, max_header=MAX_HEADER, max_body=MAX_BODY, json=False, reasons=False, keep_going=False):
    return listing(stream, "object" if json else "reasons" if reasons else "line", keep_going, max_header, max_body)


def unwrap(stream, max_header=MAX_HEADER, max_body=MAX_BODY):
    return listing(stream, "body", False, max_header, max_body)


def wrap(content, max_header=MAX_HEADER, max_body=MAX_BODY):
    """At a refused line there are no frames at all. The header limit changes nothing."""
    frames = []
    try:
        for number, line in lines_of(content):
            given_at(f"at line {number}", read_line, line, max_body)
            frames.append(frame(line))
    except Refused as refused:
        status, line = refusal_of(refused)
        return status, b"", line
    return 0, b"".join(frames), b""


def read_line(line, max_body):
    """A line is a message first, and then no longer than may be."""
    read_message(None, None, line)
    need(len(line) <= max_body, "BodyTooLong")
