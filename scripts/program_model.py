#!/usr/bin/env python3
"""A model of the program `dap`: from its words, its files and its standard input to a status, an output and a fault's line.

`show`, `unwrap` and `wrap` are in listing_model.py, `check` in slow_check.py, `drive` in drive_model.py. What stands here is how a
recording is read, from "Keys" and "What is refused" of docs/RECORDINGS.md, and `serve`, from "Requests as they come", "Faults
of an adapter", "Serving" and "The program" of docs/PROFILE.md. It shares nothing with the crates. Not in the model: how files
are read, help and wrong words, memory that is refused, and the words of `check --explain`.

    scripts/program_model.py serve RECORDING [--max-body N] ..  (in the program's place, to try what tries the program)
"""
import argparse
import sys

import slow_check
from drive_model import Adapter, Fault, drive_of
from listing_model import MAX_BODY, MAX_HEADER, given_at, frames_in, refusal_of, show, unwrap, wrap
from session_model import GREATEST, Closed, frame
from slow_check import MAX_FILE, Refused, is_text, is_whole, need, read_json, read_message

MAX_SOURCES = 65536
MAX_LINE = 2147483647
# Of the members beside a frame, a scope or a variable, with the object that has them.
MAX_MORE_NESTING = 100
# Of the texts of a stop, in UTF-8.
MAX_BYTES = {"stop": 64, "description": 128, "text": 128}


# Recordings


def read_recording(content):
    """The recording that the bytes are, or the refusal."""
    told = read_json(content)
    need(isinstance(told, dict), "NotObject")
    need(first_bad_key(told) is None, "BadKey")
    return told


def first_bad_key(recording):
    return next(bad_keys(recording), None)


# Each of these gives the first bad key, if there is one. Whoever has it asks for no more, and what more it gave would mean
# nothing. A key that may be absent has a good value in its place; `null` is none.


def bad_keys(recording):
    if not is_within(recording.get("exit"), -(2**31), 2**31 - 1):
        yield "exit"
    sources = recording.get("sources")
    if not isinstance(sources, list) or len(sources) > MAX_SOURCES:
        yield "sources"
    for source in sources:
        yield from bad_keys_of_source(source)
    if not isinstance(recording.get("moments"), list) or not recording["moments"]:
        yield "moments"
    for moment in recording["moments"]:
        yield from bad_keys_of_moment(moment, [lines_in(source["text"]) for source in sources])


def is_within(value, least, greatest):
    return is_whole(value) and least <= value <= greatest


def lines_in(text):
    return text.count("\n") + (text[-1:] not in ("", "\n"))


def bad_texts(told, *keys):
    """Those keys that are no text."""
    return (key for key in keys if not is_text(told.get(key)))


def bad_keys_of_source(source):
    if not isinstance(source, dict):
        yield "sources"
    yield from bad_texts(source, "name")
    yield from bad_texts({"path": "", **source}, "path")
    yield from bad_texts(source, "text")
    if not isinstance(source.get("onDisk", False), bool):
        yield "onDisk"


def bad_keys_of_moment(moment, counts):
    if not isinstance(moment, dict):
        yield "moments"
    if not isinstance(moment.get("threads"), list):
        yield "threads"
    ids = []
    for thread in moment["threads"]:
        yield from bad_keys_of_thread(thread, ids, counts)
        ids.append(thread["id"])
    if not is_whole(moment.get("thread")) or moment["thread"] not in ids:
        yield "thread"
    yield from bad_texts({"output": "", **moment}, "output")
    if not isinstance(moment.get("waits", False), bool):
        yield "waits"
    for key, most in MAX_BYTES.items():
        text = moment.get(key, "")
        if not is_text(text) or len(text.encode()) > most:
            yield key


def bad_keys_of_thread(thread, ids, counts):
    if not isinstance(thread, dict):
        yield "threads"
    if not is_within(thread.get("id"), -GREATEST, GREATEST) or thread["id"] in ids:
        yield "id"
    yield from bad_texts(thread, "name")
    if not isinstance(thread.get("frames"), list) or not thread["frames"]:
        yield "frames"
    for one in thread["frames"]:
        yield from bad_keys_of_frame(one, counts)


def bad_keys_of_frame(one, counts):
    """`counts` has how many lines each source has."""
    if not isinstance(one, dict):
        yield "frames"
    yield from bad_texts(one, "name")
    if not is_within(one.get("source"), 0, len(counts) - 1):
        yield "source"
    if not is_within(one.get("line"), 1, min(counts[one["source"]], MAX_LINE)):
        yield "line"
    yield from bad_keys_in(one, "scopes", bad_keys_of_scope)
    yield from bad_members_beside(one)


def bad_keys_of_scope(scope):
    if not isinstance(scope, dict):
        yield "scopes"
    yield from bad_texts(scope, "name")
    yield from bad_keys_in(scope, "variables", bad_keys_of_variable)
    yield from bad_members_beside(scope)


def bad_keys_of_variable(variable):
    if not isinstance(variable, dict):
        yield "variables"
    yield from bad_texts(variable, "name", "value")
    yield from bad_keys_in(variable, "variables", bad_keys_of_variable)
    yield from bad_members_beside(variable)


def bad_members_beside(told):
    more = told.get("more", {})
    if not isinstance(more, dict) or nesting(more) > MAX_MORE_NESTING:
        yield "more"


def nesting(value):
    """How deep a value nests; without end where there is a float in it."""
    if isinstance(value, float):
        return float("inf")
    inner = value.values() if isinstance(value, dict) else value if isinstance(value, list) else None
    return 0 if inner is None else 1 + max(map(nesting, inner), default=0)


def bad_keys_in(told, key, bad_keys_of_one):
    """The same of an array that may be absent, and of its elements."""
    if not isinstance(told.get(key, []), list):
        yield key
    for one in told.get(key, []):
        yield from bad_keys_of_one(one)


# The tools. Each gives the status, the output and the errors.


def serve(recording, stream, max_header=MAX_HEADER, max_body=MAX_BODY, **limits):
    """What was answered before a fault has gone out. Nothing is looked at once the session has ended."""
    out = []
    try:
        adapter = Adapter(read_recording(recording), max_body=max_body, **limits)
        for offset, body in frames_in(stream, max_header, max_body):
            message = given_at(f"at {offset}", read_message, None, None, body)
            for bodies in answers(adapter, message):
                out += map(frame, bodies)
            if adapter.phase == "Ended":
                break
    except Refused as refused:
        status, line = refusal_of(refused)
        return status, b"".join(out), line
    except Fault:
        return 3, b"".join(out), b"dap: SeqExhausted\n"
    return 0, b"".join(out), b""


def answers(adapter, message):
    """What the adapter hands out for a message, call by call."""
    if message.type == "response":
        yield response_taken(adapter, message)
    if message.type == "request":
        need(all(one["seq"] != message.seq for one in adapter.kept), "RepeatedSeq")
        yield adapter.take({"seq": message.seq, "command": message.command, "arguments": message.arguments})
    yield from adapter.run()


def response_taken(adapter, message):
    """A fault comes before the numbers are counted."""
    told = {"request_seq": message.request_seq, "command": message.command, "success": message.success}
    try:
        return adapter.answer(told)
    except Closed as closed:
        raise Refused(str(closed)) from None


def drive(recording, script, check=False, **limits):
    """What it prints is legal, so that nothing else is ever found in it."""
    limits.pop("max_header", None)
    try:
        told = read_recording(recording)
    except Refused:
        return 3, b"", b"dap: Recording\n"
    status, out, err = drive_of(told, script, **limits)
    return status, out, b"legal\n" if check and status == 0 else err


def check(content, **options):
    """Why a line breaks a rule is said in other words than the program's."""
    status, out, err = slow_check.check(content, **options)
    return status, out.encode(), err.encode()


# Each with how many files it has as words; `serve` has the standard input too.
TOOLS = {"serve": (serve, 1), "show": (show, 1), "unwrap": (unwrap, 1), "wrap": (wrap, 1), "check": (check, 1), "drive": (drive, 2)}
LIMITS = ("header", "body", "requests", "references", "breakpoints", "seq", "reference")


def answer(tool, contents, options):
    """What the program answers, of the bytes of its files, and of its standard input after them."""
    return TOOLS[tool][0](*contents, **options)


def main():
    words = argparse.ArgumentParser(description=__doc__, formatter_class=argparse.RawDescriptionHelpFormatter)
    words.add_argument("--version", action="version", version="a model of dap")
    words.add_argument("tool", choices=TOOLS)
    words.add_argument("files", nargs="+")
    for name in LIMITS:
        words.add_argument(f"--max-{name}", type=int, default=argparse.SUPPRESS)
    for name in ("explain", "all", "open", "bodies", "json", "reasons", "keep-going", "check"):
        words.add_argument(f"--{name}", action="store_true", default=argparse.SUPPRESS)
    words.add_argument("--any-seq", choices=("client", "adapter", "both"), default=argparse.SUPPRESS)
    options = vars(words.parse_args(["--any-seq=both" if word == "--any-seq" else word for word in sys.argv[1:]]))
    tool, files = options.pop("tool"), options.pop("files")
    contents = []
    for name in files + ["/dev/stdin"] * (tool == "serve"):
        with open("/dev/stdin" if name == "-" else name, "rb") as file:
            contents.append(file.read(MAX_FILE))
    status, out, err = answer(tool, contents, options)
    sys.stdout.buffer.write(out)
    sys.stderr.buffer.write(err)
    return status


if __name__ == "__main__":
    sys.exit(main())
