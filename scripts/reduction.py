"""How scripts/fuzz makes an input smaller that shows a difference: by messages and lines, then within JSON, then by bytes."""
import dataclasses
import json
import time

from damage import Writer
from listing_model import frames_in
from session_model import frame
from slow_check import Refused


def smaller_case(case, differs, seconds):
    """A case that differs too, as small as it is found in so many seconds."""
    until = time.monotonic() + seconds

    def still(other):
        return time.monotonic() < until and differs(other)

    case = with_fewer_options(case, still)
    # Where numbers may come in any order, lines can be left out.
    free = dataclasses.replace(case, options={**case.options, "any_seq": True})
    if case.tool == "check" and still(free):
        case = free
    for make_smaller in (with_less_json, with_fewer_bytes):
        for place in reversed(range(len(case.contents))):
            case = with_smaller_content(case, place, make_smaller, still)
    return case


def with_fewer_options(case, still):
    def with_these(names):
        return dataclasses.replace(case, options={name: case.options[name] for name in names})

    return with_these(fewer_items(list(case.options), lambda names: still(with_these(names))))


def with_smaller_content(case, place, make_smaller, still):
    """With fewer frames or lines, and then each of them smaller."""

    def with_these(pieces):
        there = case.contents
        return dataclasses.replace(case, contents=[*there[:place], b"".join(pieces), *there[place + 1 :]])

    pieces = fewer_items(pieces_of(case, place), lambda pieces: still(with_these(pieces)))
    for k, piece in enumerate(pieces):
        pieces[k] = make_smaller(piece, lambda piece: still(with_these(pieces[:k] + [piece] + pieces[k + 1 :])))
    return with_these(pieces)


def fewer_items(items, still):
    """The items without those that can be left out, many at a time and then one by one. `still` says whether some will do."""
    size = max(1, len(items) // 2)
    while size:
        items = without_parts(items, size, still)
        size //= 2
    return items


def without_parts(items, size, still):
    place = 0
    while place < len(items):
        rest = items[:place] + items[place + size :]
        if still(rest):
            items = rest
        else:
            place += size
    return items


def pieces_of(case, place):
    """The frames or the lines of a content; all of it where it is a recording."""
    content = case.contents[place]
    if case.tool == "show" or case.tool == "serve" and place == 1:
        return frames_of(content)
    if case.tool in ("serve", "drive") and place == 0:
        return [content]
    return content.splitlines(keepends=True)


def frames_of(stream):
    """The frames, and as the last piece what follows them and is none."""
    starts = [0]
    try:
        for offset, _ in frames_in(stream, 65536, 2**30):
            starts.append(offset)
    except Refused as refused:
        starts += map(int, str(refused).split()[2:])
    starts = sorted({*starts, len(stream)})
    return [stream[start:stop] for start, stop in zip(starts, starts[1:])]


def with_less_json(piece, still):
    inner, make = json_in(piece)
    return make(smaller_json(inner, lambda inner: still(make(inner))))


def with_fewer_bytes(piece, still):
    """In a frame those of the body, and the length with them."""
    inner, make = json_in(piece)
    if make is not frame:
        inner, make = piece, bytes
    return make(bytes(fewer_items(list(inner), lambda codes: still(make(bytes(codes))))))


def json_in(piece):
    """What may be JSON in a frame, a line or a recording, and what makes the piece with other JSON."""
    body = piece.partition(b"\r\n\r\n")[2]
    if piece == frame(body):
        return body, frame
    start, stop = max(piece.find(b"{"), 0), len(piece.rstrip(b"\r\n"))
    return piece[start:stop], lambda inner: piece[:start] + inner + piece[stop:]


def smaller_json(content, still):
    """As it is, where it is no JSON even for Python, or does no longer do when it is written anew."""
    written = Writer(None).bytes
    try:
        value = json.loads(content)
        will_do = still(written(value))
    except (ValueError, RecursionError):
        return content
    return written(simpler_value(value, lambda value: still(written(value)))) if will_do else content


def simpler_value(value, still):
    """The value without what can be left out, from the outside in. A text is left empty, or as it is."""
    if isinstance(value, dict):
        keys = fewer_items(list(value), lambda keys: still({key: value[key] for key in keys}))
        value = {key: value[key] for key in keys}
    elif isinstance(value, list):
        value = fewer_items(value, still)
    else:
        return "" if isinstance(value, str) and still("") else value
    for place in list(value) if isinstance(value, dict) else range(len(value)):
        value[place] = simpler_value(value[place], lambda inner: still(with_inner(value, place, inner)))
    return value


def with_inner(value, place, inner):
    changed = value.copy()
    changed[place] = inner
    return changed
