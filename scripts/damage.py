"""Damage for scripts/fuzz: to values, to how JSON is written, to bytes and to lists of messages or lines.

All is chosen by a generator of random numbers that is handed in, so that one seed gives one damage.
"""
import copy
import json


class Raw(str):
    """What stands in a text as it is, be it JSON or not."""


# Values near the edges of what is read, and what is no JSON.
NUMBERS = """
    0 1 2 3 4 5 9 49 64 65 -0 -1 -2 1.0 1.5 1e0 1E+2 0.0 10e-1 2147483646 2147483647 2147483648 -2147483648
    -2147483649 4294967296 9007199254740990 9007199254740991 9007199254740992 9007199254740993 -9007199254740991
    -9007199254740992 9223372036854775807 9223372036854775808 -9223372036854775808 -9223372036854775809 18446744073709551615
    18446744073709551616 18446744073709551617 123456789012345678901234567890 1e308 1.7976931348623158e308 1e-400 0e999
""".split()
NUMBERS += ["1" + "0" * 308, "1" + "0" * 400 + "e-400", "0." + "0" * 400 + "1e400"]
TEXTS = ['""', '"a"', '"\\u0000"', '"\\ud83d\\ude00"', '"\\u00e9\\/\\b"', '"\x7f\u2028\ufeff"', '"\U0001f333"']
TEXTS += ['"' + "c" * n + '"' for n in (63, 64, 65, 128, 129)] + ['"' + "\u00e9" * n + '"' for n in (32, 33)]
VALUES = ["null", "true", "false", "[]", "{}", "[null]", "[1]", "[{}]", "[0,2147483647]", '{"a":1,"a":{}}', '{"path":1}']
VALUES += ['{"path":""}', '{"sourceReference":1}', '{"line":1}', '[{"line":1}]']
NO_JSON = """
    1.7976931348623159e308 1e309 -1e309 1e99999999999999999999 01 -01 00 - + +1 .5 1. 1e 1e+ 0x1 NaN Infinity nul True
    [1,] {,} {"a":1,} {"a"} {a:1} [ } "a 'a' "\\x" "\\u12g4" "\\ud83d" "\\ude00\\ud83d"
""".split()
NO_JSON += ["", '"\t"', "1" + "0" * 309]
DEPTHS = [*range(95, 104), *range(118, 130)]
KEYS = """
    seq type command arguments event body success request_seq message threadId frameId variablesReference source path
    sourceReference breakpoints lines line startFrame levels start count requestId expression filters linesStartAt1
    columnsStartAt1 supportsVariablePaging exit sources moments threads thread output waits stop id name frames scopes
    variables value description text capabilities supportsStepBack stackFrames Seq x
""".split()
KEYS += ["", "seq\x00", "\u00e9"]


def edge_value(choice):
    """A value that is JSON, mostly near an edge."""
    return Raw(choice.choice(choice.choice([NUMBERS] * 6 + [TEXTS] * 3 + [VALUES] * 3 + [["null"]] * 3)))


def odd_value(choice):
    """The same, or seldom what is no JSON, or what nests deep."""
    kind = choice.randrange(16)
    if kind == 0:
        return Raw(choice.choice(NO_JSON))
    if kind == 1:
        depth = choice.choice(DEPTHS)
        return Raw(choice.choice(["[" * depth + "]" * depth, '{"a":' * (depth - 1) + "{}" + "}" * (depth - 1)]))
    return edge_value(choice)


# Values. Each change is of an array or an object, at one place in it.


def place_in(choice, value):
    """An array or an object within the value, and a place in it: near the top as likely as deep within."""
    while True:
        places = sorted(value) if isinstance(value, dict) else range(len(value))
        inner = [place for place in places if isinstance(value[place], (dict, list)) and value[place]]
        if not inner or choice.randrange(4) == 0:
            return value, choice.choice(places)
        value = value[choice.choice(inner)]


def place_of_key(choice, value):
    """An object within the value, and a key of it: each key as likely as another one, however many objects have it."""
    there = list(keys_in(value))
    key = choice.choice(sorted({key for _, key in there}))
    return choice.choice([place for place in there if place[1] == key])


def keys_in(value):
    """Each object within, with each of its keys."""
    if isinstance(value, dict):
        yield from ((value, key) for key in value)
    for inner in value.values() if isinstance(value, dict) else value if isinstance(value, list) else []:
        yield from keys_in(inner)


def leave_out(choice, holder, place):
    del holder[place]


def exchange(choice, holder, place):
    holder[place] = odd_value(choice)


def enclose(choice, holder, place):
    holder[place] = choice.choice([[holder[place]], [holder[place]] * 2, {"a": holder[place]}])


def put_more(choice, holder, place):
    """A key more, or an element: an odd one, or the same again."""
    more = choice.choice([odd_value(choice), copy.deepcopy(holder[place])])
    if isinstance(holder, dict):
        holder[choice.choice(KEYS)] = more
    else:
        holder.insert(place, more)


def give_to_other(choice, holder, place):
    """The value stands under another key, or at another place."""
    inner = holder.pop(place)
    if isinstance(holder, dict):
        holder[choice.choice(KEYS)] = inner
    else:
        holder.insert(choice.randrange(len(holder) + 1), inner)


def change_number(choice, holder, place):
    """A whole number becomes one near it; any other value an odd one."""
    inner = holder[place]
    is_whole = isinstance(inner, int) and not isinstance(inner, bool)
    holder[place] = inner + choice.choice([-1, 1, 1, 2]) if is_whole else odd_value(choice)


CHANGES = [leave_out, exchange, exchange, exchange, enclose, put_more, put_more, give_to_other, change_number, change_number]


def changed_value(choice, value, times=1):
    """The value with so many changes within, or seldom of the whole."""
    root = [copy.deepcopy(value)]
    for _ in range(times):
        choice.choice(CHANGES)(choice, *place_to_change(choice, root))
        root = root or [Raw("")]
    return root[0]


def place_to_change(choice, root):
    kind = choice.randrange(12)
    if kind == 0 or not isinstance(root[0], (dict, list)) or not root[0]:
        return root, 0
    return place_of_key(choice, root) if kind < 6 and any(keys_in(root)) else place_in(choice, root[0])


# How JSON is written


class Writer:
    """Writes values as JSON: plainly, or with blanks, escapes, keys in any order and keys that come twice."""

    def __init__(self, choice, is_odd=False, blanks=(" ", "\t", "\n", "\r")):
        self.choice = choice
        self.is_odd = is_odd
        self.blanks = blanks

    def is_chosen(self, of):
        return self.is_odd and self.choice.randrange(of) == 0

    def blank(self):
        return self.choice.choice(self.blanks) * self.choice.randrange(1, 3) if self.is_chosen(4) else ""

    def text(self, value):
        if isinstance(value, Raw):
            return str(value)
        if isinstance(value, dict):
            return self.enclosed("{", [self.member(*one) for one in self.members(value)], "}")
        if isinstance(value, list):
            return self.enclosed("[", [self.text(one) for one in value], "]")
        if isinstance(value, str):
            return self.string(value)
        return json.dumps(value)

    def bytes(self, value):
        return (self.blank() + self.text(value) + self.blank()).encode()

    def enclosed(self, first, parts, last):
        return first + self.blank() + ",".join(self.blank() + part + self.blank() for part in parts) + last

    def members(self, value):
        """In some order. Of a key that comes twice, the value itself comes last."""
        there = [(key, value[key]) for key in value]
        if self.is_chosen(2):
            self.choice.shuffle(there)
        if there and self.is_chosen(8):
            there.insert(0, (self.choice.choice(there)[0], edge_value(self.choice)))
        return there

    def member(self, key, value):
        return f"{self.string(key)}{self.blank()}:{self.blank()}{self.text(value)}"

    def string(self, text):
        if not self.is_chosen(6):
            return json.dumps(text, ensure_ascii=False)
        return '"' + "".join(self.choice.choice([json.dumps(one)[1:-1], escape_of(one)]) for one in text) + '"'


def escape_of(character):
    digits = character.encode("utf-16-be").hex()
    return "".join("\\u" + digits[k : k + 4] for k in range(0, len(digits), 4))


# Bytes


PARTS = [b"\r\n", b"\n", b"\r", b"\r\n\r\n", b"Content-Length: ", b"Content-Length: 2\r\n", b"> ", b"< ", b"send ", b"run\n"]
PARTS += [b"{", b"}", b"{}", b"[", b"]", b'"', b"\\", b",", b":", b"0", b"9", b"-", b".", b"e", b"null", b" ", b"\t"]
PARTS += [b"\x00", b"\x1f", b"\x7f", b"\x80", b"\xff", b"\xc3", b"\xe2\x82", b"\xed\xa0\x80", b"\xc0\xaf", b"\xf4\x90\x80\x80"]
PARTS += [b"\xef\xbb\xbf"]


def flip(choice, content, place):
    return content[:place] + bytes([content[place] ^ 1 << choice.randrange(8)]) + content[place + 1 :]


def put_in(choice, content, place):
    part = choice.choice([choice.choice(PARTS), choice.randbytes(1)])
    return content[:place] + part + content[place + choice.choice([0, 0, 1]) :]


def take_out(choice, content, place):
    return content[:place] + content[place + choice.choice([1, 1, 1, 2, 3, 20]) :]


def double(choice, content, place):
    stop = place + choice.choice([1, 2, 8, 100])
    return content[:stop] + content[place:stop] + content[stop:]


def cut(choice, content, place):
    return content[:place]


BYTE_CHANGES = [flip, put_in, put_in, put_in, take_out, take_out, double, cut]


def changed_bytes(choice, content):
    """The bytes with some changes, mostly one."""
    for _ in range(choice.choice([1, 1, 1, 2, 3])):
        if content:
            content = choice.choice(BYTE_CHANGES)(choice, content, choice.randrange(len(content)))
    return content


def noise(choice):
    """Bytes as they come."""
    return b"".join(choice.choice([choice.choice(PARTS), choice.randbytes(1)]) for _ in range(choice.randrange(40)))


# Lists of messages or of lines


def without_one(choice, pieces, place):
    return pieces[:place] + pieces[place + 1 :]


def with_one_twice(choice, pieces, place):
    other = choice.randrange(len(pieces) + 1)
    return pieces[:other] + [pieces[place]] + pieces[other:]


def with_one_elsewhere(choice, pieces, place):
    left = without_one(choice, pieces, place)
    other = choice.randrange(len(left) + 1)
    return left[:other] + [pieces[place]] + left[other:]


def with_many(choice, pieces, place):
    """Some of them many times over."""
    stop = place + choice.randrange(1, 4)
    return pieces[:place] + pieces[place:stop] * choice.choice([1, 2, 10, 100]) + pieces[stop:]


LIST_CHANGES = [without_one] * 4 + [with_one_twice] * 4 + [with_one_elsewhere] * 4 + [with_many]


def changed_list(choice, pieces):
    for _ in range(choice.choice([1, 1, 2])):
        if pieces:
            pieces = choice.choice(LIST_CHANGES)(choice, pieces, choice.randrange(len(pieces)))
    return pieces
