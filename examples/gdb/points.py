"""Breakpoints as a client wants them: at which lines, functions, addresses or data, under which conditions, and what each says
in place of stopping.

It knows gdb's breakpoints and what the protocol says of them (Specification, "SourceBreakpoint"). It knows nothing of `dap host`.
"""
import collections
import contextlib
import os
import re

import gdb

from texts import clean

NOWHERE = os.open(os.devnull, os.O_WRONLY | os.O_CLOEXEC)
HITS = re.compile(r"\s*(>=|<=|==|>|<|=|%)?\s*([0-9]+)\s*\Z")
TESTS = {">=": lambda n, k: n >= k, "<=": lambda n, k: n <= k, ">": lambda n, k: n > k, "<": lambda n, k: n < k,
         "%": lambda n, k: k != 0 and n % k == 0}

# Where gdb puts a breakpoint: its address, its line and the name of its function, where it has them.
Location = collections.namedtuple("Location", "address line function")


@contextlib.contextmanager
def quiet():
    """Within it gdb says nothing on standard error, such as that it finds no line for a breakpoint."""
    kept = os.dup(2)
    os.dup2(NOWHERE, 2)
    try:
        yield
    finally:
        gdb.flush(gdb.STDERR)
        os.dup2(kept, 2)
        os.close(kept)


def place_of(point):
    """The line that gdb puts a breakpoint at; none where no code of it is loaded."""
    return point.locations[0].source[1] if point.locations else None


def locations_of(path, line):
    """All places where gdb puts a breakpoint that is set there."""
    try:
        with quiet():
            point = gdb.Breakpoint(source=path, line=line, internal=True)
    except gdb.error:
        return []
    places = [Location(one.address, one.source and one.source[1], one.function) for one in point.locations]
    point.delete()
    return places


def line_of_point(path, line):
    """Where gdb puts a breakpoint that is set there."""
    return next((where.line for where in locations_of(path, line)), None)


def test_of_hits(text):
    """Whether the breakpoint stops at its nth hit, by `5`, `>= 5`, `% 5` and the like; `5` alone is that hit and no other."""
    found = HITS.match(text)
    if not found:
        return None
    test, count = TESTS.get(found.group(1), lambda n, k: n == k), int(found.group(2))
    return lambda hit: test(hit, count)


def text_of(value):
    """A value within the message of a log point: a text of C without its address and its quotes."""
    try:
        return value.string(errors="replace") if value.type.strip_typedefs().code in (gdb.TYPE_CODE_PTR, gdb.TYPE_CODE_ARRAY) else str(value)
    except (gdb.error, RuntimeError):
        return str(value)


def filled(message):
    """The message of a log point: `{EXPRESSION}` is what that comes to."""
    def value(found):
        try:
            return text_of(gdb.parse_and_eval(found.group(1)))
        except (gdb.error, RuntimeError) as fault:
            return "{%s}" % fault
    return clean(re.sub(r"\{([^{}]*)\}", value, message)) + "\n"


class Point(gdb.Breakpoint):
    """A breakpoint. Its hits are counted where its condition holds. Where it is set is said as gdb's own class wants it."""

    def __init__(self, wanted, say, *place, **where):
        with quiet():
            super().__init__(*place, **where)
        self.say, self.hits, self.line_set, self.id = say, 0, where.get("line"), None
        self.is_hit = False  # where the program stopped last
        self.when, self.message = wanted.get("condition"), wanted.get("logMessage")
        hits = wanted.get("hitCondition")
        self.stops_at = test_of_hits(hits) if hits else None
        if hits and not self.stops_at:
            say("stderr", "The hit count %s of a breakpoint is none.\n" % clean(hits))

    def holds(self):
        try:
            return not self.when or bool(gdb.parse_and_eval(self.when))
        except (gdb.error, RuntimeError) as fault:  # better a stop than none
            self.say("stderr", "The condition %s of a breakpoint: %s\n" % (clean(self.when), clean(fault)))
            return True

    def stop(self):
        """gdb calls it where the program comes here, and lets the program do nothing else meanwhile."""
        self.is_hit = self.stops_here()
        return self.is_hit

    def stops_here(self):
        """Whether the program stops here."""
        if not self.holds():
            return False
        self.hits += 1
        if self.stops_at and not self.stops_at(self.hits):
            return False
        if self.message is None:
            return True
        self.say("console", filled(self.message))
        return False
