"""The requests for breakpoints that are at no line: those of functions, of instructions and of data. Of each, what it is
answered. `asked.py` has the other requests.
"""
import contextlib
import os
import re

import gdb

from arguments import HIGHEST, Refusal, address_of, bad, number_of, present, rows_of, text_of
from meaning import MOST, Meaning
from memory import can_read, source_said
from points import Point
from texts import clean
from values import object_of

FUNCTION, DATA, INSTRUCTION = "function breakpoint", "data breakpoint", "instruction breakpoint"  # as stops have them as reasons
OURS = 1000000  # breakpoints from here on are numbered here; those of `setBreakpoints` by `dap host`
REGISTERS = 4  # of a processor, each of which watches at most eight bytes
ACCESS = {"read": gdb.WP_READ, "write": gdb.WP_WRITE, "readWrite": gdb.WP_ACCESS}
DATA_ID = re.compile(r"(0x[0-9a-f]{1,16}):([0-9]{1,2})\Z")
TYPES = {1: "unsigned char", 2: "unsigned short", 4: "unsigned int", 8: "unsigned long"}


@contextlib.contextmanager
def in_c():
    """Within it expressions are those of C, whatever the program is written in."""
    gdb.execute("set language c", to_string=True)
    try:
        yield
    finally:
        gdb.execute("set language auto", to_string=True)


def registers_for(address, size):
    """How many registers of the processor watch this memory: each watches 1, 2, 4 or 8 bytes, from a multiple of that on."""
    count = 0
    while size > 0:
        step = next(step for step in (8, 4, 2, 1) if step <= size and address % step == 0)
        address, size, count = address + step, size - step, count + 1
    return count


def watched_text(address, size):
    """The expression of C for this memory."""
    pointer = TYPES[size] + " *" if size in TYPES else "unsigned char (*)[%d]" % size
    return "*(%s) %#x" % (pointer, address)


def place_in_memory(value):
    """The address and the size of a value; neither where it is at no place in memory."""
    try:
        value = object_of(value)
        return (int(value.address), value.type.sizeof) if value.address is not None else (None, 0)
    except (gdb.error, RuntimeError, AttributeError):
        return None, 0


class AskedPoints(Meaning):
    def __init__(self, adapter):
        super().__init__(adapter)
        self.count, self.registers = OURS, 0  # of the last breakpoint its number; of the processor those that watch

    # Breakpoints of any kind

    def set_points(self, reason, rows, made):
        """These replace all others that stop for this reason."""
        self.adapter.debuggee.drop_others(reason)
        return {"breakpoints": [self.set_point(reason, row, made) for row in rows]}

    def set_point(self, reason, row, made):
        self.count += 1
        try:
            point = made(row)
        except Refusal as refusal:
            return {"id": self.count, "verified": False, "message": refusal.words}
        except (gdb.error, RuntimeError, ValueError) as fault:
            return {"id": self.count, "verified": False, "message": clean(fault)}
        point.id = self.count
        self.adapter.debuggee.add_other(reason, point)
        return self.breakpoint_of(point)

    def breakpoint_of(self, point):
        """A breakpoint as the protocol has it."""
        if point.pending:
            return {"id": point.id, "verified": False, "message": "gdb knows no such function by now."}
        said = {"id": point.id, "verified": True}
        for where in (point.locations or ())[:1]:
            if where.source and where.fullname and os.path.isfile(where.fullname):
                said.update(line=self.line(where.source[1]), source=source_said(where.fullname))
        return said

    # The three kinds

    def set_function_breakpoints(self, arguments):
        rows = rows_of(arguments, "breakpoints", "name")
        return self.set_points(FUNCTION, rows, lambda row: Point(row, self.adapter.say_later, function=row["name"]))

    def set_instruction_breakpoints(self, arguments):
        rows = rows_of(arguments, "breakpoints", "instructionReference")
        places = [address_of(row, "instructionReference") + number_of(row, "offset", -HIGHEST, HIGHEST, 0) for row in rows]
        left = iter(places)
        return self.set_points(INSTRUCTION, rows, lambda row: self.instruction_point(row, next(left)))

    def instruction_point(self, row, address):
        if not self.adapter.debuggee.pid or not can_read(address, 1):
            raise Refusal("debuggee", "Cannot access memory at address %#x" % address)
        return Point(row, self.adapter.say_later, "*%#x" % address)

    def data_breakpoint_info(self, arguments):
        name = text_of(arguments, "name")
        address, size = self.place_named(arguments, name)
        if address is None:
            return {"dataId": None, "description": "%s is at no place in memory." % clean(name)}
        if not 0 < registers_for(address, size) <= REGISTERS:
            return {"dataId": None, "description": "%s has %d bytes, more than can be watched." % (clean(name), size)}
        return {"dataId": "%#x:%d" % (address, size), "description": "%s: %d bytes at %#x" % (clean(name), size, address),
                "accessTypes": list(ACCESS), "canPersist": False}

    def place_named(self, arguments, name):
        """The address and the size of a variable of a holder, or of an expression."""
        if not present(arguments, "variablesReference"):
            with self.adapter.debuggee.looking(self.frame(arguments)):
                return place_in_memory(gdb.parse_and_eval(name))
        holder = self.object_of("holder", number_of(arguments, "variablesReference", 0, MOST))
        self.adapter.tell_holder(holder)
        try:
            value = self.adapter.here.part(holder, name)[1].value
        except StopIteration:
            raise Refusal("debuggee", "There is no %s here." % clean(name)) from None
        with self.adapter.debuggee.looking(self.adapter.here.frame_of(holder)):
            return place_in_memory(value)

    def set_data_breakpoints(self, arguments):
        rows = rows_of(arguments, "breakpoints", "dataId")
        for row in rows:
            if present(row, "accessType") and row["accessType"] not in list(ACCESS):
                raise bad("accessType")
        if rows and self.adapter.debuggee.pid and not self.adapter.stands():
            raise Refusal("notStopped", "The program runs: where its data is watched can be said once it stands.")
        self.registers = 0
        return self.set_points(DATA, rows, self.data_point)

    def drop_data_points(self):
        """Takes away the breakpoints of data: another start of the program may use that memory otherwise. What they are then."""
        points = self.adapter.debuggee.others.get(DATA, [])
        gone = [{"id": point.id, "verified": False, "message": "The program was started again."} for point in points]
        self.adapter.debuggee.drop_others(DATA)
        return gone

    def data_point(self, row):
        found = DATA_ID.match(row["dataId"])
        if not found or not self.adapter.debuggee.pid:
            raise Refusal("debuggee", "There is no such place in memory.")
        address, size = int(found.group(1), 16), int(found.group(2))
        needed = registers_for(address, size)
        if not 0 < needed <= REGISTERS - self.registers:
            raise Refusal("debuggee", "The processor can't watch that much memory at once.")
        with in_c():
            point = Point(row, self.adapter.say_later, watched_text(address, size), type=gdb.BP_WATCHPOINT,
                          wp_class=ACCESS[row.get("accessType") or "write"])
        self.registers += needed
        return point


POINT_COMMANDS = {
    "setFunctionBreakpoints": AskedPoints.set_function_breakpoints, "dataBreakpointInfo": AskedPoints.data_breakpoint_info,
    "setDataBreakpoints": AskedPoints.set_data_breakpoints,
    "setInstructionBreakpoints": AskedPoints.set_instruction_breakpoints,
}
