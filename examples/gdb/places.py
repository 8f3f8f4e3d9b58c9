"""Places in the code: the lines that have some, where a thread can go on, and what it can step into.

It knows gdb's line tables and functions. It knows nothing of `dap host` or of the client.
"""
import collections
import re

import gdb

from memory import instruction_at
from points import locations_of
from texts import clean

CALL = re.compile(r"(?:call|callq|bl)\s+(0x[0-9a-f]+)")

# A place to go to: what it is called, its line and its address.
Place = collections.namedtuple("Place", "label line address")


def function_at(address):
    """The function that an address is in, and where it begins and ends; none without debug information."""
    block = gdb.block_for_pc(address)
    while block and not block.function:
        block = block.superblock
    return (block.function, block.start, block.end) if block else (None, 0, 0)


def lines_with_code(path, first, last):
    """The lines from first to last where gdb puts a breakpoint just there."""
    tables = [gdb.find_pc_line(where.address).symtab for where in locations_of(path, first)]
    found = {line for table in tables if table for line in table.linetable().source_lines()}
    return [line for line in sorted(found) if first <= line <= last and is_place(path, line)]


def is_place(path, line):
    return any(where.line == line for where in locations_of(path, line))


def goto_places(path, line):
    """Where gdb goes on for a line: one place for each function that it is in."""
    return [Place("%s at line %d" % (clean(where.function), where.line), where.line, where.address)
            for where in locations_of(path, line) if where.line and where.function]


def step_in_places(frame):
    """The functions that the rest of the frame's line calls by their names, each once, in their order. Those without debug
    information are none: gdb steps over them."""
    found, line, address = {}, frame.find_sal().line, frame.pc()
    end = function_at(address)[2]
    while address < end:
        one = instruction_at(address)
        if not one:
            break
        call = CALL.match(one["asm"])
        target = int(call.group(1), 16) if call and gdb.find_pc_line(address).line == line else 0
        function, begin, _ = function_at(target) if target else (None, 0, 0)
        if function and begin == target:
            found.setdefault(target, Place(clean(function.print_name), function.line, body_of(target)))
        address += one["length"]
    return list(found.values())


def body_of(address):
    """The address of a function's second line in its code, where what it was called with can be looked at; else its own."""
    _, begin, end = function_at(address)
    table = gdb.find_pc_line(begin).symtab.linetable()
    behind = sorted(entry.pc for entry in table if begin < entry.pc < end)
    return behind[0] if behind else begin
