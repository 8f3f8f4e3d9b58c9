"""Memory, and the instructions that are in it, by their addresses.

It knows gdb's memory and symbols. It knows nothing of `dap host` or of the client.
"""
import os
import re

import gdb

from arguments import HIGHEST
from texts import clean

MOST_PADDING = 64  # bytes between one function and the next
PAGE = 4096  # bytes: what can't be read ends where one does
SYMBOL = re.compile(r"(.*?)(?: \+ (\d+))? in section ")
UNKNOWN = "(no instruction)"  # in place of one that can't be read


# Bytes


def can_read(address, count):
    try:
        gdb.selected_inferior().read_memory(address, count)
        return True
    except (gdb.error, OverflowError):
        return False


def pieces_of(address, count):
    """The parts of this memory, each within one page: address and count."""
    end = address + count
    while address < end:
        next_page = min((address // PAGE + 1) * PAGE, end)
        yield address, next_page - address
        address = next_page


def readable_part(address, count):
    """How many bytes can be read from there on, and how many behind them can't."""
    fine = gap = 0
    for begin, size in pieces_of(address, count):
        if not can_read(begin, size):
            gap += size
        elif gap:
            break
        else:
            fine += size
    return fine, gap


def bytes_at(address, count):
    return bytes(gdb.selected_inferior().read_memory(address, count)) if count else b""


def write_bytes(address, data):
    gdb.selected_inferior().write_memory(address, data)


# Instructions


def symbol_at(address):
    """The name of the symbol that an address is in, and how far behind its begin; none where there is none."""
    found = SYMBOL.match(gdb.execute("info symbol %#x" % address, to_string=True))
    return (found.group(1), int(found.group(2) or 0)) if found else (None, 0)


def instruction_at(address):
    """The instruction at an address; none where it can't be read."""
    try:
        return gdb.selected_inferior().architecture().disassemble(address)[0] if 0 <= address <= HIGHEST else None
    except (gdb.error, OverflowError):
        return None


def instructions_from(address, count):
    """So many instructions from there on, or those up to one that can't be read."""
    found = []
    while len(found) < count:
        one = instruction_at(address)
        if not one:
            break
        found.append(one)
        address += one["length"]
    return found


def instructions_between(begin, end):
    """The instructions from one address to another; what reaches over the end is none."""
    found = []
    while begin < end:
        one = instruction_at(begin)
        if not one or begin + one["length"] > end:
            break
        found.append(one)
        begin += one["length"]
    return found


def begin_before(address):
    """Where the symbol begins that is before an address, perhaps behind some padding; none where there is none."""
    for back in range(1, MOST_PADDING + 1):
        name, offset = symbol_at(address - back) if back <= address else (None, 0)
        if name is not None:
            return address - back - offset
    return None


def instructions_before(address, count):
    """The last instructions before an address, at most so many. Where one begins is known by the symbols."""
    found = []
    while len(found) < count:
        begin = begin_before(address)
        if begin is None:
            break
        found = instructions_between(begin, address) + found
        address = begin
    return found[-count:] if count else []


def listing(address, skipped, count):
    """Exactly so many instructions; the first is so many behind the one at the address, or before it. One without a length is
    none: it stands where nothing can be read."""
    before = max(-skipped, 0)
    found = instructions_before(address, before)
    behind = instructions_from(address, max(skipped + count, 0))
    first = found[0]["addr"] if found else address
    missing = [nothing_at(max(first - n, 0)) for n in range(before - len(found), 0, -1)]
    found = (missing + found + behind)[max(skipped, 0):][:count]
    end = found[-1]["addr"] + found[-1].get("length", 1) if found else address
    return found + [nothing_at(min(end + n, HIGHEST)) for n in range(count - len(found))]


def nothing_at(address):
    return {"addr": address, "asm": UNKNOWN}


def source_at(address):
    """The path and the line that an address comes from; neither where there is none."""
    sal = gdb.find_pc_line(address)
    path = sal.symtab and sal.symtab.fullname()
    return (path, sal.line) if path and sal.line >= 1 and os.path.isfile(path) else (None, None)


def instruction_said(one, path_before, line_of):
    """An instruction as the protocol has it, and the path of its source. Lines are given to the client by the call."""
    address = one["addr"]
    said = {"address": hex(address), "instruction": clean(one["asm"])}
    if "length" not in one:
        return said, path_before
    said["instructionBytes"] = bytes_at(address, one["length"]).hex(" ")
    name, offset = symbol_at(address)
    if name and not offset:
        said["symbol"] = clean(name)
    path, line = source_at(address)
    if path:
        said["line"] = line_of(line)
        if path != path_before:
            said["location"] = source_said(path)
    return said, path or path_before


def source_said(path):
    return {"name": clean(os.path.basename(path)), "path": clean(path)}
