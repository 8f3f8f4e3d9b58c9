"""The requests that `dap host` leaves to this adapter (docs/HOST.md): of each, what it is answered.

A function of `COMMANDS` takes the arguments and gives a body, or nothing; or it raises a `Refusal`, or a fault of gdb's. What
happens once the answer is told is in `then`. The requests that set breakpoints are in `asked_points.py`, those that say where a
thread goes on in `asked_moves.py`.
"""
import base64
import binascii
import contextlib
import re

import gdb

from arguments import HIGHEST, NUMBERS, Refusal, bad, flag_of, number_of, path_of, present, text_of
from asked_moves import MOVE_COMMANDS, AskedMoves
from asked_points import POINT_COMMANDS, AskedPoints
from lines import Ended, answer_line, failure_line
from meaning import MOST
from memory import bytes_at, instruction_said, listing, readable_part, write_bytes
from places import lines_with_code
from stops import module_of
from texts import clean
from values import FAULTS, beside, shown

MOST_BYTES = 2 ** 21  # that are read at once: as base64 they fit in a body
MOST_INSTRUCTIONS = 10000
MOST_LINES = 1000  # of which it is asked at once where breakpoints can be
WORD = re.compile(r"[\w$]*\Z")
CUT = "*** List may be truncated, max-completions reached. ***"
# What is served while the program stands still alone, beside those that `dap host` has as such.
OF_STOPS = "disassemble", "readMemory", "writeMemory", "dataBreakpointInfo", "terminateThreads"
SHOWN = "setExpression", "writeMemory", "goto", "restart", "terminateThreads"  # whose failures a client should show


class Asked(AskedPoints, AskedMoves):
    def answer(self, seq, command, arguments):
        """The line that answers a request."""
        self.then, self.adapter.watch.reason = [], ""
        try:
            return answer_line(seq, COMMANDS[command](self, arguments))
        except Ended:
            raise
        except Refusal as refusal:
            name, words = refusal.name, refusal.words
        except FAULTS as fault:
            name, words = "debuggee", "%s\n%s" % (clean(fault), self.adapter.interruption())
        return self.failure(seq, command, name, words.strip())

    def failure(self, seq, command, name, words):
        return failure_line(seq, name, NUMBERS[name], clean(words), command in SHOWN)

    # Texts and values

    def completions(self, arguments):
        """What an expression can go on with at the place of the caret: gdb's own completions of `print`."""
        text = self.up_to_caret(arguments)
        if present(arguments, "frameId") and not self.adapter.stands():
            raise Refusal("notStopped", "The program runs: frameId is of no stop.")
        if not text or text[-1].isspace():
            return {"targets": []}
        with self.adapter.debuggee.looking(self.frame(arguments)) if self.adapter.stands() else contextlib.nullcontext():
            listed = gdb.execute("complete print " + text, to_string=True)
        begin = WORD.search(text).start()
        return {"targets": [self.completion(word, text, begin) for word in words_in(listed, text[:begin])]}

    def up_to_caret(self, arguments):
        """The text in front of `column`, which counts code units of UTF-16, in its `line`."""
        lines = text_of(arguments, "text").split("\n")
        line = number_of(arguments, "line", 0, MOST, self.adapter.first_line) - self.adapter.first_line
        if not 0 <= line < len(lines):
            raise bad("line")
        units = number_of(arguments, "column", 0, MOST) - self.adapter.first_column
        whole = lines[line].encode("utf-16-le", "surrogatepass")
        if not 0 <= 2 * units <= len(whole):
            raise bad("column")
        return whole[:2 * units].decode("utf-16-le", "replace")

    def completion(self, word, text, begin):
        start = len(text[:begin].encode("utf-16-le")) // 2 + self.adapter.first_column
        return {"label": clean(word), "start": start, "length": len(text) - begin}

    def set_expression(self, arguments):
        expression, value, where = text_of(arguments, "expression"), text_of(arguments, "value"), self.frame(arguments)
        with self.adapter.debuggee.looking(where):
            gdb.parse_and_eval("(%s) = (%s)" % (expression, value))
            found = gdb.parse_and_eval(expression)
            body = {"value": shown(found), **beside(found, self.adapter.wants_types).get("more", {})}
        body.pop("memoryReference", None)  # the answer has no such member
        self.has_changed()
        return body

    def exception_info(self, arguments):
        """The signal that a thread received."""
        thread = number_of(arguments, "threadId", -MOST, MOST)
        reason, more = self.adapter.reason
        if reason != "exception" or thread != self.adapter.here.thread_of_moment:
            raise Refusal("debuggee", "Thread %d received no signal." % thread)
        name = more["text"]
        with self.adapter.debuggee.looking((thread, 0)):
            message, stack = description_of(name), gdb.execute("backtrace 50", to_string=True)
        details = {"message": message, "typeName": name, "evaluateName": "$_siginfo", "stackTrace": clean(stack)}
        return {"exceptionId": name, "description": message, "breakMode": "always", "details": details}

    # Memory

    def read_memory(self, arguments):
        address, count = self.address(arguments), number_of(arguments, "count", 0, MOST_BYTES)
        fine, gap = readable_part(address, min(count, HIGHEST - address))
        data = {"data": base64.b64encode(bytes_at(address, fine)).decode()} if fine else {}
        return {"address": hex(address), **data, **({"unreadableBytes": gap} if gap else {})}

    def write_memory(self, arguments):
        address, partly = self.address(arguments), flag_of(arguments, "allowPartial")
        try:
            data = base64.b64decode(text_of(arguments, "data"), validate=True)
        except (binascii.Error, ValueError):
            raise bad("data") from None
        fine, _ = readable_part(address, len(data))
        if fine < len(data) and not (partly and fine):
            raise Refusal("debuggee", "Cannot access memory at address %#x" % (address + fine))
        if fine:
            write_bytes(address, data[:fine])
        self.has_changed()
        if self.adapter.says_of("supportsMemoryEvent"):
            where = {"memoryReference": arguments["memoryReference"], "offset": arguments.get("offset") or 0, "count": fine}
            self.then.append(lambda: self.adapter.tell_event("memory", **where))
        return {"bytesWritten": fine, **({"offset": 0} if partly else {})}

    def disassemble(self, arguments):
        skipped = number_of(arguments, "instructionOffset", -MOST_INSTRUCTIONS, MOST_INSTRUCTIONS, 0)
        count = number_of(arguments, "instructionCount", 0, MOST_INSTRUCTIONS)
        flag_of(arguments, "resolveSymbols")
        instructions, path = [], None
        for one in listing(self.address(arguments), skipped, count):
            said, path = instruction_said(one, path, self.line)
            instructions.append(said)
        return {"instructions": instructions}

    # Code

    def modules(self, arguments):
        first = number_of(arguments, "startModule", 0, MOST, 0)
        count = number_of(arguments, "moduleCount", 0, MOST, 0) or MOST
        found = {module["id"]: module for module in map(module_of, gdb.objfiles()) if module}
        return {"modules": list(found.values())[first:first + count], "totalModules": len(found)}

    def breakpoint_locations(self, arguments):
        path, first = path_of(arguments), self.gdb_line(arguments, "line")
        last = self.gdb_line(arguments, "endLine") if present(arguments, "endLine") else first
        if not first <= last < first + MOST_LINES:
            raise bad("endLine")
        return {"breakpoints": [{"line": self.line(line)} for line in lines_with_code(path, first, last)]}


def words_in(listed, before):
    """What gdb's list of completions has behind this text, each once."""
    begin = "print " + before
    return list(dict.fromkeys(line[len(begin):] for line in listed.splitlines()
                              if line.startswith(begin) and len(line) > len(begin) and not line.endswith(CUT)))


def description_of(name):
    """gdb's own words for a signal, and the address of the fault where it has one."""
    words = gdb.execute("info signals " + name, to_string=True).splitlines()[-1].split("\t")[-1]
    if name in ("SIGSEGV", "SIGBUS"):
        try:
            words += " at address %#x" % int(gdb.parse_and_eval("(unsigned long) $_siginfo._sifields._sigfault.si_addr"))
        except (gdb.error, RuntimeError):  # gdb does not know it
            pass
    return clean(words)


COMMANDS = {
    "completions": Asked.completions, "exceptionInfo": Asked.exception_info, "setExpression": Asked.set_expression,
    "disassemble": Asked.disassemble, "readMemory": Asked.read_memory, "writeMemory": Asked.write_memory,
    "modules": Asked.modules, "breakpointLocations": Asked.breakpoint_locations, **POINT_COMMANDS, **MOVE_COMMANDS,
}
# As `dap host` wants them: those that are served while the program stands still alone, and the others.
OPENED = [{"name": name, "inStops": True} if name in OF_STOPS else name for name in COMMANDS]
