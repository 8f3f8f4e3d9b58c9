"""The requests that say where a thread goes on, and those that end threads or start the program again. Of each, what it is answered.
`asked.py` has the other requests.
"""
import contextlib
import os

import gdb

from arguments import Refusal, bad, number_of, of_kind, path_of, present
from debuggee import fault_of, select
from launch import Launch
from meaning import MOST, Meaning
from places import function_at, goto_places, step_in_places
from stops import thread_numbers

NOT_RUNNING = "There is no program to start again."


class AskedMoves(Meaning):
    # Places to go to

    def step_in_targets(self, arguments):
        number_of(arguments, "frameId", 0, MOST)
        thread, level = self.frame(arguments)
        with self.adapter.debuggee.looking((thread, level)):
            places = [] if level else step_in_places(gdb.selected_frame())  # gdb steps in the newest frame alone
        return {"targets": [{"id": number, "label": place.label} for number, place in self.numbers_of(places)]}

    def goto_targets(self, arguments):
        path, line = path_of(arguments), self.gdb_line(arguments, "line")
        return {"targets": [{"id": number, "label": place.label, "line": self.line(place.line),
                             "instructionPointerReference": hex(place.address)}
                            for number, place in self.numbers_of(goto_places(path, line))]}

    # What goes on by itself

    def goto(self, arguments):
        """The thread stands at another place of its function: nothing of it runs meanwhile."""
        thread, place = number_of(arguments, "threadId", -MOST, MOST), self.target(arguments)
        if thread not in {one["id"] for one in self.adapter.here.moment["threads"]}:
            raise Refusal("unknownThread", "There is no thread %d." % thread)
        with self.adapter.debuggee.looking((thread, 0)):
            if function_at(gdb.selected_frame().pc())[1] != function_at(place.address)[1]:
                raise Refusal("debuggee", "Thread %d is in another function than line %d." % (thread, self.line(place.line)))
            gdb.execute("set var $pc = %#x" % place.address)
        self.then.append(lambda: self.adapter.tell_jump(thread))

    def restart(self, arguments):
        """The program is killed, and started again."""
        if not self.adapter.is_started():
            raise Refusal("debuggee", NOT_RUNNING)
        if self.adapter.debuggee.attached:
            raise Refusal("debuggee", "A process that was attached to can't be started again.")
        launch = self.adapter.launch
        if present(arguments, "arguments"):
            launch = Launch(of_kind(arguments, "arguments", dict))
            if is_another(launch.program):
                raise Refusal("debuggee", "Another program can't be started: end this session first.")
        self.then.append(lambda: self.adapter.start_again(launch))

    def terminate_threads(self, arguments):
        """Each thread calls `pthread_exit`, while the others stand still."""
        numbers = of_kind(arguments, "threadIds", list)
        if any(not isinstance(number, int) or isinstance(number, bool) for number in numbers):
            raise bad("threadIds")
        threads = {thread.num: thread for thread in gdb.selected_inferior().threads()}
        for number in numbers:
            self.check_ends(number, threads.get(number))
        self.then += [self.adapter.tell_threads_again] if numbers else []
        for number in dict.fromkeys(numbers):
            self.end_thread(number, threads[number])

    def check_ends(self, number, thread):
        if not thread:
            raise Refusal("unknownThread", "There is no thread %d." % number)
        if thread.ptid[0] == thread.ptid[1]:
            raise Refusal("debuggee", "Thread %d is the first one: it ends with the program." % number)

    def end_thread(self, number, thread):
        with self.adapter.debuggee.looking((number, 0)), others_stand():
            fault = fault_of("call (void) pthread_exit(0)")
            for other in sorted(thread_numbers())[:1]:
                select(other, 0)  # what comes next wants one that is there
        if thread.is_valid():
            raise Refusal("debuggee", "Thread %d has not ended. %s" % (number, fault))


@contextlib.contextmanager
def others_stand():
    """Within it no other thread runs."""
    gdb.execute("set scheduler-locking on")
    try:
        yield
    finally:
        gdb.execute("set scheduler-locking replay")


def is_another(program):
    """Whether it is another program than the one that is loaded."""
    loaded = gdb.current_progspace().filename
    return program is not None and os.path.realpath(program) != os.path.realpath(loaded or "")


MOVE_COMMANDS = {
    "stepInTargets": AskedMoves.step_in_targets, "gotoTargets": AskedMoves.goto_targets, "goto": AskedMoves.goto,
    "restart": AskedMoves.restart, "terminateThreads": AskedMoves.terminate_threads,
}
