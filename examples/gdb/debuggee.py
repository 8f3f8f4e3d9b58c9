"""The program that is debugged, by gdb's commands: how it is started, stopped and ended, its breakpoints, what a text comes to.

It knows gdb and the system's processes. It knows nothing of `dap host` or of the client.
"""
import contextlib
import ctypes
import itertools
import os
import re
import signal
import threading
import time

import gdb

from points import Point, place_of
from texts import clean

TICK = 0.1  # seconds
# The signals at which a client can choose to stop: those of a fault, and others that programs send.
SIGNALS = ("SIGSEGV", "SIGABRT", "SIGFPE", "SIGBUS", "SIGILL", "SIGSYS", "SIGPIPE", "SIGHUP", "SIGTERM", "SIGQUIT", "SIGUSR1", "SIGUSR2")
LIBC = ctypes.CDLL(None)


def quoted(path):
    """A path as one word of a command of gdb."""
    return re.sub(r"([^\w/.-])", r"\\\1", path)


def fault_of(command):
    """Why gdb does not do a command, in its own words; nothing where it does."""
    try:
        gdb.execute(command.replace("\n", " "), to_string=True)
        return ""
    except gdb.error as fault:
        return clean(fault) + "\n"


def arguments_of_gdb():
    """The program's arguments, as gdb's own command line or a start has them: `gdb.parameter` does not know them."""
    return re.search(r'is "(.*)"\.\n\Z', gdb.execute("show args", to_string=True), re.DOTALL).group(1)


def load(path):
    """Why gdb can't load a program, if so."""
    return fault_of("file " + quoted(path))


def select(thread, level):
    gdb.execute("thread %d" % thread, to_string=True)
    gdb.execute("frame %d" % level, to_string=True)


def resume(command, thread):
    """Why a thread can't go on so, if so. One that has no caller goes on to its end."""
    try:
        select(thread, 0)
        if command == "finish" and not gdb.selected_frame().older():
            command = "continue"
    except gdb.error as fault:
        return clean(fault) + "\n"
    return fault_of(command + "&")


def state_of(pid, task):
    """The letter of proc(5) for a thread; X where it is gone."""
    try:
        with open("/proc/%d/task/%s/stat" % (pid, task)) as file:
            return file.read().rpartition(") ")[2][0]
    except OSError:
        return "X"


def is_dead(pid):
    """Whether none of the threads of a process is alive."""
    try:
        return all(state_of(pid, task) in "ZX" for task in os.listdir("/proc/%d/task" % pid))
    except OSError:
        return True


def interrupt_python(*fault):
    """Raises a fault in gdb's own Python, wherever that is; without one, takes back a fault that was not raised yet."""
    thread = ctypes.c_ulong(threading.main_thread().ident)
    ctypes.pythonapi.PyThreadState_SetAsyncExc(thread, *(map(ctypes.py_object, fault) if fault else [None]))


def is_hit(point, numbers):
    """Whether a breakpoint of the client's is among these of gdb's, and stopped the program: others may be at its place."""
    return point.number in numbers and point.is_hit


class Watch:
    """A thread that looks after the program while gdb's thread can't. It calls nothing of gdb's."""

    def __init__(self, seconds, tell_death):
        self.seconds, self.tell_death = seconds, tell_death
        self.standing = None  # the process that stands still, as far as gdb knows
        self.called = None  # the process and the thread of it that an evaluation may let run
        self.reason = ""  # why that was interrupted

    @contextlib.contextmanager
    def over(self, process, thread):
        """Within it, what gdb evaluates is interrupted after some seconds."""
        self.reason, self.deadline, self.number = "", time.monotonic() + self.seconds, signal.SIGINT
        self.called = process, thread
        try:
            yield
        finally:
            self.called = None
            interrupt_python()

    def interrupt(self, reason):
        """Interrupts what gdb evaluates, if it does."""
        if self.called and not self.reason:
            self.reason, self.deadline = reason, 0

    def run(self):
        while True:
            time.sleep(TICK)
            called, standing = self.called, self.standing
            if called and time.monotonic() > self.deadline:
                self.stop(*called)
            elif standing and not called and is_dead(standing):
                self.standing = None
                self.tell_death()

    def stop(self, process, thread):
        """Stops the function that was called, or gdb's own Python. One that blocks SIGINT gets SIGSTOP a second later."""
        self.reason = self.reason or "it took more than %g second%s" % (self.seconds, "s" * (self.seconds != 1))
        if state_of(process, thread) in "tZX":
            interrupt_python(KeyboardInterrupt)
        else:
            LIBC.tgkill(process, thread, self.number)
            self.number = signal.SIGSTOP
        self.deadline = time.monotonic() + 1


class Debuggee:
    def __init__(self, watch):
        self.watch, self.attached = watch, False
        self.first_arguments, self.names_set = None, []  # those of gdb's own command line; of the environment, by the last start
        self.points = {}  # of each path, its breakpoints
        self.others = {}  # of each reason of a stop but `breakpoint`, those that stop so
        self.pending = []  # those of `others` whose code was not loaded yet
        self.waiting = {}  # of each breakpoint whose code was not loaded yet, its source and line

    @property
    def pid(self):
        return gdb.selected_inferior().pid

    # Beginning and end

    def start(self, arguments, folder, environment, stops):
        """Starts the program: why it can't be, if so. What an earlier start had set counts no more."""
        if self.first_arguments is None:
            self.first_arguments = arguments_of_gdb()
        for name, value in {**{name: os.environ.get(name) for name in self.names_set}, **environment}.items():
            fault_of("unset environment " + name if value is None else "set environment %s=%s" % (name, value))
        self.names_set = list(environment)
        fault_of("set args " + (self.first_arguments if arguments is None else arguments))
        if folder is not None and not os.path.isdir(folder):
            return "%s: No such directory.\n" % clean(folder)
        fault_of("set cwd " + (folder or ""))
        for point in self.all_points():
            point.hits = 0
        if not stops:
            return fault_of("run&")
        return fault_of("start&") and fault_of("starti&")  # it may have no `main`

    def attach(self, pid):
        self.attached = True
        return fault_of("attach %d&" % pid)

    def leave(self, kills):
        """Ends the program, with its process group, or lets go of one that ran before."""
        pid = self.pid
        if not pid:
            return
        if self.attached and not kills:
            fault_of("detach")
            return
        try:
            own = os.getpgid(pid) == pid and not self.attached
            (os.killpg if own else os.kill)(pid, signal.SIGKILL)
        except OSError:  # it is gone
            pass

    def kill(self):
        """Kills the program: gdb tells its exit, also where it stands still."""
        self.leave(True)
        thread = gdb.selected_thread()
        if self.pid and not (thread and thread.is_running()):
            fault_of("kill")

    # Breakpoints

    def set_points(self, path, lines, wanted, say):
        """These lines replace all others of a source. Of each line it is known what the client wants there; what a breakpoint says
        is handed to `say`, with its category."""
        for point in self.points.pop(path, []):
            self.waiting.pop(point, None)
            point.delete()
        self.points[path] = [Point(wanted.get(line, {}), say, source=path, line=line) for line in lines]
        self.waiting.update((point, (path, line)) for point, line in zip(self.points[path], lines) if point.pending)

    def lines_of(self, numbers):
        """The source and the line of each of these breakpoints of gdb's that was hit, as they were set."""
        return [(path, point.line_set) for path, points in self.points.items() for point in points if is_hit(point, numbers)]

    def drop_others(self, reason):
        """Takes away all breakpoints that stop for this reason."""
        for point in self.others.pop(reason, []):
            point.delete()

    def add_other(self, reason, point):
        self.others.setdefault(reason, []).append(point)
        if point.pending:
            self.pending.append(point)

    def others_found(self):
        """Of the breakpoints of `others` that waited for their code those for which it is loaded now."""
        self.pending, before = [point for point in self.pending if point.is_valid() and point.pending], self.pending
        return [point for point in before if point.is_valid() and not point.pending]

    def others_hit(self, numbers):
        """Of these breakpoints of gdb's those of no line that were hit, each with its reason."""
        return [(reason, point) for reason, points in self.others.items() for point in points if is_hit(point, numbers)]

    def stop_at_signals(self, names):
        """Stops at these signals, of those that a client can choose, and at no other of them."""
        for name in SIGNALS:
            fault_of("handle %s %s pass" % (name, "stop print" if name in names else "nostop noprint"))

    def stop_of(self, number, address):
        """A breakpoint that stops this thread alone."""
        point = gdb.Breakpoint("*%#x" % address, internal=True)
        point.thread = next((thread.global_num for thread in gdb.selected_inferior().threads() if thread.num == number), None)
        return point

    def points_found(self):
        """The breakpoints that waited for their code, which is loaded now: of each its source, its line, and where it is."""
        found = [point for point in self.waiting if not point.pending]
        return [(*self.waiting.pop(point), place_of(point)) for point in found]

    def all_points(self):
        return itertools.chain(*self.points.values(), *self.others.values())

    @contextlib.contextmanager
    def looking(self, where):
        """Looks at a frame: a function that is called there has to come to its end, and soon."""
        points = [point for point in self.all_points() if point.enabled]
        for point in points:
            point.enabled = False
        try:
            select(*where)
            with self.watch.over(*gdb.selected_thread().ptid[:2]):
                yield
        finally:
            for point in points:
                if point.is_valid():
                    point.enabled = True
