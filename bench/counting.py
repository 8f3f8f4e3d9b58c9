"""What is counted and not timed, so that it is the same on a busy machine: instructions, by valgrind, and the peak of memory.
And four costs of `dap serve` that stay within a bound as a recording grows, each counted at n, 2n and 4n.

A program is a path. What fails raises `Failed`; what is not there, `files.Missing`.
"""
import ctypes
import json
import os
import re
import shutil
import subprocess
import tempfile

from files import Missing

VALGRIND = ("valgrind", "--tool=callgrind", "--callgrind-out-file=/dev/null")
THREAD = {"threadId": 1}
PAGE = 100  # variables
TIMES = 10  # how often a small request is asked, so that what is done once weighs less


class Failed(Exception):
    """A program that ends otherwise than it should."""


def first_line(text):
    return (text.decode("utf-8", "replace").strip().splitlines() or ["it says nothing"])[0]


def plainly(number):
    """A count of instructions in groups of three digits, and what is small with two places."""
    return format(round(number), ",d").replace(",", "_") if number >= 1000 else "%.2f" % number


def instructions(words, file=os.devnull):
    """How many instructions a run takes from start to end, with a file as standard input."""
    if shutil.which(VALGRIND[0]) is None:
        raise Missing("there is no valgrind")
    with open(file, "rb") as given:
        done = subprocess.run([*VALGRIND, *words], stdin=given, stdout=subprocess.PIPE, stderr=subprocess.PIPE)
    if done.returncode == 2:
        raise Missing("%s does not know `%s`" % (words[0], " ".join(words[1:])))
    counted = re.search(rb"Collected : (\d+)", done.stderr)
    if done.returncode != 0 or not counted:
        told = re.sub(rb"(?m)^==.*\n?", b"", done.stderr) or done.stdout
        raise Failed("status %d: %s" % (done.returncode, first_line(told)[:200]))
    return int(counted.group(1))


def adopt_orphans():
    """Makes this process the parent of a process whose own parent has ended."""
    set_child_subreaper = 36
    libc = ctypes.CDLL(None, use_errno=True)
    if libc.prctl(set_child_subreaper, 1, 0, 0, 0) != 0:
        raise OSError(ctypes.get_errno(), "prctl")


def peak(words, file=None):
    """The greatest resident size of a run in bytes, with a file as standard input where one is given.

    Linux counts it from before the program replaces the process that started it, so a start from here would never
    tell less than Python's own size. The start is from a shell, which is small and ends at once; the program then
    is a child of this process.
    """
    adopt_orphans()
    line = ["sh", "-c", '"$@" <"$0" >/dev/null 2>&1 &', file or os.devnull, *words]
    shell = os.posix_spawn("/bin/sh", line, os.environ)
    size = 0
    for _ in range(2):
        child, status, usage = os.wait4(-1, 0)
        if status != 0:
            raise Failed("`%s` fails" % " ".join(words))
        if child != shell:
            size = usage.ru_maxrss * 1024
    return size


# ---- Recordings and sessions -------------------------------------------------------------------------------


def moment(frame):
    return {"thread": 1, "threads": [{"id": 1, "name": "main", "frames": [{"name": "main", "source": 0, "line": 1, **frame}]}]}


def scope_of(names):
    return [{"name": "Locals", "variables": [{"name": name, "value": "1"} for name in names]}]


def source(number, lines=1):
    name = "source%d.c" % number
    return {"name": name, "path": "/" + name, "text": "one\n" * lines}


def recording(sources, moments):
    return {"exit": 0, "sources": sources, "moments": moments}


def stream(asked):
    """What a client sends: commands with their arguments."""
    made = b""
    for seq, (command, arguments) in enumerate(asked, 1):
        message = {"seq": seq, "type": "request", "command": command, "arguments": arguments}
        body = json.dumps(message, separators=(",", ":")).encode()
        made += b"Content-Length: %d\r\n\r\n%s" % (len(body), body)
    return made


INITIALIZED = [("initialize", {"adapterID": "bench", "supportsVariablePaging": True})]
STARTED = [("launch", {}), ("configurationDone", {})]


class Folder:
    """A folder for a recording and the requests to its server."""

    def __init__(self, program, told):
        self.program = program
        self.told = told

    def __enter__(self):
        self.folder = tempfile.TemporaryDirectory()
        self.recording = os.path.join(self.folder.name, "recording.json")
        with open(self.recording, "w") as file:
            json.dump(self.told, file, separators=(",", ":"))
        return self

    def __exit__(self, *_):
        self.folder.cleanup()

    def served(self, asked, *options):
        """The instructions of a server that is asked this."""
        path = os.path.join(self.folder.name, "requests.dap")
        with open(path, "wb") as file:
            file.write(stream(asked))
        return instructions([self.program, "serve", self.recording, *options], path)


def numbers(n):
    """So many numbers with as many digits each, so that what is made of them has one length."""
    return range(10 ** 6, 10 ** 6 + n)


def of_variables(n):
    """A scope of n variables."""
    return recording([source(0)], [moment({"scopes": scope_of("v%d" % number for number in numbers(n))})])


def of_sources(n):
    """The frame's source is the one in the middle."""
    return recording([source(number) for number in numbers(n)], [moment({"source": n // 2})])


def of_moments(n):
    """Each has a frame and a variable."""
    return recording([source(0, 1000)], [moment({"line": k % 1000 + 1, "scopes": scope_of(["v%d" % k])}) for k in range(n)])


def pages(program, n):
    """The instructions of a page of variables: the first, one in the middle, and the last."""
    looked = [*INITIALIZED, *STARTED, ("stackTrace", THREAD), ("scopes", {"frameId": 1})]
    with Folder(program, of_variables(n)) as folder:
        without = folder.served(looked)
        for start in (0, n // 2, n - PAGE):
            page = ("variables", {"variablesReference": 2, "start": start, "count": PAGE})
            yield (folder.served(looked + [page] * TIMES) - without) / TIMES


def frame_beside_sources(program, n):
    """The instructions of a stack of one frame."""
    stopped = [*INITIALIZED, *STARTED]
    with Folder(program, of_sources(n)) as folder:
        yield (folder.served(stopped + [("stackTrace", THREAD)] * TIMES) - folder.served(stopped)) / TIMES


def moments_passed_by(program, n):
    """The instructions for a moment of a `continue` over n moments to the end, with n lines set, none of which is reached:
    those that are set are even, and the moments are at odd ones."""
    far = 7919  # a prime, so that neighbours are far from each other
    moments = [moment({"line": 2 * (k * far % n) + 1}) for k in range(n)]
    lines = [{"line": 2 * k + 2} for k in range(n)]
    stopped = [*INITIALIZED, ("setBreakpoints", {"source": {"path": "/source0.c"}, "breakpoints": lines}), *STARTED]
    options = ("--max-breakpoints", str(n))
    with Folder(program, recording([source(0, 2 * n)], moments)) as folder:
        yield (folder.served(stopped + [("continue", THREAD)], *options) - folder.served(stopped, *options)) / n


def memory_of(made):
    """What gives how many bytes the peak of memory has for a byte of such a recording."""
    def count(program, n):
        with Folder(program, made(n)) as folder:
            yield peak([program, "serve", folder.recording]) / os.path.getsize(folder.recording)
    return count


# What each gives, with a name for `limits`; what counts it; n, so that 4n is within the limits.
GROWTH = (
    ((("page_first", "the first 100 variables of n in a scope, instructions"),
      ("page_middle", "100 in the middle of n, instructions"),
      ("page_last", "the last 100 of n, instructions")), pages, 17500),
    ((("frame_beside_sources", "a frame of a stack beside n sources, instructions"),), frame_beside_sources, 16384),
    ((("moment_passed_by", "`continue` past n moments with n lines set in one source, instructions a moment"),),
     moments_passed_by, 4096),
    ((("memory_of_moments", "memory, for a byte of a recording of n moments"),), memory_of(of_moments), 25000),
    ((("memory_of_variables", "of one moment with n variables"),), memory_of(of_variables), 17500),
    ((("memory_of_sources", "of n sources"),), memory_of(of_sources), 16384),
)
