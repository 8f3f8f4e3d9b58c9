"""`bench/run --check`: counts tasks of a small, fixed size, and how some costs grow, and compares them with `limits`.

A line of `limits` is a name, the most that it may be or `-`, and what it is for the reader. The name of a growth with `:growth`
behind it is what it is at 4n to what it is at n; that of a task with `:to:` and another is the ratio of both. Blank lines and those after `#` are for the reader too.
"""
import os

import counting
import files
from counting import plainly
from files import Missing

BYTES, TAKEN_BYTES, REQUESTS, STOPPED, STOPS = 2000000, 4000000, 20000, 2000, 300

# Tasks that are compared with another too.
RATIOS = {"host_stops": "serve_stops", "host_stops_later": "serve_stops"}


def limits():
    """Each name with the most that it may be, or none."""
    with open(os.path.join(files.HERE, "limits")) as file:
        lines = [line.split() for line in file if line.strip() and not line.startswith("#")]
    return {name: None if most == "-" else float(most.replace("_", "")) for name, most, *_ in lines}


class Task:
    """A run of a program: what comes behind its path, in which a pair is an input of a kind and a size, and the standard
    input, which may be a pair too."""

    def __init__(self, program, *words, given=None):
        self.program = program
        self.words = words
        self.given = given

    def instructions(self):
        path, _ = files.program_path(self.program)
        words = [word if isinstance(word, str) else files.make_input(*word) for word in self.words]
        return counting.instructions([path, *words], files.make_input(*self.given) if self.given else os.devnull)


def tasks():
    """Each with its name."""
    for kind in ("large", "small"):
        yield "show_" + kind, Task("dap", "show", (kind, BYTES))
    for kind in ("large", "small"):
        yield "frames_" + kind, Task("bench_frames", (kind, BYTES))
    for kind in ("large", "small"):
        yield "frames_c_" + kind, Task("frames_c", (kind, BYTES))
    for kind, size in (("requests", REQUESTS), ("stopped", STOPPED)):
        yield "serve_" + kind, Task("dap", "serve", files.recording_for(kind), given=(kind, size))
    for kind in ("client_mixed", "client_events"):
        yield kind, Task("bench_client", (kind + "_requests", TAKEN_BYTES), (kind, TAKEN_BYTES))
    for kind in ("transcript", "transcript_small"):
        yield "check_" + kind, Task("dap", "check", (kind, TAKEN_BYTES))
    yield "check_bodies", Task("dap", "check", "--all", "--bodies", ("transcript", TAKEN_BYTES))
    yield "serve_stops", Task("dap", "serve", ("stops_recording", STOPS), given=("stops", STOPS))
    for kind in ("host_stops", "host_stops_later"):
        yield kind, Task("dap", "host", ("stops_sources", 1), given=(kind, STOPS))
    yield "host_stops_beside", Task("dap", "host", ("stops_sources", 1000), given=("host_stops", STOPS))


class Report:
    """Prints a line for each, and counts them."""

    def __init__(self):
        self.limits = limits()
        self.counts = {"ok": 0, "FAILED": 0, "no limit": 0, "left out": 0}

    def line(self, how, name, told):
        self.counts[how] += 1
        print("%-8s %-27s %s" % (how, name, told), flush=True)

    def compare(self, name, number):
        if name not in self.limits:
            self.line("FAILED", name, "%s, and it has no line in `limits`" % plainly(number))
            return
        most = self.limits[name]
        if most is None:
            self.line("no limit", name, plainly(number))
        else:
            how = "ok" if number <= most else "FAILED"
            self.line(how, name, "%s, at most %s" % (plainly(number), plainly(most)))

    def counted(self, name, count):
        """What is counted, or none where that fails or something is missing."""
        try:
            return count()
        except Missing as why:
            self.line("left out", name, why)
        except counting.Failed as why:
            self.line("FAILED", name, why)
        return None


def check_growth(report):
    for rows, count, n in counting.GROWTH:
        names = [name for name, _ in rows]
        sizes = report.counted(names[0], lambda: [list(count(files.program_path("dap")[0], m)) for m in (n, 4 * n)])
        for name, few, many in zip(names, *(sizes or [[], []])):
            report.compare(name, many)
            report.compare(name + ":growth", many / few)


def main():
    """The status."""
    report = Report()
    numbers = {}
    for name, task in tasks():
        number = report.counted(name, task.instructions)
        if number is not None:
            numbers[name] = number
            report.compare(name, number)
    for name, other in RATIOS.items():
        if name in numbers and other in numbers:
            report.compare("%s:to:%s" % (name, other), numbers[name] / numbers[other])
    check_growth(report)
    print(", ".join("%d %s" % (count, how) for how, count in report.counts.items()))
    return 1 if report.counts["FAILED"] else 0
