"""The arguments of `launch` and `attach`: which there are, what each means, and what is wrong with them.

It knows what a client writes, and no gdb.
"""
import os
import shlex

from texts import clean

KNOWN = {"program", "args", "cwd", "env", "stopOnEntry", "stopAtEntry", "console", "pid"}
# What editors write for themselves, and hand on all the same; also each name that begins with two underscores.
EDITORS = {"name", "type", "request", "preLaunchTask", "postDebugTask", "presentation", "internalConsoleOptions", "debugServer",
           "serverReadyAction", "restart", "suppressMultipleSessionWarning"}


def is_text(value):
    return isinstance(value, str) and "\0" not in value and "\n" not in value


def program_of_gdb():
    """The program that gdb's own command line names."""
    with open("/proc/self/cmdline", "rb") as file:
        words = [os.fsdecode(word) for word in file.read().split(b"\0")[:-1]]
    return words[words.index("--args") + 1] if "--args" in words else None


class Launch:
    def __init__(self, arguments, attaches=False):
        self.arguments, self.attaches, self.found = arguments, attaches, []
        self.pid = self.value("pid", int, "number") if attaches else None
        self.program = self.value("program", str, "text")
        self.cwd = self.value("cwd", str, "text")
        self.stops = any(arguments.get(name) is True for name in ("stopOnEntry", "stopAtEntry"))
        self.args, self.env = self.words(), self.environment()
        if attaches and self.pid is None:
            self.found.append("attach: there is no `pid`.\n")
        # What gdb is asked for where no program was loaded.
        self.named = self.program if self.program is not None else program_of_gdb()

    def value(self, name, kind, called):
        """The value of an argument, where it is of the kind, and of one line."""
        value = self.arguments.get(name)
        if value is None or isinstance(value, kind) and not isinstance(value, bool) and (kind is not str or is_text(value)):
            return value
        self.found.append("`%s` is no %s.\n" % (name, called))
        return None

    def words(self):
        """The words of the program, as a shell reads them."""
        args = self.arguments.get("args")
        if isinstance(args, list) and all(is_text(str(word)) for word in args):
            return shlex.join(map(str, args))
        if args is None or is_text(args):
            return args
        self.found.append("`args` is no list of texts, each of one line.\n")
        return None

    def environment(self):
        """The variables that gdb can set; one that is null is taken away."""
        env, fine = self.arguments.get("env"), {}
        if not isinstance(env, dict):
            self.found += [] if env is None else ["`env` is no object.\n"]
            return {}
        for name, value in env.items():
            if name.isidentifier() and (value is None or is_text(value) and value == value.lstrip()):
                fine[name] = value
            else:
                self.found.append("`env`: gdb can't set %s to that.\n" % clean(name))
        return fine

    def program_to_load(self):
        """The program whose symbols are wanted before it starts."""
        if self.program is not None:
            return self.program or None
        if self.pid is None:
            return None
        try:
            return os.readlink("/proc/%d/exe" % self.pid)
        except OSError:  # it is said when it is attached to
            return None

    def unknown(self):
        """What is said of the arguments that are not known."""
        names = [name for name in self.arguments if name not in KNOWN | EDITORS and not name.startswith("__")]
        return clean("These arguments are not known: %s.\n" % ", ".join(sorted(names))) if names else ""

    def faults(self):
        return "".join(self.found)
