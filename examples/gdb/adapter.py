"""A debug adapter inside gdb: the debugger is gdb, all of the protocol is in `dap host`.

    gdb -q -nx [-iex 'set $evaluation_seconds = 10'] -ix adapter.py [--args PROGRAM ARGS..]

speaks the Debug Adapter Protocol over its standard input and output, as `dap-gdb` starts it. DAP is the path of the program
`dap`, else bin/dap is taken.

gdb's own loop waits for events, and calls what `gdb.post_event` hands it. The program runs in the background (`run&`, `step&`),
so the loop is free while it runs. Three threads wait: for the client, for the program's terminal, and `Watch`. They call nothing
of gdb's but `post_event`: all else happens in gdb's thread, one thing after the other.

This file knows which thing that a client, gdb or `dap host` says leads to which of the others. The rest is beside it:
`streams.py` has bytes, `lines.py` the lines of `dap host`, `launch.py` and `arguments.py` the client's arguments, `debuggee.py`
gdb's commands, `points.py` breakpoints, `sources.py` sources, `stops.py` frames, `values.py` values, `memory.py` memory,
`places.py` code; `asked.py`, `asked_points.py` and `asked_moves.py` have the requests that `dap host` leaves to this adapter, and
`meaning.py` what their arguments mean.
"""
import collections
import json
import os
import signal
import sys
import threading
import traceback

import gdb

sys.path.insert(0, os.path.dirname(os.path.abspath(__file__)))

from arguments import Refusal, present  # noqa: E402
from asked import COMMANDS as SERVED, OPENED, Asked  # noqa: E402
from debuggee import SIGNALS, Debuggee, Watch, fault_of, load, resume, select  # noqa: E402
from launch import Launch  # noqa: E402
from lines import Ended, Lines, event_line, line_of, output_lines, said  # noqa: E402
from points import line_of_point  # noqa: E402
from sources import Sources  # noqa: E402
from stops import Stop, module_of, thread_numbers  # noqa: E402
from streams import Fault, Terminal, bodies_of, framed  # noqa: E402
from texts import clean  # noqa: E402
from values import FAULTS, as_set, beside, part, settable, shown  # noqa: E402

COMMANDS = {"stepIn": "step", "next": "next", "stepOut": "finish", "continue": "continue",
            "stepBack": "reverse-step", "reverseContinue": "reverse-continue"}
# What is offered beside the flags of `dap host`, and what is not: gdb steps back only in what it records.
OFFERS = {"supportsConditionalBreakpoints": True, "supportsHitConditionalBreakpoints": True, "supportsLogPoints": True,
          "supportsEvaluateForHovers": True, "supportTerminateDebuggee": True, "supportsStepBack": False,
          "completionTriggerCharacters": [".", ">", ":"],
          "exceptionBreakpointFilters": [{"filter": name, "label": name, "default": True} for name in SIGNALS]}
NOT_STARTED = 127  # the code of a program that could not be started, as a shell has it
LAST = "disconnect", "terminate"
ENDING = signal.SIGTERM, signal.SIGHUP, signal.SIGINT


def command_of(body):
    """The command of a request, of what may be no request."""
    try:
        return json.loads(body)["command"]
    except (ValueError, KeyError, TypeError, RecursionError):
        return None


class Adapter:
    def __init__(self, seconds):
        self.client_in, self.client_out = os.fdopen(os.dup(0), "rb"), os.fdopen(os.dup(1), "wb")
        self.terminal, self.due, self.busy = Terminal(), collections.deque(), False
        self.watch = Watch(seconds, lambda: self.later(self.tell_death))
        self.debuggee = Debuggee(self.watch)
        self.lines, self.heard, self.silent, self.refused = None, [], False, None
        self.launch, self.refusal, self.started, self.notes, self.first_line = None, "", False, [], 1
        self.wants_types, self.said, self.first_column = False, {}, 1
        self.running, self.entry, self.here, self.setting, self.found_more = False, False, None, None, False
        self.ending, self.kills, self.attaching = None, False, False
        self.wanted = {}  # of each source, what the client wants of a breakpoint, by the line where it is set
        self.asked, self.ids = {}, {}  # of each `setBreakpoints` its source and lines; of these the client's numbers
        self.threads, self.modules = set(), set()  # of which the client was told that they are there
        self.requests, self.asks = {}, Asked(self)  # of each number the request that may be left to this adapter
        self.into, self.stop_into = None, None  # where the next step is to lead, and the breakpoint there
        self.again = None  # how the program is to be started again, once it is dead

    # The loop, and the end

    def later(self, call, *arguments):
        """Calls it in gdb's thread, after all that is due before."""
        self.due.append((call, arguments))
        gdb.post_event(self.work)

    def work(self):
        if self.busy:  # gdb's loop runs within an expression that calls a function
            return
        self.busy = True
        try:
            while self.due:
                call, arguments = self.due.popleft()
                call(*arguments)
        except Ended as ended:  # it has said why
            self.end(ended.args[0] or 3)
        except OSError as fault:
            self.fail("the client hung up: %s" % fault)
        except FAULTS:  # better an end than a client that waits for ever
            traceback.print_exc()
            self.end(1)
        self.busy = False

    def begin(self):
        self.start_lines()
        gdb.execute("set inferior-tty " + self.terminal.name)
        gdb.events.stop.connect(self.on_stop)
        gdb.events.exited.connect(self.on_exit)
        gdb.events.new_objfile.connect(self.on_objfile)
        meant_for_gdb = signal.pthread_sigmask(signal.SIG_BLOCK, signal.valid_signals())
        waits = self.hear_client, lambda: self.terminal.hear(lambda: self.later(self.tell_output)), self.watch.run, self.hear_end
        for wait in waits:
            threading.Thread(target=wait, daemon=True).start()
        signal.pthread_sigmask(signal.SIG_SETMASK, meant_for_gdb)

    def end(self, status=0):
        self.running = True  # so that no stop is told any more
        self.debuggee.leave(self.kills)
        os._exit(status)  # gdb 13 crashes in its own `quit` where events are still posted; `dap host` ends with its input

    def fail(self, why):
        os.write(2, ("dap-gdb: %s\n" % clean(why)).encode())
        self.end(3)

    def hear_end(self):
        """Waits for a signal that ends gdb. Where gdb is stuck, the system ends a program that it has started."""
        number = signal.sigwait(ENDING)
        self.watch.interrupt("gdb received %s" % signal.Signals(number).name)
        threading.Timer(5, os._exit, [128 + number]).start()
        self.later(self.end, 128 + number)

    # The lines of `dap host`

    def start_lines(self):
        """Starts `dap host` with the sources that gdb has by now. What was heard before is answered once more, to nobody."""
        if self.lines:
            self.lines.close()
        self.sources = Sources()
        self.lines = Lines(self.sources.news(), OFFERS, OPENED)
        self.silent = True
        for line in self.heard:
            self.hand_on([line])
        self.silent = False

    def hand_on(self, lines):
        """Hands lines to `dap host`, writes what it answers to the client, and does what has to be done.

        What is given is the targets that were asked for."""
        acts, targets, lent, over = [], [], [], False
        for answer, told in self.lines.answers(lines):
            if answer.startswith(b"< "):
                over = over or self.ending is not None and json.loads(answer[2:]).get("request_seq") == self.ending
                if answer.startswith(b'< {"body":{"breakpoints":'):
                    self.learn_numbers(json.loads(answer[2:]))
                if b'"success":false' in answer:
                    self.requests.pop(json.loads(answer[2:]).get("request_seq"), None)
                if not self.silent:
                    self.client_out.write(framed(answer[2:-1]))
            elif "act" in told:
                acts.append(told)
            elif "target" in told:
                targets.append(told)
            elif "lent" in told and not self.silent:
                lent.append(told["lent"])
            elif "refused" in told:
                self.refuse(told["why"], lines[told["refused"] - self.lines.count + len(lines)])
        self.client_out.flush()
        for act in acts:
            self.do(act)
        for seq in lent:
            self.serve(seq)
        if over:
            self.end()
        return targets

    def serve(self, seq):
        """Answers a request that `dap host` leaves to this adapter."""
        command, arguments = self.requests.pop(seq, (None, {}))
        if not self.is_answered(self.asks.answer(seq, command, arguments)):
            self.is_answered(self.asks.failure(seq, command, "tooLarge", "The response would be too large."))
        for call in self.asks.then:
            call()

    def is_answered(self, line):
        """Hands on an answer: whether `dap host` takes it."""
        if not self.started:
            self.heard.append(line)
        self.refused = None
        self.hand_on([line])
        return self.refused != line

    def refuse(self, why, line):
        self.refused = line
        if line.startswith(b"> ") and why != "Ended":
            self.fail("the client sent what is no message: %s" % why)
        if why in ("TooManySources", "TooManyHolders", "OutOfRange"):
            self.say_output("console", "dap host: %s\n" % why)

    def say(self, happened, **more):
        self.hand_on([said(happened, **more)])

    def tell_event(self, event, **body):
        self.hand_on([event_line(event, **body)])

    def say_output(self, category, text):
        """Says an output; one before the start is said then."""
        if not self.started:
            self.notes.append((category, text))
            return
        for lines in output_lines(category, text):
            self.hand_on(lines)

    def say_later(self, *output):
        self.later(self.say_output, *output)

    def says_of(self, flag):
        """Whether the client says that it understands this."""
        return self.said.get(flag) is True

    # What gdb and the program did

    def on_stop(self, event):
        if not self.running:  # within an expression that calls a function
            return
        if self.attaching:
            self.later(self.go_on)
            return
        reason, name = "step", getattr(event, "stop_signal", None)
        numbers = [point.number for point in getattr(event, "breakpoints", ())]
        if name:
            reason = "pause" if name == "SIGINT" else "exception"
        elif self.entry:
            reason = "entry"
        elif isinstance(event, gdb.BreakpointEvent):
            reason = self.reason_of(numbers)
        self.entry = False
        if reason == "exception":
            note = "The program received %s." % name
            self.later(self.tell_stop, reason, note + "\n", {"description": note, "text": name})
        else:
            self.later(self.tell_stop, reason, "", self.hits_of(numbers))

    def reason_of(self, numbers):
        """Why the program stops at these breakpoints of gdb's."""
        others = self.debuggee.others_hit(numbers)
        if others and not self.debuggee.lines_of(numbers):
            return others[0][0]
        return "step" if self.stop_into and numbers == [self.stop_into.number] else "breakpoint"

    def hits_of(self, numbers):
        """What stands beside a stop at breakpoints of gdb's: the client's numbers of them."""
        ids = sorted(one for where in self.debuggee.lines_of(numbers) for one in self.ids.get(where, ()))
        ids += sorted(point.id for _, point in self.debuggee.others_hit(numbers))
        return {"hitBreakpointIds": ids} if ids else {}

    def on_objfile(self, event):
        self.found_more = True

    def on_exit(self, event):
        died_of = gdb.convenience_variable("_exitsignal")
        self.later(self.tell_exit, event.exit_code if hasattr(event, "exit_code") else 128 + int(died_of or 0))

    def tell_output(self, all=False):
        self.say_output("stdout", self.terminal.written(all))

    def tell_stop(self, reason, note="", more={}):
        if self.again:
            self.debuggee.kill()
            return
        self.end_step()
        self.tell_output(True)
        self.say_output("console", note)
        if self.found_more:
            self.found_more = False
            self.sources.find()
        for path, line, place in self.debuggee.points_found():
            self.tell_point(path, line, place)
        for point in self.debuggee.others_found():
            self.tell_event("breakpoint", reason="changed", breakpoint=self.asks.breakpoint_of(point))
        self.tell_modules()
        self.tell_threads()
        self.tell_moment(reason, more)
        self.watch.standing = self.debuggee.pid

    def tell_point(self, path, line, place):
        """Tells that a breakpoint has its code now, and where."""
        self.say_output("console", "The breakpoint at %s:%d is set, at line %s.\n" % (clean(path), line, place))
        for one in self.ids.get((path, line), []):
            where = {"line": place - 1 + self.first_line} if place else {}
            self.tell_event("breakpoint", reason="changed", breakpoint={"id": one, "verified": True, **where})

    def tell_modules(self):
        for module in map(module_of, gdb.objfiles()):
            if module and module["id"] not in self.modules:
                self.modules.add(module["id"])
                self.tell_event("module", reason="new", module=module)

    def tell_threads(self):
        """Tells which threads have come and gone since the stop before."""
        here = thread_numbers()
        for reason, numbers in ("exited", self.threads - here), ("started", here - self.threads):
            for number in sorted(numbers):
                self.tell_event("thread", reason=reason, threadId=number)
        self.threads = here

    def tell_process(self, method):
        name = gdb.current_progspace().filename
        if name and self.debuggee.pid:
            self.tell_event("process", name=clean(name), systemProcessId=self.debuggee.pid, isLocalProcess=True, startMethod=method)

    def tell_moment(self, reason, more):
        self.running, self.reason, self.here = False, (reason, more), Stop(self.sources)
        news = self.sources.news()
        if news:
            self.say("loaded", sources=news)
        self.say("stopped", reason=reason, thread=self.here.thread_of_moment, moment=self.here.moment, later=True, more=more)

    def tell_change(self):
        """Stops once more where something that was told has changed: there is no other way to tell it again."""
        if not self.debuggee.pid:  # the evaluation has ended the program
            return
        thread = self.here.thread_of_moment
        with self.debuggee.looking((thread, 0)):
            changed = self.here.has_changed(select)
            select(thread, 0)
        if changed:
            self.say("continued", thread=thread)
            self.tell_moment(*self.reason)

    def tell_jump(self, thread):
        """A thread stands at another place, where the client sent it."""
        self.say("continued", thread=thread)
        select(thread, 0)
        self.tell_moment("goto", {})

    def tell_threads_again(self):
        """Tells which threads there are, where some have ended while the program stood: there is no other way but another stop."""
        if self.debuggee.pid:
            here, thread = thread_numbers(), self.here.thread_of_moment
            self.say("continued", thread=thread)
            select(thread if thread in here else min(here), 0)
            self.tell_threads()
            self.tell_moment(*(self.reason if thread in here else ("pause", {})))

    def start_again(self, launch):
        """Kills the program. It is started again once gdb knows that it is dead."""
        if self.stands():
            self.say("continued", thread=self.here.thread_of_moment)
        self.running, self.here, self.watch.standing = True, None, None
        for gone in self.asks.drop_data_points():
            self.tell_event("breakpoint", reason="changed", breakpoint=gone)
        self.again = self.launch = launch or Launch({})
        self.debuggee.kill()

    def tell_exit(self, code):
        self.end_step()
        if self.again:
            self.again, launch = None, self.again
            self.tell_output(True)
            self.start(launch)
            return
        if self.running or self.here:
            self.tell_output(True)
            self.running, self.here, self.watch.standing = False, None, None
            self.say("exited", code=code)

    def tell_death(self):
        """The program is dead, and gdb, for which it stands, hears of it once it goes on."""
        if self.here and not self.running:
            self.running = True
            if fault_of("continue&"):
                self.tell_exit(128 + signal.SIGKILL)

    # What the debugger has to do

    def do(self, act):
        kind = act["act"]
        if kind == "start":
            self.start(self.launch or Launch({}))
        elif kind == "resume":
            self.resume(COMMANDS[act["how"]], act["thread"])
        elif kind == "pause":
            self.say_output("console", fault_of("interrupt"))
        elif kind == "setBreakpoints":
            self.set_breakpoints(act["source"], sorted(set(act["lines"])))
        elif kind == "setVariable":
            self.set_variable(*self.setting)
        elif kind == "end":
            self.end_program()

    def set_breakpoints(self, source, lines):
        path = source.get("path", self.sources.all[source.get("sourceReference", 0) - 1].get("path"))
        if path:
            self.debuggee.set_points(path, lines, self.wanted.get(path, {}), self.say_later)

    def start(self, launch):
        self.started, self.running = True, True
        for category, text in self.notes:
            self.say_output(category, text)
        self.notes = []
        self.say_output("console", launch.unknown())
        self.say_output("stderr", launch.faults())
        fault = self.attach(launch) if launch.attaches else self.run(launch)
        if fault:
            self.say_output("stderr", fault)
            self.tell_exit(NOT_STARTED)
        else:
            self.tell_process("attach" if launch.attaches else "launch")

    def run(self, launch):
        self.entry = launch.stops
        return self.debuggee.start(launch.args, launch.cwd, launch.env, launch.stops)

    def attach(self, launch):
        self.attaching = True
        return self.debuggee.attach(launch.pid or 0)

    def go_on(self):
        """Goes on after gdb's own stop of an attached program, if that is not wanted."""
        self.attaching = False
        if self.launch.stops:
            self.tell_stop("entry")
        else:
            self.say_output("stderr", fault_of("continue&"))

    def resume(self, command, thread):
        self.running, self.watch.standing = True, None
        self.asks.forget()
        if self.into:
            self.stop_into, command = self.debuggee.stop_of(thread, self.into.address), "next"
        fault = resume(command, thread)
        if fault and self.debuggee.pid:
            self.tell_stop("step", fault)
        elif fault:
            self.tell_exit(NOT_STARTED)

    def end_step(self):
        """The step into a function is over, wherever it led."""
        if self.stop_into:
            self.stop_into.delete()
        self.into, self.stop_into = None, None

    def set_variable(self, holder, place, expression, text, value):
        with self.debuggee.looking(self.here.frame_of(holder)):
            self.say_output("console", value_of("%s = %s" % (expression, text))[1])
        self.here.told[holder][place] = value
        self.tell_change()

    def end_program(self):
        self.running, self.watch.standing, self.here, self.again = False, None, None, None
        self.debuggee.leave(self.kills)

    # What the client asks

    def hear_client(self):
        try:
            for body in bodies_of(self.client_in):
                if command_of(body) in ("pause", *LAST):
                    self.watch.interrupt("the client asked for `%s`" % command_of(body))
                self.later(self.hear, body)
        except Fault as fault:
            self.watch.interrupt("the client's stream ended")
            self.later(self.fail, "the client's stream: %s" % fault)

    def hear(self, body):
        separator, command, arguments, notes, self.into = b" ", None, {}, [], None
        try:
            message = json.loads(body)
            command, arguments = message["command"], message.get("arguments") or {}
            self.requests.update({message["seq"]: (command, arguments)} if command in SERVED else {})
            notes = self.learn(command, arguments, message["seq"]) or []
        except (KeyError, TypeError, AttributeError, StopIteration, IndexError, gdb.error):
            pass  # `dap host` answers what is wrong with it
        except (ValueError, RecursionError):
            separator = b"\0"  # which is not JSON either
        lines = [*notes, b"> " + separator.join(body.splitlines())]
        if not self.started:
            self.heard += lines
        self.hand_on(lines)
        if command == "evaluate" and arguments.get("context") == "repl" and self.stands():
            self.tell_change()

    def stands(self):
        return self.here is not None and not self.running

    def is_started(self):
        """Whether there is a program, or one that is to be started again."""
        return self.again is not None or bool(self.debuggee.pid) and (self.running or self.stands())

    def object_of(self, kind, number):
        """The frame or the holder that a number of the client stands for."""
        for target in self.hand_on([line_of(asked="target", number=number)]):
            if target["kind"] == kind:
                return target["object"]
        raise KeyError(number)

    def learn(self, command, arguments, seq):
        """Works out what the client asks for, before it is answered: the lines that say something of the message, if any do."""
        if command == "initialize":
            self.first_line = 0 if arguments.get("linesStartAt1") is False else 1
            self.first_column = 0 if arguments.get("columnsStartAt1") is False else 1
            self.said, self.wants_types = arguments, arguments.get("supportsVariableType") is True
        elif command in ("launch", "attach") and not self.started:
            self.learn_launch(command, arguments)
            return self.refusals()
        elif command == "configurationDone" and not self.started:
            return self.refusals()
        elif command in LAST:
            self.ending = seq if command == "disconnect" else self.ending
            self.kills = self.kills or command == "terminate" or arguments.get("terminateDebuggee") is True
        elif command == "setBreakpoints":
            return self.places(arguments["source"].get("path"), arguments.get("breakpoints") or [], seq)
        elif command == "setExceptionBreakpoints":
            self.debuggee.stop_at_signals(arguments["filters"])
        elif command == "stepIn" and present(arguments, "targetId"):
            return self.learn_step(arguments)
        elif command == "variables" and self.stands():
            self.tell_holder(self.object_of("holder", arguments["variablesReference"]))
        elif command == "evaluate" and self.stands():
            self.learn_value(arguments["expression"], arguments.get("frameId"))
        elif command == "setVariable" and self.stands():
            self.learn_setting(self.object_of("holder", arguments["variablesReference"]), arguments["name"], arguments["value"])

    def learn_step(self, arguments):
        """Where a step is to lead: a line of `dap host` where that is no place."""
        try:
            self.into = self.asks.target(arguments)
        except Refusal as refusal:
            return [line_of(refuses=refusal.words)]
        return []

    def learn_launch(self, command, arguments):
        self.launch = Launch(arguments, command == "attach")
        program, self.refusal = self.launch.program_to_load(), ""
        if program is None and command == "launch" and not gdb.current_progspace().filename:
            program = self.launch.named or ""
        if program is None:
            return
        fault = load(program) if program else fault_of("run")
        if not fault:
            self.start_lines()
        elif command == "launch":
            self.refusal = self.launch.faults() + fault
        else:
            self.say_output("console", fault)

    def refusals(self):
        """That the program can't be started, where that is known: it counts if this message is to start it."""
        return [line_of(refuses=self.refusal.strip(), showUser=True)] if self.refusal else []

    def places(self, path, points, seq):
        """Where gdb puts breakpoints, as a line of `dap host` says it. What the client wants at each is kept until they are set."""
        lines = [point["line"] + 1 - self.first_line for point in points]
        self.asked[seq] = path, [(path, line) for line in lines]
        self.wanted[path] = dict(reversed(list(zip(lines, points))))  # of two at one line the first
        return [line_of(placed={"path": path}, breakpoints=[place_said(path, line) for line in lines])] if path else []

    def learn_numbers(self, answer):
        """The numbers that the client is given for breakpoints."""
        if answer["request_seq"] not in self.asked:  # it is of other breakpoints
            return
        path, asked = self.asked.pop(answer["request_seq"])
        for where in [where for where in self.ids if where[0] == path]:
            del self.ids[where]
        for where, one in zip(asked, answer["body"]["breakpoints"]):
            self.ids.setdefault(where, []).append(one["id"])

    def tell_holder(self, holder):
        """Tells the variables of a holder, once a stop."""
        if not self.here.is_told(holder):
            with self.debuggee.looking(self.here.frame_of(holder)):
                variables = self.here.variables(holder, self.wants_types)
            self.say_output("console", self.interruption())
            self.say("learned", holder=holder, variables=variables)

    def learn_value(self, text, frame):
        where = (self.here.thread_of_moment, 0) if frame is None else self.here.frames[self.object_of("frame", frame)]
        learned = {}
        with self.debuggee.looking(where):
            value, fault = value_of(text)
            if value is not None:
                learned = {"value": shown(value), **beside(value, self.wants_types)}
                if self.here.is_found(where, text, learned["value"]):  # the client has its number
                    return
                learned.update(self.here.holder_of(where, part(text, text, lambda: value)))
        self.say("learned", text=text, **(learned or self.reason_for(fault)))

    def learn_setting(self, holder, name, text):
        self.tell_holder(holder)
        place, one = self.here.part(holder, name)
        with self.debuggee.looking(self.here.frame_of(holder)):
            expression = settable(one)
            value, fault = value_as(expression, text) if expression else (None, "%s can't be set.\n" % clean(name))
        if value is None:
            self.say("learned", text=text, **self.reason_for(fault))
        else:
            self.setting = holder, place, expression, text, value
            self.say("learned", text=text, value=value)

    def reason_for(self, fault):
        """Why there is no value, as a line of `dap host` says it."""
        return {"why": (fault + self.interruption()).strip()}

    def interruption(self):
        return "The evaluation was interrupted: %s.\n" % self.watch.reason if self.watch.reason else ""


def place_said(path, line):
    """Where gdb puts a breakpoint that is asked for at this line."""
    place = line_of_point(path, line)
    return {"asked": line, "line": place} if place else {"asked": line, "verified": False, "message": "gdb has no code for this line."}


def tried(call):
    """What the call gives; or nothing, and why."""
    try:
        return call(), ""
    except (gdb.error, RuntimeError, KeyboardInterrupt) as fault:
        return None, "%s\n" % clean(fault)


def value_of(text):
    return tried(lambda: gdb.parse_and_eval(text))


def value_as(expression, text):
    """The text of what the expression is once it was set."""
    return tried(lambda: as_set(expression, gdb.parse_and_eval(text)))


def main():
    seconds = gdb.convenience_variable("evaluation_seconds")
    adapter = Adapter(10 if seconds is None else float(seconds))
    os.dup2(os.pipe()[0], 0)  # gdb hears no commands, and what it prints is not the protocol
    os.dup2(os.open(os.devnull, os.O_WRONLY), 1)
    for off in "pagination", "confirm", "debuginfod enabled":
        gdb.execute("set %s off" % off)
    for on in "suppress-cli-notifications", "unwindonsignal":
        gdb.execute("set %s on" % on)
    signal.pthread_sigmask(signal.SIG_BLOCK, ENDING)  # `hear_end` waits for them
    adapter.later(adapter.begin)


main()
