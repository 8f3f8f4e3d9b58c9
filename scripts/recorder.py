"""What a client looked at in a session, stop by stop, and the recording of it that `dap serve` plays.

`Session` hears the messages in their order. `recording_of` makes the recording, in the form of docs/RECORDINGS.md, and
says what of the session it cannot hold. An answer counts for the stop at which it was asked for, and of two answers to one
question in a stop the first counts, so that a value which the client has set is shown as it was before.
"""
import os

DEEPEST = 59
# How deep an object may nest whose members stand beside others, and how deep a recording may, as JSON.
DEEPEST_BESIDE = 100
DEEPEST_JSON = 127
MOST_SOURCES = 65536
MOST_FILE = 67108864
# Beyond these a session is cut. They are this script's own, so that no adapter makes it fill the memory.
MOST_LINES = 1000000
MOST_VARIABLES = 1000000
GREATEST_ID = 2**53 - 1
PROGRAM_OUTPUT = ("stdout", "stderr")
# What a recording has of why a stop came: of each the key of the event, and how many bytes the text may have.
TOLD = {"stop": ("reason", 64), "description": ("description", 128), "text": ("text", 128)}
EVALUATIONS = "Evaluations"
# The level of the object of each element in a recording, from 1; that of a variable is 2 more for each that it is in.
LEVELS = {"frame": 7, "scope": 9, "variable": 11}
# The standard members of each element that do not stand beside others, in `more`: what `dap serve` says itself, and what
# would be false when it does. It has its own numbers, may hold fewer variables, counts lines as its client does, and serves
# neither `restartFrame` nor `locations`. An evaluation becomes a variable.
RANGE = ("source", "line", "column", "endLine", "endColumn")
COUNTS = ("variablesReference", "namedVariables", "indexedVariables")
LOCATIONS = ("declarationLocationReference", "valueLocationReference")
NOT_BESIDE = {
    "frame": {"id", "name", "canRestart", *RANGE},
    "scope": {"name", "expensive", *COUNTS, *RANGE},
    "variable": {"name", "value", "result", *COUNTS, *LOCATIONS},
}
BACK = ("stepBack", "reverseContinue")
FORTH = ("continue", "next", "stepIn", "stepOut")
# After each of these requests the program may run.
RUNS = (*FORTH, *BACK, "goto", "restartFrame", "launch", "attach", "restart", "configurationDone")


class NoRecording(Exception):
    """Why a session gives no recording: the fault's name, and a text."""


def text_of(value, key, other=""):
    found = value.get(key)
    return found if isinstance(found, str) else other


def number_of(value, key, other=None):
    found = value.get(key)
    return found if type(found) is int else other


def object_of(value, key):
    found = value.get(key)
    return found if isinstance(found, dict) else {}


def objects_of(value, key):
    found = value.get(key)
    return [one for one in found if isinstance(one, dict)] if isinstance(found, list) else []


def put(there, place, thing):
    """A scope or a variable at a place, unless there is one. Some adapters give it another reference each time that it is
    asked for, and any of them may be asked for what it holds."""
    first = there.setdefault(place, thing)
    if first is not thing and first["name"] == thing["name"]:
        first["keys"] += thing["keys"]


def beside(what, value):
    """What an element has beside its name, its value and what it holds, as it came. `null` says nothing."""
    return {key: said for key, said in value.items() if key not in NOT_BESIDE[what] and said is not None}


def not_lazy(said):
    """Without the hint that a client is to ask for the value: for a variable that holds nothing."""
    hint = said.get("presentationHint")
    if not isinstance(hint, dict) or hint.get("lazy") is not True:
        return said
    return {**said, "presentationHint": {key: value for key, value in hint.items() if key != "lazy"}}


def can_stand(value, levels):
    """Whether a value is without floats, as which whole numbers beyond 64 bits are read, and nests at most so deep."""
    if isinstance(value, (dict, list)):
        inner = value.values() if isinstance(value, dict) else value
        return levels > 0 and all(can_stand(one, levels - 1) for one in inner)
    return not isinstance(value, float) and (not isinstance(value, int) or -(2**63) <= value < 2**64)


class Holder:
    """What a `variablesReference` stands for: its variables, by filter and place, as far as they were asked for."""

    def __init__(self):
        self.there = {}
        self.is_paged = False

    def take(self, arguments, variables):
        start = number_of(arguments, "start", 0)
        self.is_paged |= start > 0 or number_of(arguments, "count", 0) > 0
        for place, variable in enumerate(variables, start):
            put(self.there, (text_of(arguments, "filter"), place), variable)

    def variables(self):
        """In order; where they were asked for both as a whole and by a filter, as a whole."""
        whole = [place for place in self.there if place[0] == ""]
        # `named` before `indexed`.
        places = sorted(whole) or sorted(self.there, key=lambda place: (place[0] == "indexed", place))
        return [self.there[place] for place in places]


class Stop:
    """One stop: what was asked there, and what came."""

    def __init__(self, number, body, names, output, waits, move, lines):
        self.number = number
        self.reason = text_of(body, "reason")
        self.told = {key: body[name] for key, (name, _) in TOLD.items() if isinstance(body.get(name), str)}
        # The request that led here, if there was one since the stop before, and the lines that were set then.
        self.move = move
        self.lines = lines
        self.thread = number_of(body, "threadId")
        self.names = dict(names)
        self.are_named = False
        self.output = output
        self.waits = waits
        # The frames of each thread by place, and how many it has. The scopes of each frame by its id and their place.
        self.frames = {}
        self.totals = {}
        self.scopes = {}
        # Of each frame's id the one that was given first for its place.
        self.first_ids = {}
        # Of each number of variables the frame whose scopes gave it last, since some adapters give the same numbers for
        # each frame. The number and that frame are the key of a holder; here they are by number, and then by frame.
        self.given_by = {}
        self.holders = {}
        # Of each the frame's id, the expression, and what it came to, as a variable of that name.
        self.evaluations = []

    def name_threads(self, threads):
        """Where the thread that has stopped is not among them, they were asked for after the stop."""
        names = {number_of(one, "id"): text_of(one, "name") for one in threads}
        if not self.are_named and (self.thread in names or self.thread is None):
            self.names = names
            self.are_named = True

    def take_frames(self, arguments, body):
        thread = number_of(arguments, "threadId")
        if thread is None or abs(thread) > GREATEST_ID:
            return
        frames = self.frames.setdefault(thread, {})
        for place, frame in enumerate(objects_of(body, "stackFrames"), number_of(arguments, "startFrame", 0)):
            first = frames.setdefault(place, frame)
            self.first_ids.setdefault(number_of(frame, "id"), number_of(first, "id"))
        self.totals[thread] = max(number_of(body, "totalFrames", 0), len(frames))

    def frame_of(self, arguments):
        """The frame that a request names; of several ids the first."""
        number = number_of(arguments, "frameId")
        return self.first_ids.get(number, number)

    def take_scopes(self, arguments, body):
        frame = self.frame_of(arguments)
        scopes = objects_of(body, "scopes")
        self.given_by.update({number_of(scope, "variablesReference"): frame for scope in scopes})
        for place, scope in enumerate(scopes):
            put(self.scopes, (frame, place), self.with_keys("scope", scope))

    def take_variables(self, arguments, body):
        key = self.key_of(arguments)
        if key:
            variables = [self.with_keys("variable", one) for one in objects_of(body, "variables")]
            self.holders.setdefault(key[0], {}).setdefault(key[1], Holder()).take(arguments, variables)

    def take_evaluation(self, arguments, body):
        expression = text_of(arguments, "expression")
        found = self.with_keys("variable", {**body, "name": expression, "value": text_of(body, "result")})
        self.evaluations.append((self.frame_of(arguments), expression, found))

    def evaluations_in(self, frame):
        return [(expression, found) for number, expression, found in self.evaluations if number == frame]

    def key_of(self, value):
        number = number_of(value, "variablesReference", 0)
        return (number, self.given_by.get(number)) if number > 0 else None

    def with_keys(self, what, value):
        """A scope or a variable, with the keys of what it holds, how many variables the adapter spoke of, and what is beside."""
        count = number_of(value, "indexedVariables", 0) + number_of(value, "namedVariables", 0)
        key = self.key_of(value)
        keys = [key] if key else []
        named = {"name": text_of(value, "name"), "value": text_of(value, "value")}
        return {**named, "keys": keys, "count": count, "beside": beside(what, value)}

    def scopes_of(self, frame):
        return [self.scopes[place] for place in sorted(place for place in self.scopes if place[0] == frame)]

    def holder(self, thing):
        """The key of a thing that was asked for what it holds, and that; or else its first key, and what was asked for under
        the same number as another frame's; or nothing."""
        for number, frame in thing["keys"]:
            if frame in self.holders.get(number, {}):
                return (number, frame), self.holders[number][frame]
        if not thing["keys"]:
            return None, None
        key = thing["keys"][0]
        return key, next(iter(self.holders.get(key[0], {}).values()), None)

    def is_looked_into(self):
        return any(self.frames.values())


class Session:
    """Hears the messages of a session in their order."""

    def __init__(self):
        self.asked = {}
        self.stops = []
        self.names = {}
        # The texts that `source` gave, by reference or by path.
        self.texts = {}
        # What the program wrote since the last stop, and how many pieces there are of each category in all.
        self.output = []
        self.pieces = {}
        self.exit = None
        self.is_pausing = False
        # The last request since the stop before after which the program may run, with its number, and the lines set then.
        self.move = None
        # The lines that the client has set, by source, from 1; and what those were that a request replaced, by its number.
        self.lines = {}
        self.replaced = {}
        self.starts = 0
        self.restarted_after = []
        self.first_line = 1

    def hear(self, is_client, message):
        kind = message.get("type")
        if is_client and kind == "request":
            self.hear_request(text_of(message, "command"), message.get("seq"), object_of(message, "arguments"))
        elif not is_client and kind == "event":
            self.hear_event(message.get("event"), object_of(message, "body"))
        elif not is_client and kind == "response":
            seq = message.get("request_seq")
            asked = self.asked.pop(seq, None) if type(seq) is int else None
            lines = self.replaced.pop(seq, self.lines) if asked else self.lines
            if asked and message.get("success") is True:
                self.hear_answer(*asked, object_of(message, "body"))
            elif asked:
                self.hear_failure(seq, lines)

    def hear_request(self, command, seq, arguments):
        if type(seq) is int:
            self.asked[seq] = (self.stops[-1] if self.stops else None, command, arguments)
        if command == "initialize":
            self.first_line = 0 if arguments.get("linesStartAt1") is False else 1
        elif command == "setBreakpoints" and type(seq) is int:
            self.hear_lines(seq, arguments)
        elif command in RUNS:
            self.move = (command, seq, self.lines)
        self.is_pausing |= command == "pause"

    def hear_lines(self, seq, arguments):
        """Lines that are set for a source replace those that it had. They are set once they are asked for, unless it fails."""
        source = object_of(arguments, "source")
        lines = [number_of(one, "line", 0) for one in objects_of(arguments, "breakpoints")]
        if arguments.get("breakpoints") is None:
            lines = [line for line in arguments["lines"] if type(line) is int] if isinstance(arguments.get("lines"), list) else []
        lines = [line + 1 - self.first_line for line in lines]
        self.replaced[seq] = self.lines
        self.lines = {**self.lines, **{name: lines for name in names_of(source)[:1]}}

    def hear_failure(self, seq, lines):
        """A request that fails has changed nothing."""
        if self.move and self.move[1] == seq:
            self.move = None
        self.lines = lines

    def hear_event(self, event, body):
        if event == "stopped":
            self.hear_stop(body)
        elif event == "output":
            category = text_of(body, "category", "console")
            self.pieces[category] = self.pieces.get(category, 0) + 1
            self.output += [text_of(body, "output")] if category in PROGRAM_OUTPUT else []
        elif event == "exited":
            self.exit = number_of(body, "exitCode", self.exit)

    def hear_stop(self, body):
        move, _, lines = self.move or (None, None, self.lines)
        number, output = len(self.stops) + 1, "".join(self.output)
        self.stops.append(Stop(number, body, self.names, output, self.is_pausing, move, lines))
        self.output = []
        self.is_pausing = False
        self.move = None

    def hear_answer(self, stop, command, arguments, body):
        if command in ("launch", "attach", "restart"):
            self.starts += 1
            self.restarted_after += [len(self.stops)] if self.starts > 1 else []
        elif command == "source":
            self.hear_source(arguments, body)
        elif command == "threads":
            threads = objects_of(body, "threads")
            self.names.update({number_of(one, "id"): text_of(one, "name") for one in threads})
            if stop:
                stop.name_threads(threads)
        elif stop and command == "stackTrace":
            stop.take_frames(arguments, body)
        elif stop and command == "scopes":
            stop.take_scopes(arguments, body)
        elif stop and command == "variables":
            stop.take_variables(arguments, body)
        elif stop and command == "evaluate":
            stop.take_evaluation(arguments, body)

    def hear_source(self, arguments, body):
        source = object_of(arguments, "source")
        reference = number_of(arguments, "sourceReference", 0) or number_of(source, "sourceReference", 0)
        if reference > 0:
            self.texts.setdefault(("reference", reference), text_of(body, "content"))
        if text_of(source, "path"):
            self.texts.setdefault(("path", source["path"]), text_of(body, "content"))


def names_of(source):
    """What the client sets lines of a source by: its path where it has one, and its number."""
    path, reference = text_of(source, "path"), number_of(source, "sourceReference", 0)
    return [("path", path)] * (path != "") + [("reference", reference)] * (reference > 0)


def line_count(text):
    return text.count("\n") + (text != "" and not text.endswith("\n"))


class Sources:
    """The sources of a recording, each once, with the texts that are to be had."""

    def __init__(self, texts, is_remote, notes):
        self.texts = texts
        self.is_remote = is_remote
        self.notes = notes
        self.sources = []
        self.places = {}
        # Of each the lines of its own text, if it has one, and the greatest line of a frame there.
        self.counts = []
        self.needed = []

    def place_of(self, source, line):
        """Where the source of a frame is, and the frame's line there, from 1."""
        path, reference = text_of(source, "path"), max(0, number_of(source, "sourceReference", 0))
        name = text_of(source, "name") or os.path.basename(path) or (f"source {reference}" if reference else "no source")
        key = ("path", path) if path else ("reference", reference) if reference else ("name", name)
        if key not in self.places:
            self.places[key] = len(self.sources)
            self.add(name, path, reference)
        place = self.places[key]
        if not 1 <= line <= MOST_LINES and key != ("name", "no source"):
            self.notes.append(f"{path or name} has no line {line}: line 1 is in its place")
        line = line if 1 <= line <= MOST_LINES else 1
        self.needed[place] = max(self.needed[place], line)
        return place, line

    def add(self, name, path, reference):
        is_there = not self.is_remote and os.path.isabs(path) and os.path.isfile(path) and os.path.getsize(path) <= MOST_FILE
        text = self.texts.get(("reference", reference)) if reference else None
        text = self.texts.get(("path", path)) if text is None else text
        if text is None and is_there:
            text = self.read(path)
        if text is None:
            self.notes.append(f"the text of {path or name} is not to be had: it gets empty lines")
        source = {"name": name, **({"path": path} if path else {}), "text": text or ""}
        # A source with a number is not opened by its path: Specification, `Source`.
        self.sources.append({**source, "onDisk": True} if is_there and not reference else source)
        self.counts.append(None if text is None else line_count(text))
        self.needed.append(0)

    def read(self, path):
        try:
            with open(path, "rb") as file:
                stream = file.read(MOST_FILE)
        except OSError as fault:
            return self.notes.append(f"{path} cannot be read: {fault.strerror}")
        text = stream.decode("utf-8", "replace")
        if text.encode() != stream:
            self.notes.append(f"{path} is not UTF-8: each byte that is none is replaced")
        return text

    def all(self):
        """The sources, each with as many lines as its frames need."""
        for source, count, needed in zip(self.sources, self.counts, self.needed):
            if count is not None and needed > count:
                where = source.get("path", source["name"])
                self.notes.append(f"line {needed} of {where} is past the {count} lines of its text: it gets empty lines")
            missing = needed - line_count(source["text"])
            if missing > 0:
                ends = source["text"].endswith("\n") or not source["text"]
                source["text"] += "\n" * (missing if ends else missing + 1)
        return self.sources


def some(count, one, more=None):
    return f"{count} {one if count == 1 else more or one + 's'}"


class Moments:
    """The moments of a recording: the stops that were looked into."""

    def __init__(self, session, sources, notes):
        self.session = session
        self.sources = sources
        self.notes = notes
        self.left = MOST_VARIABLES
        self.counts = {}
        # The stop of the last moment, and the depth of its stack.
        self.before = None
        self.depth = 0

    def all(self):
        moments, before = [], ""
        for stop in self.session.stops:
            before += stop.output
            if not stop.is_looked_into():
                self.say(stop, f"({stop.reason}) is left out: nobody asked for its frames", "")
                continue
            moments.append(self.moment(stop, before))
            before = ""
        after = before + "".join(self.session.output)
        if after and moments:
            self.notes.append(f"{len(after)} characters of output after the last stop are left out")
        return moments

    def say(self, stop, told, colon=":"):
        self.notes.append(f"stop {stop.number}{colon} {told}")

    def moment(self, stop, output):
        self.counts = {"cyclic": 0, "deep": 0, "many": 0, "variable": 0, "scope": 0, "beside": 0}
        order = [*stop.names, *(thread for thread in stop.frames if thread not in stop.names)]
        threads = [self.thread(stop, thread) for thread in order if stop.frames.get(thread)]
        ids = [thread["id"] for thread in threads]
        if stop.thread not in ids:
            self.say(stop, f"nobody asked for the frames of thread {stop.thread}: thread {ids[0]} is in its place")
        self.say_cuts(stop, len(stop.names) - len(set(stop.names) & set(ids)) if stop.are_named else 0)
        frames = {number_of(frame, "id") for frames in stop.frames.values() for frame in frames.values()}
        for frame, expression, _ in stop.evaluations:
            if frame not in frames:
                self.say(stop, f"evaluation of {expression!r} left out: it names no frame of the stop")
        thread = stop.thread if stop.thread in ids else ids[0]
        moment = {"threads": threads, "thread": thread, **({"output": output} if output else {})}
        moment.update({"waits": True} if stop.waits else {})
        return {**moment, **self.reason(stop, thread, threads[ids.index(thread)]["frames"])}

    def reason(self, stop, thread, frames):
        """Why it stopped, where the move that led there gives another reason when it is played, or goes by."""
        top = stop.frames[thread][min(stop.frames[thread])]
        is_set = any(frames[0]["line"] in stop.lines.get(name, []) for name in names_of(object_of(top, "source")))
        given = self.reason_played(stop, is_set, len(frames))
        before, self.before, self.depth = self.before, stop, len(frames)
        is_next = before is not None and before.number == stop.number - 1
        if given is None and stop.reason in ("step", "") and stop.move in FORTH and is_next:
            self.say(stop, f"`{stop.move}` goes by it when it is played")
        # A step that has ended stops nobody else; nor does what a move back came to, and a stop that is told once more.
        is_again = is_next and stop.move is None and (before.reason, before.thread) == (stop.reason, stop.thread)
        if stop.reason in (given, "step", "") or stop.move in BACK or is_again:
            return {}
        return {key: self.cut(stop, key, text) for key, text in stop.told.items()}

    def reason_played(self, stop, is_set, depth):
        """The reason with which `dap serve` comes to a stop, by the same move with the same lines; none where it goes by."""
        if self.before is None:
            return "entry"
        if stop.move in ("stepIn", "next", "stepOut"):
            most = {"stepIn": depth, "next": self.depth, "stepOut": self.depth - 1}[stop.move]
            given = "step" if depth <= most else None
        else:
            given = "breakpoint" if is_set else None
        return "pause" if given is None and stop.waits else given

    def cut(self, stop, key, text):
        """As many of the text's characters as there is room for."""
        name, most = TOLD[key]
        stream = text.encode("utf-8", "replace")
        if len(stream) > most:
            self.say(stop, f"{name} of {len(stream)} bytes cut: a recording has at most {most}")
        return stream[:most].decode("utf-8", "ignore")

    def say_cuts(self, stop, threads):
        """What was counted in the moment."""
        of = self.counts
        if threads:
            self.say(stop, f"{some(threads, 'thread')} left out: nobody asked for their frames")
        cut = [some(of[what], what) for what in ("scope", "variable") if of[what]]
        if cut:
            self.say(stop, f"{' and '.join(cut)} cut: nobody asked for all that they hold")
        if of["cyclic"]:
            self.say(stop, f"{some(of['cyclic'], 'cyclic reference')} cut: a variable that holds what it is in")
        if of["deep"]:
            self.say(stop, f"{some(of['deep'], 'variable')} cut: nested deeper than {DEEPEST}")
        if of["many"]:
            self.say(stop, f"{some(of['many'], 'variable')} left out: the recording has {MOST_VARIABLES}")
        if of["beside"]:
            self.say(stop, f"{some(of['beside'], 'member')} left out of `more`: with a float, or nested too deep")

    def thread(self, stop, thread):
        there = [stop.frames[thread][place] for place in sorted(stop.frames[thread])]
        missing = stop.totals[thread] - len(there)
        if missing > 0:
            self.say(stop, f"{some(missing, 'frame')} of thread {thread} left out: nobody asked for them")
        frames = [self.frame(stop, frame) for frame in there]
        return {"id": thread, "name": stop.names.get(thread, f"thread {thread}"), "frames": frames}

    def frame(self, stop, frame):
        line = number_of(frame, "line", 0) + 1 - self.session.first_line
        source, line = self.sources.place_of(object_of(frame, "source"), line)
        made = {"name": text_of(frame, "name"), "source": source, "line": line, **self.more("frame", beside("frame", frame))}
        number = number_of(frame, "id")
        self.join_evaluations(stop, number)
        scopes = [self.scope(stop, scope) for scope in stop.scopes_of(number)]
        evaluations = self.evaluations(stop, number, scopes)
        scopes += [{"name": EVALUATIONS, "variables": evaluations}] if evaluations else []
        return {**made, "scopes": scopes} if scopes else made

    def scope(self, stop, scope):
        variables = self.variables(stop, scope, "scope", ())
        more = self.more("scope", scope["beside"])
        return {"name": scope["name"], **more, **({"variables": variables} if variables else {})}

    def more(self, what, said, depth=0):
        """The key of what stands beside, where there is any. A variable is in so many others."""
        levels = min(DEEPEST_BESIDE, DEEPEST_JSON - LEVELS[what] - 2 * depth)
        kept = {key: value for key, value in said.items() if levels > 0 and can_stand(value, levels - 1)}
        self.counts["beside"] += len(said) - len(kept)
        return {"more": kept} if kept else {}

    def variables(self, stop, thing, what, above):
        """What a scope or a variable holds, as deep as it was asked for. `above` has the keys that lead here."""
        key, holder = stop.holder(thing)
        there = holder.variables() if holder else []
        if key in above:
            self.counts["cyclic"] += 1
            return []
        if len(above) >= DEEPEST and there:
            self.counts["deep"] += 1
            return []
        if key and (holder is None or holder.is_paged and len(there) < thing["count"]):
            self.counts[what] += 1
        kept = there[: self.left]
        self.counts["many"] += len(there) - len(kept)
        self.left -= len(kept)
        return [self.variable(stop, one, (*above, key)) for one in kept]

    def variable(self, stop, variable, above):
        inner = self.variables(stop, variable, "variable", above)
        said = variable["beside"] if inner else not_lazy(variable["beside"])
        more = self.more("variable", said, len(above) - 1)
        named = {"name": variable["name"], "value": variable["value"]}
        return {**named, **more, **({"variables": inner} if inner else {})}

    def join_evaluations(self, stop, frame):
        """A variable whose name was evaluated may have been opened there."""
        first = {}
        for scope in stop.scopes_of(frame):
            holder = stop.holder(scope)[1]
            for one in holder.variables() if holder else []:
                first.setdefault(one["name"], one)
        for expression, found in stop.evaluations_in(frame):
            one = first.get(expression)
            if one and one["value"] == found["value"]:
                one["keys"] += [key for key in found["keys"] if key not in one["keys"]]

    def evaluations(self, stop, frame, scopes):
        """What was evaluated in a frame and is no variable there. `dap serve` looks a name up in the scopes: the first counts."""
        values, made = {}, []
        for scope in scopes:
            for one in scope.get("variables", []):
                values.setdefault(one["name"], one["value"])
        for expression, found in stop.evaluations_in(frame):
            if expression not in values:
                values[expression] = found["value"]
                made += self.evaluation(stop, found)
            elif values[expression] != found["value"]:
                self.say(stop, f"evaluation of {expression!r} left out: a variable of that name has another value")
        return made

    def evaluation(self, stop, found):
        if not self.left:
            self.counts["many"] += 1
            return []
        self.left -= 1
        return [self.variable(stop, found, (EVALUATIONS,))]


def exit_of(session, notes):
    """The exit code, in the 32 bits of a recording's."""
    if session.exit is None:
        notes.append("no event `exited` came: the exit code is 0")
    code = session.exit or 0
    if not -(2**31) <= code < 2**31:
        code = (code + 2**31) % 2**32 - 2**31
        notes.append(f"the exit code {session.exit} has more than 32 bits with a sign: it becomes {code}")
    return code


def recording_of(session, is_remote):
    """The recording, and what it does not hold, a line each. NoRecording where there is none."""
    notes = []
    sources = Sources(session.texts, is_remote, notes)
    moments = Moments(session, sources, notes).all()
    if not moments:
        raise NoRecording("NoStop", f"{some(len(session.stops), 'stop')}, and nobody asked for the frames of one")
    if len(sources.sources) > MOST_SOURCES:
        raise NoRecording("TooManySources", f"{len(sources.sources)}, and a recording has at most {MOST_SOURCES}")
    for place in session.restarted_after:
        notes.append(f"the program was started again after stop {place}: its stops follow those before")
    for category, count in session.pieces.items():
        if category == "stderr":
            notes.append(f"{some(count, 'piece')} of output of the category stderr: as stdout")
        elif category != "stdout":
            notes.append(f"{some(count, 'piece')} of output of the category {category} left out")
    recording = {"exit": exit_of(session, notes), "sources": sources.all(), "moments": moments}
    return recording, list(dict.fromkeys(notes))
