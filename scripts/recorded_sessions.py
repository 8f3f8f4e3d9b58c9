"""Sessions that scripts/record hears, and the recordings of them played again: parts of the group `recorded`.

What is compared is what another session answered, of a real debugger or of a recording that was written by hand.
"""
import copy
import json
import os
import random
import signal
import sys

import recorder
from beside_cases import told as recording_beside
from client import Client
from random_sessions import Guided, random_recording
from trial import DAP, EXAMPLES, FOLDER, HERE, RECORDINGS, bytes_of, expect, expect_in, file_of, fine, frames_of, output_of
from trial import recording_of, run, split

RECORD = os.path.join(HERE, "scripts", "record")
TRANSCRIPTS = os.path.join(HERE, "scripts", "transcripts")
FOLLOW = os.path.join(HERE, "scripts", "follow-session")
SECONDS = 60


class Recorded(Client):
    """A client of a recorded session, or of one that is played."""

    def __init__(self, words):
        self.errors = os.path.join(FOLDER, "errors")
        with open(self.errors, "wb") as errors:
            super().__init__(words, SECONDS, stderr=errors)

    def wait_for(self, *names):
        """The next event of one of these names; nothing where the stream ends before it."""
        return next((event for event in self.events_to(*names) if event["event"] in names), None)

    def start(self):
        """Up to the first stop."""
        self.ask("initialize", adapterID="rec")
        # It is answered after the next one.
        self.send("launch")
        self.ask("configurationDone")
        return self.wait_for("stopped")

    def end(self):
        """The status, and what was said on standard error."""
        _, status = self.leave()
        return status, bytes_of(self.errors).decode().splitlines()


# What a client looked at, in the streams of real debuggers.

# The streams of each debugger, and whether its recording is in examples/recordings.
STREAMS = [
    ("debugpy", "editor-to-debugpy", "debugpy-to-editor", True),
    ("delve", "client-to-delve", "delve-to-client", True),
    ("lldb", "client-to-lldb", "lldb-to-client", True),
    ("ruby", "client-to-ruby", "ruby-to-client", False),
]


def looks_of(transcript):
    """Of each stop what was asked there with success: the command, its arguments and the body. And the exit code."""
    asked, stops, code = {}, [], 0
    for line in transcript.decode().splitlines():
        message, is_client = json.loads(line[2:]), line[0] == ">"
        if is_client and message["type"] == "request":
            asked[message["seq"]] = message
        if not is_client and message["type"] == "event":
            stops += [[]] if message["event"] == "stopped" else []
            code = message["body"]["exitCode"] if message["event"] == "exited" else code
        if not is_client and message["type"] == "response" and message["success"] and stops:
            request = asked[message["request_seq"]]
            stops[-1].append((request["command"], request.get("arguments") or {}, message.get("body") or {}))
    return stops, code


# What stands beside, by the request that asks for it; `id` is one of LLDB's own.
BESIDE = {
    "stackTrace": ("presentationHint", "instructionPointerReference", "moduleId"),
    "scopes": ("presentationHint",),
    "variables": ("type", "evaluateName", "presentationHint", "memoryReference", "id"),
    "evaluate": ("type", "presentationHint", "memoryReference"),
}


def beside(command, those, asked):
    """Of each what stands beside, as far as the debugger said it in the session: the place of its element, the key, the value."""
    for place, one in enumerate(those):
        said = asked[place] if place < len(asked) else {}
        yield from ((place, key, one.get(key)) for key in BESIDE[command] if said.get(key) is not None)


class Played:
    """A recording that is played, and asked what its session was asked, with the numbers that it gave itself."""

    def __init__(self, path):
        self.client = Recorded([DAP, "serve", path])
        self.frames = {}
        self.holders = {}
        # What stands beside, as it was said in the session, and as it is played.
        self.beside = ([], [])

    def keep(self, command, asked, told):
        for kept, those in zip(self.beside, (asked, told)):
            kept += beside(command, those, asked)

    def look(self, command, arguments, body, threads):
        """What was answered then and what is answered now, as far as a recording has it; nothing where it has no such."""
        if command == "threads" and set(threads) & set(ids(body["threads"])):
            told = self.client.ask(command)
            return [[(one["id"], one["name"]) for one in each["threads"] if one["id"] in threads] for each in (body, told)]
        if command == "stackTrace":
            told = self.client.ask(command, **arguments)
            self.frames.update(zip(ids(body["stackFrames"]), ids(told["stackFrames"])))
            self.keep(command, body["stackFrames"], told["stackFrames"])
            return [list(places_of(each["stackFrames"], body["stackFrames"])) for each in (body, told)]
        if command == "scopes":
            told = self.client.ask(command, frameId=self.frames[arguments["frameId"]])
            self.holders.update(zip(references(body["scopes"]), references(told["scopes"])))
            self.keep(command, body["scopes"], told["scopes"])
            names = [[one["name"] for one in each["scopes"]] for each in (body, told)]
            # What was evaluated there is in one more scope.
            return [names[0], names[1][:-1] if names[1][-1:] == ["Evaluations"] else names[1]]
        if command == "evaluate" and arguments.get("frameId") in self.frames:
            told = self.client.ask(command, **{**arguments, "frameId": self.frames[arguments["frameId"]]})
            self.holders[body["variablesReference"]] = told["variablesReference"]
            self.keep(command, [body], [told])
            return [[each["result"]] for each in (body, told)]
        if command == "variables" and (body["variables"] or self.holders[arguments["variablesReference"]]):
            told = self.client.ask(command, variablesReference=self.holders[arguments["variablesReference"]])
            self.holders.update(zip(references(body["variables"]), references(told["variables"])))
            self.keep(command, body["variables"], told["variables"])
            return [[(one["name"], one["value"]) for one in each["variables"]] for each in (body, told)]
        return None


def ids(those):
    return [one["id"] for one in those]


def references(those):
    return [one["variablesReference"] for one in those]


def places_of(frames, asked):
    """The names, lines and sources of frames; no name of a source that has none in the session. Line 0 becomes line 1."""
    for place, one in enumerate(frames):
        source = one.get("source", {})
        is_named = place >= len(asked) or {"name", "path"} & set(asked[place].get("source", {}))
        name = source.get("name") or os.path.basename(source.get("path", ""))
        yield one["name"], one["line"] or 1, source.get("path"), name if is_named else None


def examples():
    """The recordings of real debuggers' streams show at each stop what the session showed."""
    for name, up, down, is_stored in STREAMS:
        streams = [os.path.join(EXAMPLES, "streams", one + ".dap") for one in (up, down)]
        transcript = output_of([TRANSCRIPTS, "streams", *streams])[1]
        path = os.path.join(FOLDER, name + ".json")
        got = output_of([RECORD, path, "--remote", "--from", "/dev/stdin"], transcript)
        expect(f"record: {name}", got[:2], (0, b""))
        if is_stored:
            stored = bytes_of(os.path.join(EXAMPLES, "recordings", name + ".json"))
            expect(f"record: examples/recordings/{name}.json is this recording", stored == bytes_of(path), True)
        played_as(name, path, *looks_of(transcript))
        moved_as(name, path, transcript)
        status, _, err = output_of([FOLLOW, "--program", DAP, "--recording", path])
        expect(f"record: {name}: is followed", (status, err), (0, b""))


def played_as(name, path, stops, code):
    played = Played(path)
    stop = played.client.start()
    then, now, counts = [], [], {"stops": [0, 0]}
    for place, looks in enumerate(stops):
        threads = [arguments["threadId"] for command, arguments, _ in looks if command == "stackTrace"]
        counts["stops"][0] += 1
        counts["stops"][1] += stop is not None
        for command, arguments, body in looks:
            pair = played.look(command, arguments, body, threads)
            if pair:
                then.append((place, command, pair[0]))
                now.append((place, command, pair[1]))
                old, new = counts.get(command, [0, 0])
                counts[command] = [old + len(pair[0]), new + len(pair[1])]
        played.client.ask("stepIn", threadId=threads[0])
        stop = played.client.wait_for("stopped", "exited")
    expect(f"record: {name}: what is shown at each stop", [pair for pair in zip(then, now) if pair[0] != pair[1]], [])
    told = ", ".join(f"{new} {command}" for command, (_, new) in sorted(counts.items()))
    expect(f"record: {name}: {told}", [new for _, new in counts.values()], [old for old, _ in counts.values()])
    expect(f"record: {name}: it has stops, frames, scopes and variables", min(old for old, _ in counts.values()) > 0, True)
    said, again = played.beside
    expect(f"record: {name}: {len(again)} members stand beside", again, said)
    expect(f"record: {name}: there are such, types among them", "type" in {key for _, key, _ in said}, True)
    expect(f"record: {name}: it exits", stop["body"], {"exitCode": code})
    played.client.ask("disconnect")
    expect(f"record: {name}: and ends", played.client.end(), (0, []))


def moved_as(name, path, transcript):
    """The client's own moves, with the lines that it set, lead from stop to stop with the reasons of the session."""
    client, stops, said = Recorded([DAP, "serve", path]), [], []
    client.ask("initialize", adapterID="rec")
    client.send("launch")
    for line in transcript.decode().splitlines():
        message = json.loads(line[2:])
        if message.get("event") == "stopped":
            said.append(message["body"]["reason"])
        elif message["type"] == "request" and message["command"] in MOVES:
            client.ask(message["command"], **message.get("arguments", {}))
            if message["command"] != "setBreakpoints":
                stops.append(client.wait_for("stopped", "exited"))
    got = [stop["body"]["reason"] for stop in stops if stop["event"] == "stopped"]
    expect(f"record: {name}: the same moves", got, said)
    client.end()


MOVES = ("setBreakpoints", "configurationDone", "continue", "next", "stepIn", "stepOut")


# Recordings that were written by hand, played to a client, and recorded again.


def look_around(client, thread, texts):
    """Asks at a stop for all that there is, and once for the text of each source."""
    for one in client.ask("threads")["threads"]:
        for here in client.ask("stackTrace", threadId=one["id"])["stackFrames"]:
            source = here["source"]
            number = source.get("sourceReference", 0)
            if number and number not in texts:
                texts[number] = client.ask("source", source=source, sourceReference=number)
            left = references(client.ask("scopes", frameId=here["id"])["scopes"])
            while left:
                told = client.ask("variables", variablesReference=left.pop())["variables"]
                left += [number for number in references(told) if number]


def plain(recording):
    """A recording without the places of its sources, and with each key that may be left out; no moment waits."""

    def variables(those):
        return [(one["name"], one["value"], one.get("more", {}), variables(one.get("variables", []))) for one in those]

    def frames(those):
        for one in those:
            source = recording["sources"][one["source"]]
            scopes = one.get("scopes", [])
            held = [(scope["name"], scope.get("more", {}), variables(scope.get("variables", []))) for scope in scopes]
            yield one["name"], one["line"], one.get("more", {}), source["name"], source.get("path"), source["text"], held

    def moments():
        for one in recording["moments"]:
            threads = [(thread["id"], thread["name"], list(frames(thread["frames"]))) for thread in one["threads"]]
            yield threads, one["thread"], one.get("output", "")

    return recording["exit"], list(moments())


# A recording in which more is said beside a frame, a scope and variables.
SAID = recording_beside({"moduleId": 7}, {"presentationHint": "locals"}, {"type": "int", "own": [True]}, {"type": "pair"}, {}, {})


def again():
    """A session over a recording, recorded as it goes on, is that recording."""
    for path in [*RECORDINGS, file_of("beside.json", SAID)]:
        name, out = os.path.basename(path), os.path.join(FOLDER, "again.json")
        client = Recorded([RECORD, out, "--", DAP, "serve", path])
        stop, texts = client.start(), {}
        while stop and stop["event"] == "stopped":
            look_around(client, stop["body"]["threadId"], texts)
            client.ask("stepIn", threadId=stop["body"]["threadId"])
            stop = client.wait_for("stopped", "terminated")
        client.ask("disconnect")
        status, errors = client.end()
        expect(f"record {name} again: ends well", (status, len(errors)), (0, 1))
        expect(f"record {name} again", plain(recording_of(out)), plain(recording_of(path)))


# Random sessions over recordings with reasons of stops, recorded, and played by the same requests.


def by_moves():
    """The same requests give the same stops, with the same reasons, up to the exit."""
    wrong, stops, own = [], 0, 0
    for seed in range(200):
        choice = random.Random(seed)
        guided = moved_session(choice, file_of("moved", with_reasons(random_recording(choice))))
        session = recorder.Session()
        for one, answer in zip(guided.requests, guided.answers):
            session.hear(True, one)
            for _, body in split(answer):
                session.hear(False, json.loads(body))
        made, _ = recorder.recording_of(session, True)
        status, out, err = run(["serve", file_of("again", made)], b"".join(frames_of(guided.requests)))
        wanted = list(ways_of(b"".join(guided.answers)))
        stops += sum(isinstance(one, tuple) for one in wanted)
        own += sum("stop" in one for one in made["moments"])
        if (status, list(ways_of(out)), err) != (0, wanted, b""):
            wrong.append(seed)
    expect(f"record: random sessions with {stops} stops, of which {own} have a reason of their own", wrong, [])
    expect("record: random sessions have such, and others", stops > 2 * own > 400, True)


def with_reasons(recording):
    """A step that nobody made has no reason in a session; nor has what has none."""
    for one in recording["moments"]:
        if one.get("stop") in ("step", ""):
            del one["stop"]
    return recording


def moved_session(choice, path):
    """Lines are set at any time, and each stop is looked into. A run that is held is paused."""
    guided = Guided(path)
    guided.ask("initialize", {"adapterID": "rec"})
    guided.ask("launch")
    set_some_lines(guided, choice)
    guided.ask("configurationDone")
    while guided.session.phase != "Exited":
        if choice.randrange(3) == 0:
            set_some_lines(guided, choice)
        if guided.session.phase == "Running":
            guided.ask("pause", {"threadId": 0})
        else:
            there = guided.session.debuggee
            thread = {"threadId": there.moments[there.at]["thread"]}
            guided.ask("stackTrace", thread)
            guided.ask(choice.choice(["continue", "continue", "next", "stepIn", "stepOut"]), thread)
    guided.ask("disconnect")
    return guided


def set_some_lines(guided, choice):
    lines = [{"line": choice.randrange(1, 5)} for _ in range(choice.choice([0, 1, 1, 2]))]
    guided.ask("setBreakpoints", {"source": {"path": choice.choice(["/a", "/b"])}, "breakpoints": lines})


def ways_of(stream):
    """Of each stop the thread and the reason, and the exit code."""
    for message in (json.loads(body) for _, body in split(stream)):
        if message.get("event") == "stopped":
            yield message["body"]["threadId"], message["body"]["reason"]
        elif message.get("event") == "exited":
            yield message["body"]["exitCode"]


# A session as it goes on, and its ends.


def at_a_stop(out, recording=RECORDINGS[0]):
    """A client of a recorded session at its first stop, which it has looked into."""
    client = Recorded([RECORD, out, "--", DAP, "serve", recording])
    stop = client.start()
    look_around(client, stop["body"]["threadId"], {})
    return client


def live():
    """The ends of a session that give a recording."""
    first = plain(recording_of(RECORDINGS[0]))[1][:1]

    def closes(client):
        return None

    def disconnects(client):
        client.ask("disconnect")

    # These wait for the end, so that it is not the client's.
    def is_ended(client):
        client.child.send_signal(signal.SIGTERM)
        client.child.stdout.read()

    def is_interrupted(client):
        client.child.send_signal(signal.SIGINT)
        client.child.stdout.read()

    def loses_its_adapter(client):
        with open(f"/proc/{client.child.pid}/task/{client.child.pid}/children") as children:
            os.kill(int(children.read().split()[0]), signal.SIGKILL)
        client.child.stdout.read()

    def sends_no_frame(client):
        client.write(b"A: b\r\n\r\n")

    no_frame = "record: the client's stream has a header without Content-Length: what comes after it is not heard"
    for end, status, said in [
        (closes, 0, []),
        (disconnects, 0, []),
        (is_ended, 143, []),
        (is_interrupted, 130, []),
        (loses_its_adapter, 137, []),
        (sends_no_frame, 3, ["dap: NoLength at ", no_frame]),
    ]:
        out = os.path.join(FOLDER, "live.json")
        client = at_a_stop(out)
        end(client)
        got, errors = client.end()
        name = f"record: a client that {end.__name__.replace('_', ' ')}"
        expect(f"{name}: the status", got, status)
        said = [*said, "no event `exited` came", "1 moment, 1 source, exit code 0"]
        expect_in(name + ": what is said", "\n".join(errors), *said)
        expect(name, plain(recording_of(out))[1], first)
        os.remove(out)


def live_ends():
    """The recording is there before the client has the answer to its `disconnect`, or the event `terminated`."""
    first = plain(recording_of(RECORDINGS[0]))[1][:1]
    for name in ("disconnect", "terminated"):
        out = os.path.join(FOLDER, name + ".json")
        client = at_a_stop(out)
        if name == "terminated":
            go_to_the_end(client)
        else:
            client.ask("disconnect")
        client.child.kill()
        client.end()
        expect(f"record: killed after {name}", os.path.exists(out) and plain(recording_of(out))[1], first)


def go_to_the_end(client):
    client.ask("continue", threadId=1)
    # The last moment waits.
    client.ask("pause", threadId=1)
    client.wait_for("stopped")
    client.ask("continue", threadId=1)
    client.wait_for("terminated")


# Broken sessions.

ODD = [None, True, -1, 0, 1, 7, 59, 2**31, 2**53, 2**64, 1.5, "", "x", "\ud800", "a\0b"]
ODD += [[], {}, [{}], [None], {"id": 1}, {"name": 1}, {"type": [0.5]}]
ODD += [json.loads("[" * depth + "]" * depth) for depth in (99, 100)]


def places_in(value):
    """Each place within: an array or an object, and the key."""
    keys = value if isinstance(value, dict) else range(len(value)) if isinstance(value, list) else ()
    for key in keys:
        yield value, key
        yield from places_in(value[key])


def broken():
    """Whatever an adapter answers: a recording that is served, or none; and no other end."""
    path = os.path.join(EXAMPLES, "transcripts", "debugpy.txt")
    lines = [line for line in bytes_of(path).decode().splitlines() if line]
    wrong, made = [], 0
    for seed in range(200):
        choice = random.Random(seed)
        session = recorder.Session()
        for line in lines:
            message = json.loads(line[2:])
            for _ in range(choice.choice([0, 0, 0, 1, 2])):
                value, key = choice.choice(list(places_in(message)))
                value[key] = copy.deepcopy(choice.choice(ODD))
            session.hear(line[0] == ">", message)
        try:
            recording, _ = recorder.recording_of(session, True)
        except recorder.NoRecording:
            continue
        made += 1
        if run(["serve", json.dumps(recording, ensure_ascii=False).encode("utf-8", "replace")]) != fine():
            wrong.append(seed)
    expect("record: broken sessions are served", wrong, [])
    expect("record: broken sessions that have a recording", made > 20, True)
    sys.stdout.flush()
