"""Debugs sample.c with gdb by way of debugpy's own reader, writer and channel of the protocol (debugpy.common.messaging).

    client_debugpy.py PROGRAM SOURCE ADAPTER [ARGS..]

PROGRAM is made of SOURCE, which is sample.c; ADAPTER is dap-gdb, or a command that hands on what is said. Each thing that is
expected is a line `ok ..`; the first that is otherwise is a line `FAILED ..`, and the status is 1. It needs Debian's
python3-debugpy, and the Python that has it.
"""
import queue
import subprocess
import sys

from debugpy.common import messaging


def expect(name, came, wanted):
    if came != wanted:
        print("FAILED debugpy: %s\n  got    %r\n  wanted %r" % (name, came, wanted))
        sys.exit(1)
    print("ok debugpy:", name)


class Client:
    """Requests go by `ask`; events wait in the order in which they came."""

    def __init__(self, command):
        self.adapter = subprocess.Popen(command, stdin=subprocess.PIPE, stdout=subprocess.PIPE)
        self.events = queue.Queue()
        self.channel = messaging.JsonMessageChannel(messaging.JsonIOStream.from_process(self.adapter), self)
        self.channel.start()

    def event(self, event):
        self.events.put((event.event, event.body))

    def disconnect(self):
        self.events.put(("the end of the stream", None))

    def ask(self, command, **arguments):
        return self.channel.request(command, arguments)

    def refused(self, command, **arguments):
        try:
            return self.ask(command, **arguments)
        except messaging.MessageHandlingError as why:
            return str(why)

    def until(self, name):
        """The next event of a name, and what the program wrote before it. Others are passed over."""
        written = ""
        while True:
            event, body = self.events.get(timeout=60)
            if event == "output" and body["category"] == "stdout":
                written += body["output"]
            if event == name:
                return body, written

    def frames(self, thread):
        return self.ask("stackTrace", threadId=thread)["stackFrames"]

    def variables(self, reference):
        return {one["name"]: one for one in self.ask("variables", variablesReference=reference)["variables"]}

    def locals(self, frame):
        return self.variables(self.ask("scopes", frameId=frame)["scopes"][0]["variablesReference"])


def look(client, can, top, call):
    """What is in the first stop."""
    expect("the newest frame", (top["name"], top["line"]), ("main", call))
    shape = client.variables(client.locals(top["id"])["shape"]["variablesReference"])
    first = client.variables(shape["first"]["variablesReference"])
    expect("what a pointer points at", (first["x"]["value"], first["y"]["value"]), ("3", "4"))
    asked = client.ask("evaluate", expression="shape.first->x * 2", frameId=top["id"], context="watch")
    expect("evaluate", asked["result"], "6")
    why = client.refused("evaluate", expression="nothing + 1", frameId=top["id"])
    expect("evaluate what is not there", why, "debuggee")
    flags = "Completions", "Modules", "ReadMemory", "Disassemble", "ExceptionInfo"
    expect("what is opened", [can["supports%sRequest" % one] for one in flags], [True] * 5)
    targets = client.ask("completions", frameId=top["id"], text="1 + shap", column=9)["targets"]
    expect("completions", (targets[0]["label"], targets[0]["start"], targets[0]["length"]), ("shape", 5, 4))
    memory = client.ask("readMemory", memoryReference=shape["first"]["memoryReference"], count=8)
    expect("memory", memory["data"], "AwAAAAQAAAA=")
    pointer = top["instructionPointerReference"]
    code = client.ask("disassemble", memoryReference=pointer, instructionCount=2)["instructions"]
    expect("instructions", (len(code), code[0]["address"]), (2, pointer))
    modules = client.ask("modules", startModule=0, moduleCount=1)  # arguments without a key are left out by debugpy
    expect("modules", (len(modules["modules"]), modules["totalModules"] > 0), (1, True))
    was_set = client.ask("setExpression", expression="shape.first->x", value="9", frameId=top["id"])
    expect("setExpression", was_set["value"], "9")


def main():
    program, source, command = sys.argv[1], sys.argv[2], sys.argv[3:]
    with open(source) as file:
        text = file.read()
    call, prints = (text[: text.index(part)].count("\n") + 1 for part in ("= sum_of(", '"sum %d'))
    client = Client(command)
    can = client.ask("initialize", adapterID="gdb", pathFormat="path", linesStartAt1=True, columnsStartAt1=True)
    client.until("initialized")
    launch = client.channel.send_request("launch", {"program": program})
    points = client.ask("setBreakpoints", source={"path": source}, breakpoints=[{"line": call}, {"line": 1000}])
    expect("breakpoints", [one["verified"] for one in points["breakpoints"]], [True, False])
    client.ask("configurationDone")
    launch.wait_for_response()
    stop, written = client.until("stopped")
    expect("a breakpoint, with output before", (stop["reason"], written), ("breakpoint", "begin triangle\n"))
    look(client, can, client.frames(stop["threadId"])[0], call)
    client.ask("next", threadId=stop["threadId"])
    stop, _ = client.until("stopped")
    while stop["reason"] != "step":
        stop, _ = client.until("stopped")
    top = client.frames(stop["threadId"])[0]
    expect("next", (top["name"], top["line"]), ("main", prints))
    expect("the sum of what was set", client.locals(top["id"])["sum"]["value"], "15")
    client.ask("continue", threadId=stop["threadId"])
    exited, written = client.until("exited")
    expect("the exit", (exited["exitCode"], written), (3, "sum 15\nend\n"))
    client.until("terminated")
    client.ask("disconnect")
    client.until("the end of the stream")
    client.adapter.stdin.close()
    expect("nothing is left", client.adapter.wait(60), 0)


main()
