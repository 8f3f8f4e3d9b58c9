"""Sessions of the adapter of examples/gdb with the requests that `dap host` leaves to it. Expected values are written out by hand,
by what the programs say."""
import base64
import os

from gdb_client import SOURCE, Client, is_able, left_behind, line_of, made
from trial import expect

CRASH = """
struct item { int left; int right; };
static int value_of(int *place) { return *place; }
int main(int argc, char **argv) {
    struct item item = {1, 2};
    int sum = item.left + item.right;
    int *nowhere = argc > 100 ? &sum : 0;
    sum += value_of(&item.left) + value_of(nowhere);
    return sum;
}
"""
THREADS = """
#include <pthread.h>
#include <stdio.h>
#include <unistd.h>
static void *work(void *unused) {
    for (;;) {
        usleep(1000);
    }
    return unused;
}
int main(void) {
    pthread_t threads[2];
    for (int i = 0; i < 2; i++) pthread_create(&threads[i], 0, work, 0);
    for (int i = 0; i < 2; i++) pthread_join(threads[i], 0);
    printf("all have ended\\n");
    return 0;
}
"""
FLAGS = ("supportsBreakpointLocationsRequest", "supportsCompletionsRequest", "supportsDataBreakpoints", "supportsDisassembleRequest",
         "supportsExceptionInfoRequest", "supportsFunctionBreakpoints", "supportsGotoTargetsRequest", "supportsInstructionBreakpoints",
         "supportsModulesRequest", "supportsReadMemoryRequest", "supportsRestartRequest", "supportsSetExpression",
         "supportsStepInTargetsRequest", "supportsTerminateThreadsRequest", "supportsWriteMemoryRequest")
EVENTS = {"supportsInvalidatedEvent": True, "supportsMemoryEvent": True}


def failure(client, command, **arguments):
    """The short name of a failure, and its words."""
    answer = client.answer_to(client.send(command, **arguments), whole=True)
    if answer["success"]:
        return "success", answer.get("body")
    error = answer["body"]["error"]
    return answer["message"], error["format"].format(**error.get("variables", {}))


def missing(key):
    return "badArguments", "The argument %s is missing or malformed." % key


def labels(answer):
    return [one["label"] for one in answer["targets"]]


def at_line(text, folder, name, *words, source=SOURCE, says=()):
    """A client whose program stands at the line with this text."""
    client = Client(folder, name, *words, says=says)
    client.start([line_of(text, source)], source=source)
    client.stop()
    client.set_breakpoints([], source)
    return client


def crashed(folder, program):
    """A client of a program that received SIGSEGV."""
    source = os.path.join(os.path.dirname(program), "crash.c")
    with open(source, "w") as file:
        file.write(CRASH)
    client = Client(folder, "crash.txt", made(os.path.dirname(program), "crash", source))
    client.start([line_of("sum += value_of", source)], source=source)
    client.stop()
    return client


def offers(folder, program):
    """What is offered, and what is asked before there is a program."""
    client = Client(folder, "offered.txt")
    flags = client.ask("initialize", adapterID="gdb")
    expect("flags", [flag for flag in FLAGS if flags.get(flag) is not True], [])
    client.event("initialized")
    expect("no files of code", client.ask("modules"), {"modules": [], "totalModules": 0})
    [point] = client.ask("setFunctionBreakpoints", breakpoints=[{"name": "sum_of"}])["breakpoints"]
    expect("a function of no program", (point["verified"], "message" in point), (False, True))
    expect("no data breakpoints", client.ask("setDataBreakpoints", breakpoints=[]), {"breakpoints": []})
    expect("an address of no program", client.ask("setInstructionBreakpoints", breakpoints=[{"instructionReference": "0x10"}])
           ["breakpoints"][0]["verified"], False)
    expect("no stop", client.ask("readMemory", memoryReference="0x10", count=1), "wrongPhase")
    expect("restart of no program", failure(client, "restart")[0], "debuggee")
    client.send("launch", program=program)
    client.ask("configurationDone")
    told = client.events_to("stopped")
    expect("it has its code now", [one["body"]["breakpoint"] for one in told if one["event"] == "breakpoint"],
           [{"id": point["id"], "verified": True, "line": line_of("int sum = 0"), "source": {"name": "sample.c", "path": SOURCE}}])
    expect("it is hit", (told[-1]["body"]["reason"], told[-1]["body"]["hitBreakpointIds"]), ("function breakpoint", [point["id"]]))
    client.leave()


def functions(folder, program):
    """Breakpoints of functions, with a condition and a count of hits."""
    client = Client(folder, "functions.txt", program)
    client.ask("initialize", adapterID="gdb")
    client.event("initialized")
    client.send("launch")
    rows = [{"name": "sum_of", "condition": "count == 3", "hitCondition": "1"}, {"name": "sum_of", "condition": "count == 4"}, {"name": "a b"}]
    points = client.ask("setFunctionBreakpoints", breakpoints=rows)["breakpoints"]
    expect("functions", [(one["verified"], one.get("line")) for one in points],
           [(True, line_of("int sum = 0")), (True, line_of("int sum = 0")), (False, None)])
    client.ask("configurationDone")
    _, body, _ = client.event("stopped")
    expect("a function breakpoint", (body["reason"], body["hitBreakpointIds"]), ("function breakpoint", [points[0]["id"]]))
    expect("others in their place", client.ask("setFunctionBreakpoints", breakpoints=[]), {"breakpoints": []})
    client.ask("continue", threadId=1)
    expect("none is hit any more", client.event("stopped", "exited")[0], "exited")
    client.leave()


def completions(folder, program):
    """What an expression can go on with."""
    client = at_line("sum +=", folder, "completed.txt", program)
    expect("members", client.ask("completions", text="1 + shape->co", column=14),
           {"targets": [{"label": "corners", "start": 12, "length": 2}]})
    expect("all members", labels(client.ask("completions", text="shape->", column=8)), ["corners", "first", "name"])
    expect("a function", "sum_of" in labels(client.ask("completions", text="sum", column=4)), True)
    expect("of the caller", labels(client.ask("completions", text="wait", column=5, frameId=client.frames[1]["id"]))[-1:], ["waits"])
    text = '"\U0001F600" + shape->co'
    expect("code units of UTF-16", client.ask("completions", text=text, column=17)["targets"],
           [{"label": "corners", "start": 15, "length": 2}])
    expect("the second line", labels(client.ask("completions", text="x\nshape->fi", line=2, column=10)), ["first"])
    expect("nothing", client.ask("completions", text="", column=1), {"targets": []})
    client.leave()


def signals(folder, program):
    """The signal that a thread received, and steps into one of two functions."""
    client = crashed(folder, program)
    expect("no signal", failure(client, "exceptionInfo", threadId=1), ("debuggee", "Thread 1 received no signal."))
    targets = client.ask("stepInTargets", frameId=client.frames[0]["id"])
    expect("what can be stepped into", labels(targets), ["value_of"])
    expect("a place of no stop", failure(client, "stepIn", threadId=1, targetId=99)[0], "debuggee")
    client.ask("stepIn", threadId=1, targetId=targets["targets"][0]["id"])
    expect("a step into it", client.stop()[:2], ("step", "value_of"))
    expect("a function that calls none", client.ask("stepInTargets", frameId=client.frames[0]["id"]), {"targets": []})
    client.ask("continue", threadId=1)
    expect("a signal", client.event("stopped")[1]["reason"], "exception")
    info = client.ask("exceptionInfo", threadId=1)
    expect("its name", (info["exceptionId"], info["description"], info["breakMode"]),
           ("SIGSEGV", "Segmentation fault at address 0x0", "always"))
    expect("its details", (info["details"]["typeName"], "main" in info["details"]["stackTrace"]), ("SIGSEGV", True))
    expect("a thread without one", failure(client, "exceptionInfo", threadId=2)[0], "debuggee")
    client.leave()


def memory(folder, program):
    """Memory that is read and written, and instructions."""
    client = at_line("sum +=", folder, "memory.txt", program, says=EVENTS)
    place = client.ask("evaluate", expression="&shape->corners[1]", frameId=client.frames[0]["id"])["memoryReference"]
    expect("memory", client.ask("readMemory", memoryReference=place, count=8),
           {"address": place, "data": base64.b64encode(bytes([3, 0, 0, 0, 4, 0, 0, 0])).decode()})
    expect("with an offset", client.ask("readMemory", memoryReference=place, offset=-4, count=1)["data"], "Ag==")
    expect("no bytes", client.ask("readMemory", memoryReference=place, count=0), {"address": place})
    expect("what can't be read", client.ask("readMemory", memoryReference="0x0", count=9), {"address": "0x0", "unreadableBytes": 9})
    client.variables(client.scopes(0)["Arguments"])
    writing(client, place)
    instructions(client)
    client.leave()


def writing(client, place):
    expect("bytes are written", client.ask("writeMemory", memoryReference=place, offset=4, data="BwAAAA=="), {"bytesWritten": 4})
    expect("values may be others", client.event("invalidated")[1], {"areas": ["variables"]})
    expect("so is the memory", client.event("memory")[1], {"memoryReference": place, "offset": 4, "count": 4})
    client.look()
    expect("what was written", client.evaluate("shape->corners[1]", 0), "{x = 3, y = 7}")
    expect("what can't be written", failure(client, "writeMemory", memoryReference="0x0", data="AAAA"),
           ("debuggee", "Cannot access memory at address 0x0"))


def instructions(client):
    here = client.frames[0]["instructionPointerReference"]
    found = client.ask("disassemble", memoryReference=here, instructionOffset=-2, instructionCount=5)["instructions"]
    expect("instructions", (len(found), found[2]["address"], found[2]["line"]), (5, here, line_of("sum +=")))
    expect("the first has a source", found[0]["location"], {"name": "sample.c", "path": SOURCE})
    expect("each follows the one before", [int(one["address"], 16) + len(bytes.fromhex(one["instructionBytes"])) for one in found[:-1]],
           [int(one["address"], 16) for one in found[1:]])
    begin = client.ask("evaluate", expression="(long) sum_of", frameId=client.frames[0]["id"])["result"]
    [first] = client.ask("disassemble", memoryReference=hex(int(begin)), instructionCount=1)["instructions"]
    expect("a symbol", first["symbol"], "sum_of")
    nowhere = client.ask("disassemble", memoryReference="0x10", instructionOffset=-1, instructionCount=3)["instructions"]
    expect("what can't be read", [(one["address"], one["instruction"]) for one in nowhere],
           [(address, "(no instruction)") for address in ("0xf", "0x10", "0x11")])
    [point, no_point] = client.ask("setInstructionBreakpoints", breakpoints=[
        {"instructionReference": found[4]["address"], "offset": 0}, {"instructionReference": "0x0"}])["breakpoints"]
    expect("breakpoints of instructions", (point["verified"], no_point["verified"]), (True, False))
    client.ask("continue", threadId=1)
    _, body, _ = client.event("stopped")
    expect("one is hit", (body["reason"], body["hitBreakpointIds"]), ("instruction breakpoint", [point["id"]]))
    client.look()
    expect("it stops there", client.frames[0]["instructionPointerReference"], found[4]["address"])


def assignments(folder, program):
    """Expressions that are set."""
    client = at_line("sum +=", folder, "assigned.txt", program, says=EVENTS)
    frame = client.frames[0]["id"]
    client.variables(client.scopes(0)["Locals"])
    expect("an expression is set", client.ask("setExpression", expression="shape->corners[0].x", value="40 + 2", frameId=frame), {"value": "42"})
    expect("values may be others", client.event("invalidated")[1], {"areas": ["variables"]})
    expect("it has that value", client.evaluate("shape->corners[0].x", 0), "42")
    expect("no place", failure(client, "setExpression", expression="sum + 1", value="1", frameId=frame)[0], "debuggee")
    expect("no value", failure(client, "setExpression", expression="sum", value="nothing", frameId=frame),
           ("debuggee", 'No symbol "nothing" in current context.'))
    expect("what was told is another value", client.ask("setExpression", expression="sum", value="5", frameId=frame), {"value": "5"})
    expect("it is told again", client.event("continued", "stopped")[0], "continued")
    client.stop()
    expect("values then", client.values(client.scopes(0)["Locals"])["sum"], "5")
    client.leave()


def data_points(folder, program):
    """Data that is watched."""
    client = at_line("int sum = sum_of", folder, "watched.txt", program)
    locals = client.scopes(0)["Locals"]
    info = client.ask("dataBreakpointInfo", variablesReference=locals, name="sum")
    expect("data", (info["description"].split(" at ")[0], info["accessTypes"], info["canPersist"]),
           ("sum: 4 bytes", ["read", "write", "readWrite"], False))
    by_text = client.ask("dataBreakpointInfo", name="shape.corners[2].y")
    expect("by an expression", by_text["description"].split(" at ")[0], "shape.corners[2].y: 4 bytes")
    expect("more than a processor watches", client.ask("dataBreakpointInfo", variablesReference=locals, name="shape")["dataId"], None)
    expect("no place in memory", client.ask("dataBreakpointInfo", name="1 + 1")["dataId"], None)
    expect("no variable", failure(client, "dataBreakpointInfo", variablesReference=locals, name="nothing"), ("debuggee", "There is no nothing here."))
    expect("no value", failure(client, "dataBreakpointInfo", name="nothing")[0], "debuggee")
    rows = [{"dataId": info["dataId"]}, {"dataId": by_text["dataId"], "accessType": "write"}, {"dataId": "sum"}]
    points = client.ask("setDataBreakpoints", breakpoints=rows)["breakpoints"]
    if not points[0]["verified"]:
        print("skipped: gdb can watch no data here")
    else:
        expect("data breakpoints", [one["verified"] for one in points], [True, True, False])
        many = [{"dataId": "%#x:8" % (int(info["dataId"].split(":")[0], 16) // 8 * 8 + 8 * n)} for n in range(5)]
        expect("more than there are registers", [one["verified"] for one in client.ask("setDataBreakpoints", breakpoints=many)["breakpoints"]],
               [True] * 4 + [False])
        points = client.ask("setDataBreakpoints", breakpoints=rows[:1])["breakpoints"]
        client.ask("continue", threadId=1)
        _, body, _ = client.event("stopped")
        expect("a change", (body["reason"], body["hitBreakpointIds"]), ("data breakpoint", [points[0]["id"]]))
        client.look()
        expect("the value then", client.evaluate("sum", 0), "9")
    client.leave()


def code(folder, program):
    """Lines with code, files of code, and another place to go on from."""
    client = at_line("sum +=", folder, "code.txt", program)
    source, adds = {"path": SOURCE}, line_of("sum +=")
    expect("lines with code", client.ask("breakpointLocations", source=source, line=adds - 3, endLine=adds + 1),
           {"breakpoints": [{"line": line} for line in (adds - 2, adds - 1, adds)]})
    expect("a line without", client.ask("breakpointLocations", source=source, line=1), {"breakpoints": []})
    expect("a source of no program", client.ask("breakpointLocations", source={"path": "/none.c"}, line=1), {"breakpoints": []})
    all_modules = client.ask("modules")
    expect("files of code", (all_modules["totalModules"], all_modules["modules"][0]),
           (len(all_modules["modules"]), {"id": program, "name": "sample", "path": program}))
    expect("one of them", client.ask("modules", startModule=1, moduleCount=1),
           {"modules": all_modules["modules"][1:2], "totalModules": all_modules["totalModules"]})
    jumps(client, source)
    client.leave()


def jumps(client, source):
    returns, prints = line_of("return sum;"), line_of('"sum %d')
    [target] = client.ask("gotoTargets", source=source, line=returns)["targets"]
    expect("a place to go to", (target["label"], target["line"]), ("sum_of at line %d" % returns, returns))
    [other] = client.ask("gotoTargets", source=source, line=prints)["targets"]
    expect("no such source", client.ask("gotoTargets", source={"path": "/none.c"}, line=1), {"targets": []})
    expect("another function", failure(client, "goto", threadId=1, targetId=other["id"]),
           ("debuggee", "Thread 1 is in another function than line %d." % prints))
    expect("no place", failure(client, "goto", threadId=1, targetId=99), ("staleReference", "targetId 99 is no place of this stop."))
    expect("no thread", failure(client, "goto", threadId=9, targetId=target["id"])[0], "unknownThread")
    expect("goto", client.ask("goto", threadId=1, targetId=target["id"]), {})
    expect("it goes on by itself", client.event("continued", "stopped")[0], "continued")
    expect("and stands there", client.stop()[:3], ("goto", "sum_of", returns))
    expect("nothing ran meanwhile", client.evaluate("sum", 0), "0")
    expect("a step from there", client.resume("stepOut")[1], "main")


def again(folder, program):
    """A program that is started again: as it stands, as it runs, with other arguments; and one that is over."""
    call = line_of("= sum_of(")
    client = Client(folder, "again.txt", program)
    client.start([call])
    expect("it stops", client.stop(), ("breakpoint", "main", call, "begin triangle\n"))
    watch = client.ask("dataBreakpointInfo", name="shape.name")["dataId"]
    [point] = client.ask("setDataBreakpoints", breakpoints=[{"dataId": watch}])["breakpoints"]
    expect("restart", client.ask("restart"), {})
    told = client.events_to("stopped")
    expect("it goes on by itself", told[0]["event"], "continued")
    expect("there is another process", [one["body"]["startMethod"] for one in told if one["event"] == "process"], ["launch"])
    if point["verified"]:
        expect("data is not watched any more", [one["body"]["breakpoint"]["verified"] for one in told if one["event"] == "breakpoint"], [False])
    expect("it stops again", (told[-1]["body"]["reason"], "".join(one["body"]["output"] for one in told if one["event"] == "output")),
           ("breakpoint", "begin triangle\n"))
    client.set_breakpoints([])
    expect("with other arguments", client.ask("restart", arguments={"program": program, "args": ["wait"], "stopOnEntry": True}), {})
    expect("it has them", (client.stop()[0], client.evaluate("argv[1]", 0)[-6:]), ("entry", '"wait"'))
    client.ask("continue", threadId=1)
    written = ""
    while "sum" not in written:
        written += client.event("output")[1]["output"]
    expect("another program", failure(client, "restart", arguments={"program": "/bin/true"})[0], "debuggee")
    expect("while it runs", client.ask("restart", arguments={"program": program}), {})
    expect("to its exit", client.event("exited"), ("exited", {"exitCode": 3}, "begin triangle\nsum 9\nend\n"))
    client.event("terminated")
    expect("one that is over", failure(client, "restart"), ("debuggee", "There is no program to start again."))
    client.leave()


def again_at_once(folder, program):
    """Programs that are started again, and ended before they are."""
    for last in "terminate", "disconnect", "restart":
        client = at_line("= sum_of(", folder, "at_once.txt", program, "wait")
        asked = client.send("restart"), client.send(last)
        expect("restart and %s" % last, [client.answer_to(seq) for seq in asked], [{}, {}])
        if last == "terminate":
            expect("it is over", client.event("terminated")[0], "terminated")
        if last == "disconnect":
            expect("the end", client.child.wait(30), 0)
            client.keep()
        else:
            client.leave()
        expect("processes left of it", left_behind(), [])


def thread_ends(folder, program):
    """Threads that are ended."""
    source = os.path.join(os.path.dirname(program), "threads.c")
    with open(source, "w") as file:
        file.write(THREADS)
    if not is_able(program, "print (int) getppid() > 0", b"$1 = 1"):
        print("skipped: gdb can call no function here")
        return
    client = Client(folder, "ended.txt", made(os.path.dirname(program), "threads", source, "-pthread"))
    client.start([line_of("pthread_join", source)], source=source)
    expect("the first thread stops", client.event("stopped")[1]["threadId"], 1)
    client.set_breakpoints([line_of("usleep(1000)", source)], source)
    client.ask("continue", threadId=1)
    there = client.event("stopped")[1]["threadId"]
    client.set_breakpoints([], source)
    expect("no thread", failure(client, "terminateThreads", threadIds=[9]), ("unknownThread", "There is no thread 9."))
    expect("the first thread", failure(client, "terminateThreads", threadIds=[there, 1])[0], "debuggee")
    expect("a thread is ended", client.ask("terminateThreads", threadIds=[there]), {})
    told = client.events_to("stopped")
    expect("it goes on by itself", [one["event"] for one in told], ["continued", "thread", "stopped"])
    expect("the thread is gone", told[1]["body"], {"reason": "exited", "threadId": there})
    expect("another one stands", (told[2]["body"]["reason"], told[2]["body"]["threadId"]), ("pause", 1))
    left = [one["id"] for one in client.ask("threads")["threads"]]
    expect("those that are left", (len(left), there in left), (2, False))
    expect("the other one", client.ask("terminateThreads", threadIds=[max(left)]), {})
    expect("the stop is told again", client.event("stopped")[1]["threadId"], 1)
    client.ask("continue", threadId=1)
    expect("the exit", client.event("exited")[1:], ({"exitCode": 0}, "all have ended\n"))
    client.leave()


def meanwhile(folder, program):
    """What is asked while the program runs."""
    client = at_line("= sum_of(", folder, "meanwhile.txt", program, "wait")
    frame = client.frames[0]["id"]
    client.ask("continue", threadId=1)
    written = ""
    while "sum" not in written:
        written += client.event("output")[1]["output"]
    expect("functions of a run", labels(client.ask("completions", text="sum_", column=5)), ["sum_of"])
    expect("files of code of a run", client.ask("modules")["totalModules"] > 1, True)
    expect("lines with code of a run", client.ask("breakpointLocations", source={"path": SOURCE}, line=line_of("usleep")),
           {"breakpoints": [{"line": line_of("usleep")}]})
    for command, arguments in [("readMemory", {"memoryReference": "0x10", "count": 1}), ("goto", {"threadId": 1, "targetId": 1}),
                               ("setExpression", {"expression": "sum", "value": "1"}), ("exceptionInfo", {"threadId": 1}),
                               ("dataBreakpointInfo", {"name": "sum"}), ("setDataBreakpoints", {"breakpoints": [{"dataId": "0x10:4"}]})]:
        expect("%s of a run" % command, failure(client, command, **arguments)[0], "notStopped")
    client.ask("setFunctionBreakpoints", breakpoints=[{"name": "usleep"}])
    expect("a function of a run", client.event("stopped")[1]["reason"], "function breakpoint")
    client.leave()


def refusals(folder, program):
    """Arguments that are missing or bad, each named by its failure; frames and holders of no stop."""
    client = Client(folder, "refused.txt", program, lawful=False)
    client.start([line_of("sum +=")])
    client.stop()
    source, watched_at = {"path": SOURCE}, client.ask("dataBreakpointInfo", name="sum")["dataId"]
    for key, command, arguments in [
            ("text", "completions", {"text": 1, "column": 1}), ("column", "completions", {"text": "a", "column": 9}),
            ("column", "completions", {"text": "a"}), ("line", "completions", {"text": "a", "column": 1, "line": 2}),
            ("threadId", "exceptionInfo", {"threadId": "1"}), ("breakpoints", "setFunctionBreakpoints", {"breakpoints": {}}),
            ("breakpoints", "setFunctionBreakpoints", {}),
            ("memoryReference", "disassemble", {"instructionCount": 1}),
            ("instructionCount", "disassemble", {"memoryReference": "0x10"}),
            ("resolveSymbols", "disassemble", {"memoryReference": "0x10", "instructionCount": 1, "resolveSymbols": 1}),
            ("memoryReference", "readMemory", {"memoryReference": "here", "count": 1}),
            ("memoryReference", "readMemory", {"memoryReference": "-1", "count": 1}),
            ("offset", "readMemory", {"memoryReference": "0x1", "offset": -2, "count": 1}),
            ("count", "readMemory", {"memoryReference": "0x1", "count": 2 ** 21 + 1}), ("count", "readMemory", {"memoryReference": "0x1"}),
            ("data", "writeMemory", {"memoryReference": "0x1"}), ("data", "writeMemory", {"memoryReference": "0x1", "data": "A"}),
            ("allowPartial", "writeMemory", {"memoryReference": "0x1", "data": "AAAA", "allowPartial": 1}),
            ("startModule", "modules", {"startModule": -1}), ("moduleCount", "modules", {"moduleCount": "2"}),
            ("expression", "setExpression", {"value": "1"}), ("value", "setExpression", {"expression": "sum"}),
            ("name", "dataBreakpointInfo", {}), ("dataId", "setDataBreakpoints", {"breakpoints": [{}]}),
            ("accessType", "setDataBreakpoints", {"breakpoints": [{"dataId": watched_at, "accessType": "x"}]}),
            ("source", "breakpointLocations", {"line": 1}), ("line", "breakpointLocations", {"source": source}),
            ("endLine", "breakpointLocations", {"source": source, "line": 9, "endLine": 8}),
            ("instructionReference", "setInstructionBreakpoints", {"breakpoints": [{"instructionReference": "x"}]}),
            ("offset", "setInstructionBreakpoints", {"breakpoints": [{"instructionReference": "0x1", "offset": "1"}]}),
            ("frameId", "stepInTargets", {}), ("source", "gotoTargets", {"line": 1}), ("path", "gotoTargets", {"source": {}, "line": 1}),
            ("line", "gotoTargets", {"source": source, "line": "1"}), ("targetId", "goto", {"threadId": 1}),
            ("threadId", "goto", {"targetId": 1}), ("arguments", "restart", {"arguments": []}),
            ("threadIds", "terminateThreads", {}), ("threadIds", "terminateThreads", {"threadIds": ["1"]})]:
        expect("%s: %s" % (command, key), failure(client, command, **arguments), missing(key))
    for command, arguments in [("completions", {"text": "a", "column": 2, "frameId": 999}), ("stepInTargets", {"frameId": 999}),
                               ("setExpression", {"expression": "sum", "value": "1", "frameId": 999}),
                               ("dataBreakpointInfo", {"variablesReference": 999, "name": "sum"})]:
        expect("%s of no stop" % command, failure(client, command, **arguments)[0], "staleReference")
    expect("it is all there", client.evaluate("sum", 0), "0")
    client.leave()


SESSIONS = offers, functions, completions, signals, memory, assignments, data_points, code, again, again_at_once, thread_ends, meanwhile, refusals
