// client debugs sample.c with gdb by way of google/go-dap: with that package's types, its reader and its writer.
//
//	client PROGRAM SOURCE ADAPTER [ARGS..]
//
// PROGRAM is made of SOURCE, which is sample.c; ADAPTER is dap-gdb, or a command that hands on what is said. Each thing that is
// expected is a line `ok ..`; the first that is otherwise is a line `FAILED ..`, and the status is 1.
//
//	GOPATH=/usr/share/gocode GO111MODULE=off go build client.go     (Debian: golang-go golang-github-google-go-dap-dev)
package main

import (
	"bufio"
	"encoding/json"
	"fmt"
	"io"
	"os"
	"os/exec"
	"strings"

	"github.com/google/go-dap"
)

// expect compares what came, with blanks between, with what is wanted.
func expect(name, wanted string, came ...any) {
	if got := strings.TrimSpace(fmt.Sprintln(came...)); got != wanted {
		must(fmt.Errorf("%s\n  got    %s\n  wanted %s", name, got, wanted))
	}
	fmt.Println("ok go-dap:", name)
}

func must(err error) {
	if err != nil {
		fmt.Println("FAILED go-dap:", err)
		os.Exit(1)
	}
}

type client struct {
	reader  *bufio.Reader
	writer  io.WriteCloser
	seq     int
	answers map[int]dap.ResponseMessage // that came before they were waited for
	events  []dap.EventMessage          // likewise
}

func (c *client) send(command string, request dap.RequestMessage) int {
	c.seq++
	*request.GetRequest() = dap.Request{ProtocolMessage: dap.ProtocolMessage{Seq: c.seq, Type: "request"}, Command: command}
	must(dap.WriteProtocolMessage(c.writer, request))
	return c.seq
}

// read keeps the next message.
func (c *client) read() {
	message, err := dap.ReadProtocolMessage(c.reader)
	must(err)
	switch message := message.(type) {
	case dap.EventMessage:
		c.events = append(c.events, message)
	case dap.ResponseMessage:
		c.answers[message.GetResponse().RequestSeq] = message
	default:
		must(fmt.Errorf("no response and no event: %v", message))
	}
}

func (c *client) answer(seq int) dap.ResponseMessage {
	for c.answers[seq] == nil {
		c.read()
	}
	return c.answers[seq]
}

// ask gives the response to a request, which has to be of the type R: of a failure it is *dap.ErrorResponse.
func ask[R dap.ResponseMessage](c *client, command string, request dap.RequestMessage) R {
	answer := c.answer(c.send(command, request))
	right, ok := answer.(R)
	if !ok {
		must(fmt.Errorf("%s was answered by %T: %s", command, answer, answer.GetResponse().Message))
	}
	return right
}

// until gives the next event of a type, and what the program wrote before it. Others are passed over.
func until[E dap.EventMessage](c *client) (E, string) {
	written := ""
	for {
		for len(c.events) == 0 {
			c.read()
		}
		event := c.events[0]
		c.events = c.events[1:]
		if output, ok := event.(*dap.OutputEvent); ok && output.Body.Category == "stdout" {
			written += output.Body.Output
		}
		if right, ok := event.(E); ok {
			return right, written
		}
	}
}

func (c *client) frames(thread int) []dap.StackFrame {
	request := &dap.StackTraceRequest{Arguments: dap.StackTraceArguments{ThreadId: thread}}
	return ask[*dap.StackTraceResponse](c, "stackTrace", request).Body.StackFrames
}

// variables are those of a reference by their names.
func (c *client) variables(reference int) map[string]dap.Variable {
	request := &dap.VariablesRequest{Arguments: dap.VariablesArguments{VariablesReference: reference}}
	byName := map[string]dap.Variable{}
	for _, one := range ask[*dap.VariablesResponse](c, "variables", request).Body.Variables {
		byName[one.Name] = one
	}
	return byName
}

// locals are the variables of a frame's first scope.
func (c *client) locals(frame int) map[string]dap.Variable {
	request := &dap.ScopesRequest{Arguments: dap.ScopesArguments{FrameId: frame}}
	scope := ask[*dap.ScopesResponse](c, "scopes", request).Body.Scopes[0]
	expect("a scope", "Locals", scope.Name)
	return c.variables(scope.VariablesReference)
}

func evaluation(text string, frame int) *dap.EvaluateRequest {
	return &dap.EvaluateRequest{Arguments: dap.EvaluateArguments{Expression: text, FrameId: frame, Context: "watch"}}
}

// opened asks for what the adapter answers by its name, in a stop with this frame and this pointer to {3, 4}.
func (c *client) opened(can dap.Capabilities, top dap.StackFrame, pointer dap.Variable) {
	expect("opened", "true true true true", can.SupportsCompletionsRequest, can.SupportsModulesRequest, can.SupportsReadMemoryRequest,
		can.SupportsDisassembleRequest)
	typed := dap.CompletionsArguments{FrameId: top.Id, Text: "1 + shap", Column: 9}
	targets := ask[*dap.CompletionsResponse](c, "completions", &dap.CompletionsRequest{Arguments: typed}).Body.Targets
	expect("completions", "shape 5 4", targets[0].Label, targets[0].Start, targets[0].Length)
	all := dap.ReadMemoryArguments{MemoryReference: pointer.MemoryReference, Count: 8}
	expect("memory", "AwAAAAQAAAA=", ask[*dap.ReadMemoryResponse](c, "readMemory", &dap.ReadMemoryRequest{Arguments: all}).Body.Data)
	two := dap.DisassembleArguments{MemoryReference: top.InstructionPointerReference, InstructionCount: 2}
	code := ask[*dap.DisassembleResponse](c, "disassemble", &dap.DisassembleRequest{Arguments: two}).Body.Instructions
	expect("instructions", "2 true", len(code), code[0].Address == top.InstructionPointerReference)
	modules := ask[*dap.ModulesResponse](c, "modules", &dap.ModulesRequest{}).Body
	expect("modules", "true", modules.TotalModules == len(modules.Modules) && len(modules.Modules) > 0)
}

func (c *client) session(program, source string) {
	text, err := os.ReadFile(source)
	must(err)
	lineOf := func(part string) int { return strings.Count(strings.SplitN(string(text), part, 2)[0], "\n") + 1 }
	call, prints := lineOf("= sum_of("), lineOf(`"sum %d`)

	hello := dap.InitializeRequestArguments{AdapterID: "gdb", PathFormat: "path", LinesStartAt1: true, ColumnsStartAt1: true}
	can := ask[*dap.InitializeResponse](c, "initialize", &dap.InitializeRequest{Arguments: hello}).Body
	expect("capabilities", "true true", can.SupportsConfigurationDoneRequest, can.SupportsSetVariable)
	until[*dap.InitializedEvent](c)
	arguments, err := json.Marshal(map[string]string{"program": program})
	must(err)
	launch := c.send("launch", &dap.LaunchRequest{Arguments: arguments})
	set := dap.SetBreakpointsArguments{Source: dap.Source{Path: source}, Breakpoints: []dap.SourceBreakpoint{{Line: call}, {Line: 1000}}}
	points := ask[*dap.SetBreakpointsResponse](c, "setBreakpoints", &dap.SetBreakpointsRequest{Arguments: set}).Body.Breakpoints
	expect("breakpoints", "true false", points[0].Verified, points[1].Verified)
	ask[*dap.ConfigurationDoneResponse](c, "configurationDone", &dap.ConfigurationDoneRequest{})
	expect("launch", "true", c.answer(launch).GetResponse().Success)

	stop, written := until[*dap.StoppedEvent](c)
	expect("a breakpoint, with output before", "breakpoint begin triangle", stop.Body.Reason, written)
	thread := stop.Body.ThreadId
	threads := ask[*dap.ThreadsResponse](c, "threads", &dap.ThreadsRequest{}).Body.Threads
	expect("threads", fmt.Sprint("1 ", thread), len(threads), threads[0].Id)
	top := c.frames(thread)[0]
	expect("the newest frame", fmt.Sprint("main ", call, " ", source), top.Name, top.Line, top.Source.Path)
	locals := c.locals(top.Id)
	expect("locals", "3 0", len(locals), locals["waits"].Value)
	shape := c.variables(locals["shape"].VariablesReference)
	expect("a structure", "3 true", len(shape), strings.HasSuffix(shape["name"].Value, `"triangle"`))
	corners := c.variables(shape["corners"].VariablesReference)
	expect("an array", "3 {x = 5, y = 6}", len(corners), corners["[2]"].Value)
	first := c.variables(shape["first"].VariablesReference)
	expect("what a pointer points at", "3 4", first["x"].Value, first["y"].Value)
	expect("evaluate", "6", ask[*dap.EvaluateResponse](c, "evaluate", evaluation("shape.first->x * 2", top.Id)).Body.Result)
	refused := ask[*dap.ErrorResponse](c, "evaluate", evaluation("nothing + 1", top.Id))
	expect("evaluate what is not there", "debuggee {why}", refused.Message, refused.Body.Error.Format)
	expect("why", `No symbol "nothing" in current context.`, refused.Body.Error.Variables["why"])
	c.opened(can, top, shape["first"])
	change := dap.SetVariableArguments{VariablesReference: corners["[0]"].VariablesReference, Name: "x", Value: "7 + shape.first->x"}
	changed := ask[*dap.SetVariableResponse](c, "setVariable", &dap.SetVariableRequest{Arguments: change}).Body.Value
	expect("set a part", "10", changed)
	stop, _ = until[*dap.StoppedEvent](c)
	expect("what has the part is told again", "breakpoint", stop.Body.Reason)

	ask[*dap.NextResponse](c, "next", &dap.NextRequest{Arguments: dap.NextArguments{ThreadId: thread}})
	stop, _ = until[*dap.StoppedEvent](c)
	top = c.frames(thread)[0]
	expect("next", fmt.Sprint("step main ", prints), stop.Body.Reason, top.Name, top.Line)
	expect("the sum of what was set", "18", c.locals(top.Id)["sum"].Value)
	ask[*dap.ContinueResponse](c, "continue", &dap.ContinueRequest{Arguments: dap.ContinueArguments{ThreadId: thread}})
	exit, written := until[*dap.ExitedEvent](c)
	expect("the exit", "3 sum 18\nend", exit.Body.ExitCode, written)
	until[*dap.TerminatedEvent](c)
	ask[*dap.DisconnectResponse](c, "disconnect", &dap.DisconnectRequest{})
	_, err = c.reader.ReadByte()
	expect("nothing is left", "EOF", err)
}

func main() {
	adapter := exec.Command(os.Args[3], os.Args[4:]...)
	adapter.Stderr = os.Stderr
	writer, err := adapter.StdinPipe()
	must(err)
	reader, err := adapter.StdoutPipe()
	must(err)
	must(adapter.Start())
	c := &client{reader: bufio.NewReader(reader), writer: writer, answers: map[int]dap.ResponseMessage{}}
	c.session(os.Args[1], os.Args[2])
	writer.Close()
	must(adapter.Wait())
}
