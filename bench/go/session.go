package main

import (
	"bufio"

	"github.com/google/go-dap"
)

const (
	maxReferences  = 65536
	maxReference   = 2147483647
	maxBreakpoints = 4096
)

// references gives numbers to frames and to what holds variables. They rise, and all die together.
type references struct {
	dead    int
	live    []interface{}
	numbers map[interface{}]int
}

func (r *references) number(thing interface{}) (int, *failure) {
	if number, ok := r.numbers[thing]; ok {
		return number, nil
	}
	if len(r.live) >= maxReferences {
		return 0, tooManyReferences
	}
	number := r.dead + len(r.live) + 1
	if number > maxReference {
		return 0, referencesExhausted
	}
	r.live = append(r.live, thing)
	r.numbers[thing] = number
	return number, nil
}

func (r *references) thing(number int) interface{} {
	place := number - r.dead - 1
	if place < 0 || place >= len(r.live) {
		return nil
	}
	return r.live[place]
}

func (r *references) takeBack(first int) {
	for _, thing := range r.live[first:] {
		delete(r.numbers, thing)
	}
	r.live = r.live[:first]
}

func (r *references) clear() {
	r.dead += len(r.live)
	r.live = r.live[:0]
	r.numbers = map[interface{}]int{}
}

type phase int

const (
	fresh phase = iota
	ready
	configured
	parked
	running
	stopped
	exited
)

// session is an adapter over a recorded run.
type session struct {
	out         *bufio.Writer
	seq         int
	phase       phase
	debuggee    *debuggee
	references  references
	breakpoints int
	// waiting is a launch that waits for configurationDone.
	waiting *dap.Request
	// What the client counts from, and whether it asks for parts of lists.
	firstLine, firstColumn int
	paging                 bool
}

func newSession(debuggee *debuggee, out *bufio.Writer) *session {
	s := &session{out: out, debuggee: debuggee, firstLine: 1, firstColumn: 1}
	s.references.clear()
	return s
}

func (s *session) next() dap.ProtocolMessage {
	s.seq++
	return dap.ProtocolMessage{Seq: s.seq}
}

func (s *session) success(request *dap.Request) dap.Response {
	response := dap.Response{ProtocolMessage: s.next(), RequestSeq: request.Seq, Success: true, Command: request.Command}
	response.Type = "response"
	return response
}

func (s *session) event(name string) dap.Event {
	event := dap.Event{ProtocolMessage: s.next(), Event: name}
	event.Type = "event"
	return event
}

func (s *session) send(message dap.Message) error { return dap.WriteProtocolMessage(s.out, message) }

// sendPlain answers without a body.
func (s *session) sendPlain(request *dap.Request) error {
	response := s.success(request)
	return s.send(&response)
}

func (s *session) fail(request *dap.Request, why *failure) error {
	response := &dap.ErrorResponse{Response: s.success(request)}
	response.Success = false
	response.Message = why.name
	response.Body.Error = dap.ErrorMessage{Id: why.id, Format: why.format}
	return s.send(response)
}

// handle answers a request and tells what happens after it, and says whether it was the last one. bad is the first
// argument of a wrong type, if there is one.
func (s *session) handle(message dap.RequestMessage, bad string) (last bool, err error) {
	request := message.GetRequest()
	told := len(s.references.live)
	why := s.test(message, bad)
	if why == nil {
		why, err = s.answer(message)
	}
	if why != nil {
		// Nobody was told of what a refused answer named.
		s.references.takeBack(told)
		err = s.fail(request, why)
	}
	if err != nil || why == nil && request.Command == "disconnect" {
		return true, err
	}
	return false, s.poll()
}

// test has the failures that hold of the name, the arguments and the phase, in their order. The package reads an
// absent number as 0, so a thread of 0 counts as absent.
func (s *session) test(message dap.RequestMessage, bad string) *failure {
	switch message.(type) {
	case *dap.InitializeRequest:
		if s.phase != fresh {
			return alreadyInitialized
		}
		return badIf(bad)
	case *dap.DisconnectRequest:
		return nil
	}
	if s.phase == fresh {
		return notInitialized
	}
	switch message := message.(type) {
	case *dap.LaunchRequest, *dap.AttachRequest:
		return s.fits(bad, ready, configured)
	case *dap.ConfigurationDoneRequest:
		return s.fits("", ready, parked)
	case *dap.TerminateRequest:
		return s.fits("", running, stopped)
	case *dap.CancelRequest:
		if bad == "" && message.Arguments.RequestId < 0 {
			bad = "requestId"
		}
		return badIf(bad)
	case *dap.ThreadsRequest, *dap.LoadedSourcesRequest:
		return nil
	case *dap.SourceRequest:
		return badIf(bad)
	case *dap.SetBreakpointsRequest:
		if source := message.Arguments.Source; bad == "" && source.Path == "" && source.SourceReference == 0 {
			bad = "source"
		}
		return s.fits(bad, ready, configured, parked, running, stopped)
	case *dap.SetExceptionBreakpointsRequest:
		if bad == "" && message.Arguments.Filters == nil {
			bad = "filters"
		}
		return s.fits(bad, ready, configured, parked, running, stopped)
	case *dap.StackTraceRequest:
		return s.whileStopped(badThread(bad, message.Arguments.ThreadId))
	case *dap.ScopesRequest, *dap.VariablesRequest, *dap.EvaluateRequest, *dap.SetVariableRequest:
		return s.whileStopped(bad)
	case *dap.ContinueRequest:
		return s.whileStopped(badThread(bad, message.Arguments.ThreadId))
	case *dap.NextRequest:
		return s.whileStopped(badThread(bad, message.Arguments.ThreadId))
	case *dap.StepInRequest:
		return s.whileStopped(badThread(bad, message.Arguments.ThreadId))
	case *dap.StepOutRequest:
		return s.whileStopped(badThread(bad, message.Arguments.ThreadId))
	case *dap.StepBackRequest:
		return s.whileStopped(badThread(bad, message.Arguments.ThreadId))
	case *dap.ReverseContinueRequest:
		return s.whileStopped(badThread(bad, message.Arguments.ThreadId))
	case *dap.PauseRequest:
		return s.fits(badThread(bad, message.Arguments.ThreadId), running, stopped)
	case *dap.SetFunctionBreakpointsRequest, *dap.RestartRequest, *dap.ModulesRequest, *dap.ExceptionInfoRequest,
		*dap.BreakpointLocationsRequest, *dap.CompletionsRequest:
		return unsupported
	}
	return unknownCommand
}

func badIf(bad string) *failure {
	if bad != "" {
		return badArguments(bad)
	}
	return nil
}

func badThread(bad string, thread int) string {
	if bad == "" && thread == 0 {
		return "threadId"
	}
	return bad
}

func (s *session) fits(bad string, phases ...phase) *failure {
	if bad != "" {
		return badArguments(bad)
	}
	for _, phase := range phases {
		if s.phase == phase {
			return nil
		}
	}
	return wrongPhase
}

func (s *session) whileStopped(bad string) *failure {
	if why := s.fits(bad, stopped); why != wrongPhase || s.phase != running {
		return why
	}
	return notStopped
}

// answer answers a request that passed the tests.
func (s *session) answer(message dap.RequestMessage) (*failure, error) {
	request := message.GetRequest()
	switch message := message.(type) {
	case *dap.InitializeRequest:
		return nil, s.initialize(message)
	case *dap.LaunchRequest, *dap.AttachRequest:
		return nil, s.launch(request)
	case *dap.ConfigurationDoneRequest:
		return nil, s.configurationDone(message)
	case *dap.DisconnectRequest:
		return nil, s.disconnect(message)
	case *dap.TerminateRequest:
		s.end()
		if err := s.send(&dap.TerminateResponse{Response: s.success(request)}); err != nil {
			return nil, err
		}
		return nil, s.send(&dap.TerminatedEvent{Event: s.event("terminated")})
	case *dap.CancelRequest:
		return nil, s.send(&dap.CancelResponse{Response: s.success(request)})
	case *dap.SetExceptionBreakpointsRequest:
		// The package's own response would have an empty body.
		return nil, s.sendPlain(request)
	case *dap.SetBreakpointsRequest:
		return s.setBreakpoints(message)
	case *dap.ThreadsRequest:
		return nil, s.threads(message)
	case *dap.StackTraceRequest:
		return s.stackTrace(message)
	case *dap.ScopesRequest:
		return s.scopes(message)
	case *dap.VariablesRequest:
		return s.variables(message)
	case *dap.EvaluateRequest:
		return s.evaluate(message)
	case *dap.SetVariableRequest:
		return s.setVariable(message)
	case *dap.SourceRequest:
		return s.source(message)
	case *dap.LoadedSourcesRequest:
		response := &dap.LoadedSourcesResponse{Response: s.success(request)}
		response.Body.Sources = []dap.Source{}
		for place := range s.debuggee.Sources {
			response.Body.Sources = append(response.Body.Sources, s.toldSource(place))
		}
		return nil, s.send(response)
	case *dap.PauseRequest:
		if s.phase == running {
			s.debuggee.pause()
		}
		return nil, s.sendPlain(request)
	case *dap.ContinueRequest:
		return s.resume(request, message.Arguments.ThreadId)
	case *dap.NextRequest:
		return s.resume(request, message.Arguments.ThreadId)
	case *dap.StepInRequest:
		return s.resume(request, message.Arguments.ThreadId)
	case *dap.StepOutRequest:
		return s.resume(request, message.Arguments.ThreadId)
	case *dap.StepBackRequest:
		return s.resume(request, message.Arguments.ThreadId)
	case *dap.ReverseContinueRequest:
		return s.resume(request, message.Arguments.ThreadId)
	}
	return unknownCommand, nil
}

func (s *session) initialize(message *dap.InitializeRequest) error {
	s.phase = ready
	// The package reads an absent flag as false, and so this does.
	s.firstLine, s.firstColumn = 0, 0
	if message.Arguments.LinesStartAt1 {
		s.firstLine = 1
	}
	if message.Arguments.ColumnsStartAt1 {
		s.firstColumn = 1
	}
	s.paging = message.Arguments.SupportsVariablePaging
	response := &dap.InitializeResponse{Response: s.success(message.GetRequest()), Body: dap.Capabilities{
		SupportsCancelRequest:            true,
		SupportsConfigurationDoneRequest: true,
		SupportsLoadedSourcesRequest:     true,
		SupportsSetVariable:              true,
		SupportsStepBack:                 true,
		SupportsTerminateRequest:         true,
	}}
	if err := s.send(response); err != nil {
		return err
	}
	return s.send(&dap.InitializedEvent{Event: s.event("initialized")})
}

func (s *session) launch(request *dap.Request) error {
	if s.phase == ready {
		s.phase, s.waiting = parked, request
		return nil
	}
	s.start()
	return s.sendPlain(request)
}

func (s *session) configurationDone(message *dap.ConfigurationDoneRequest) error {
	if err := s.send(&dap.ConfigurationDoneResponse{Response: s.success(message.GetRequest())}); err != nil {
		return err
	}
	if s.phase == ready {
		s.phase = configured
		return nil
	}
	launch := s.waiting
	s.start()
	return s.sendPlain(launch)
}

func (s *session) disconnect(message *dap.DisconnectRequest) error {
	if s.waiting != nil {
		if err := s.fail(s.waiting, cancelled); err != nil {
			return err
		}
	}
	return s.send(&dap.DisconnectResponse{Response: s.success(message.GetRequest())})
}

func (s *session) start() {
	s.debuggee.start()
	s.phase, s.waiting = running, nil
}

func (s *session) end() {
	s.debuggee.end()
	s.references.clear()
	s.phase = exited
}

func (s *session) resume(request *dap.Request, thread int) (*failure, error) {
	if s.debuggee.thread(thread) == nil {
		return unknownThread, nil
	}
	s.debuggee.resume(request.Command)
	s.references.clear()
	s.phase = running
	if request.Command == "continue" {
		response := &dap.ContinueResponse{Response: s.success(request)}
		response.Body.AllThreadsContinued = true
		return nil, s.send(response)
	}
	return nil, s.sendPlain(request)
}

func (s *session) setBreakpoints(message *dap.SetBreakpointsRequest) (*failure, error) {
	name := nameByReference(message.Arguments.Source.SourceReference)
	if path := message.Arguments.Source.Path; path != "" {
		name = nameByPath(path)
	}
	asked := message.Arguments.Lines
	if message.Arguments.Breakpoints != nil {
		asked = make([]int, 0, len(message.Arguments.Breakpoints))
		for _, breakpoint := range message.Arguments.Breakpoints {
			asked = append(asked, breakpoint.Line)
		}
	}
	if s.debuggee.others(name)+len(asked) > maxBreakpoints {
		return tooManyBreakpoints, nil
	}
	last := s.debuggee.linesOf(name)
	lines := make([]int, 0, len(asked))
	response := &dap.SetBreakpointsResponse{Response: s.success(message.GetRequest())}
	response.Body.Breakpoints = make([]dap.Breakpoint, 0, len(asked))
	for _, line := range asked {
		raised := line + 1 - s.firstLine
		s.breakpoints++
		breakpoint := dap.Breakpoint{Id: s.breakpoints, Line: line, Verified: 1 <= raised && raised <= last}
		lines = append(lines, raised)
		response.Body.Breakpoints = append(response.Body.Breakpoints, breakpoint)
	}
	s.debuggee.set[name] = lines
	return nil, s.send(response)
}

func (s *session) threads(message *dap.ThreadsRequest) error {
	response := &dap.ThreadsResponse{Response: s.success(message.GetRequest())}
	response.Body.Threads = []dap.Thread{}
	for _, thread := range s.debuggee.threads() {
		response.Body.Threads = append(response.Body.Threads, dap.Thread{Id: thread.Id, Name: thread.Name})
	}
	return s.send(response)
}

// window is where a part of a list of so many begins and ends; a count of 0 asks for all that follow.
func window(start, count, all int) (int, int) {
	if start > all {
		start = all
	}
	if count == 0 || count > all-start {
		count = all - start
	}
	return start, start + count
}

func (s *session) stackTrace(message *dap.StackTraceRequest) (*failure, error) {
	thread := s.debuggee.thread(message.Arguments.ThreadId)
	if thread == nil {
		return unknownThread, nil
	}
	from, to := window(message.Arguments.StartFrame, message.Arguments.Levels, len(thread.Frames))
	told := make([]dap.StackFrame, 0, to-from)
	for _, frame := range thread.Frames[from:to] {
		number, why := s.references.number(frame)
		if why != nil {
			return why, nil
		}
		told = append(told, dap.StackFrame{
			Id:     number,
			Name:   frame.Name,
			Source: s.toldSource(frame.Source),
			Line:   frame.Line - 1 + s.firstLine,
			Column: s.firstColumn,
		})
	}
	response := &dap.StackTraceResponse{Response: s.success(message.GetRequest())}
	response.Body = dap.StackTraceResponseBody{StackFrames: told, TotalFrames: len(thread.Frames)}
	return nil, s.send(response)
}

func (s *session) scopes(message *dap.ScopesRequest) (*failure, error) {
	frame, ok := s.references.thing(message.Arguments.FrameId).(*frame)
	if !ok {
		return staleReference, nil
	}
	told := make([]dap.Scope, 0, len(frame.Scopes))
	for _, scope := range frame.Scopes {
		number, why := s.references.number(scope)
		if why != nil {
			return why, nil
		}
		told = append(told, dap.Scope{Name: scope.Name, VariablesReference: number})
	}
	response := &dap.ScopesResponse{Response: s.success(message.GetRequest())}
	response.Body.Scopes = told
	return nil, s.send(response)
}

// numberOf is the number of a variable that holds others, else 0.
func (s *session) numberOf(variable *holder) (int, *failure) {
	if len(variable.Variables) == 0 {
		return 0, nil
	}
	return s.references.number(variable)
}

func (s *session) variables(message *dap.VariablesRequest) (*failure, error) {
	there, ok := s.references.thing(message.Arguments.VariablesReference).(*holder)
	if !ok {
		return staleReference, nil
	}
	children := there.Variables
	if s.paging {
		from, to := window(message.Arguments.Start, message.Arguments.Count, len(children))
		children = children[from:to]
	}
	told := make([]dap.Variable, 0, len(children))
	for _, child := range children {
		number, why := s.numberOf(child)
		if why != nil {
			return why, nil
		}
		told = append(told, dap.Variable{Name: child.Name, Value: s.debuggee.value(child), VariablesReference: number})
	}
	response := &dap.VariablesResponse{Response: s.success(message.GetRequest())}
	response.Body.Variables = told
	return nil, s.send(response)
}

func (s *session) evaluate(message *dap.EvaluateRequest) (*failure, error) {
	// The package reads an absent frame as 0.
	if message.Arguments.FrameId == 0 {
		return refused, nil
	}
	frame, ok := s.references.thing(message.Arguments.FrameId).(*frame)
	if !ok {
		return staleReference, nil
	}
	found := frame.evaluate(message.Arguments.Expression)
	if found == nil {
		return refused, nil
	}
	number, why := s.numberOf(found)
	if why != nil {
		return why, nil
	}
	response := &dap.EvaluateResponse{Response: s.success(message.GetRequest())}
	response.Body = dap.EvaluateResponseBody{Result: s.debuggee.value(found), VariablesReference: number}
	return nil, s.send(response)
}

func (s *session) setVariable(message *dap.SetVariableRequest) (*failure, error) {
	there, ok := s.references.thing(message.Arguments.VariablesReference).(*holder)
	if !ok {
		return staleReference, nil
	}
	found := there.variable(message.Arguments.Name)
	if found == nil {
		return refused, nil
	}
	s.debuggee.values[found] = message.Arguments.Value
	response := &dap.SetVariableResponse{Response: s.success(message.GetRequest())}
	response.Body.Value = message.Arguments.Value
	return nil, s.send(response)
}

func (s *session) source(message *dap.SourceRequest) (*failure, error) {
	number := message.Arguments.Source.SourceReference
	if number == 0 {
		number = message.Arguments.SourceReference
	}
	if number < 1 || number > len(s.debuggee.Sources) {
		return unknownSource, nil
	}
	response := &dap.SourceResponse{Response: s.success(message.GetRequest())}
	response.Body.Content = s.debuggee.Sources[number-1].Text
	return nil, s.send(response)
}

func (s *session) toldSource(place int) dap.Source {
	source := s.debuggee.Sources[place]
	told := dap.Source{Name: source.Name, SourceReference: place + 1}
	if source.Path != nil {
		told.Path = *source.Path
	}
	return told
}

// poll tells what happens until the debuggee stops, is held or is gone.
func (s *session) poll() error {
	if s.phase != running {
		return nil
	}
	for _, piece := range s.debuggee.untold {
		event := &dap.OutputEvent{Event: s.event("output")}
		event.Body = dap.OutputEventBody{Category: "stdout", Output: piece}
		if err := s.send(event); err != nil {
			return err
		}
	}
	s.debuggee.untold = nil
	if s.debuggee.held {
		return nil
	}
	goal := s.debuggee.goal
	if goal.place == len(s.debuggee.Moments) {
		s.end()
		event := &dap.ExitedEvent{Event: s.event("exited")}
		event.Body.ExitCode = s.debuggee.Exit
		if err := s.send(event); err != nil {
			return err
		}
		return s.send(&dap.TerminatedEvent{Event: s.event("terminated")})
	}
	s.debuggee.shown = goal.place
	s.phase = stopped
	event := &dap.StoppedEvent{Event: s.event("stopped")}
	event.Body.Reason = goal.reason
	event.Body.ThreadId = s.debuggee.Moments[goal.place].Thread
	event.Body.AllThreadsStopped = true
	return s.send(event)
}
