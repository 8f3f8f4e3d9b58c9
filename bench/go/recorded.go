package main

import (
	"encoding/json"
	"errors"
	"os"
	"strings"
	"unicode/utf8"
)

// pieceBytes is how long a piece of output may be.
const pieceBytes = 128

// recording is a recorded run, as docs/RECORDINGS.md has it. Frames, scopes and variables are told apart by their
// addresses.
type recording struct {
	Exit    int               `json:"exit"`
	Sources []*recordedSource `json:"sources"`
	Moments []*moment         `json:"moments"`
}

type recordedSource struct {
	Name  string  `json:"name"`
	Path  *string `json:"path"`
	Text  string  `json:"text"`
	lines int
}

type moment struct {
	Threads []*thread `json:"threads"`
	Thread  int       `json:"thread"`
	Output  string    `json:"output"`
	Waits   bool      `json:"waits"`
	// came is the one of the threads that came to the moment.
	came *thread
}

type thread struct {
	Id     int      `json:"id"`
	Name   string   `json:"name"`
	Frames []*frame `json:"frames"`
}

type frame struct {
	Name   string    `json:"name"`
	Source int       `json:"source"`
	Line   int       `json:"line"`
	Scopes []*holder `json:"scopes"`
}

// A holder is what holds variables: a scope or a variable. A scope has no value.
type holder struct {
	Name      string    `json:"name"`
	Value     string    `json:"value"`
	Variables []*holder `json:"variables"`
}

// A sourceName is what breakpoints are set by: the path, where there is one, else the reference.
type sourceName struct {
	path      string
	reference int
}

func nameByPath(path string) sourceName        { return sourceName{path: path} }
func nameByReference(reference int) sourceName { return sourceName{reference: reference} }

type goal struct {
	place  int
	reason string
}

// debuggee plays a recording.
type debuggee struct {
	*recording
	// shown is the place of the moment that is shown, or -1.
	shown  int
	untold []string
	goal   goal
	held   bool
	// set has the lines last set, by the name of a source.
	set map[sourceName][]int
	// values has those that were set at this stop.
	values map[*holder]string
}

func openRecording(path string) (*debuggee, error) {
	text, err := os.ReadFile(path)
	if err != nil {
		return nil, err
	}
	read := &recording{}
	if err := json.Unmarshal(text, read); err != nil {
		return nil, err
	}
	for _, source := range read.Sources {
		source.lines = strings.Count(source.Text, "\n")
		if source.Text != "" && !strings.HasSuffix(source.Text, "\n") {
			source.lines++
		}
	}
	for _, moment := range read.Moments {
		for _, thread := range moment.Threads {
			if thread.Id == moment.Thread {
				moment.came = thread
			}
			if err := read.check(thread); err != nil {
				return nil, err
			}
		}
		if moment.came == nil {
			return nil, errors.New("the recording has a bad thread")
		}
	}
	if len(read.Moments) == 0 {
		return nil, errors.New("the recording has no moments")
	}
	return &debuggee{recording: read, shown: -1, set: map[sourceName][]int{}, values: map[*holder]string{}}, nil
}

func (r *recording) check(thread *thread) error {
	if len(thread.Frames) == 0 {
		return errors.New("the recording has a thread without frames")
	}
	for _, frame := range thread.Frames {
		if frame.Source < 0 || frame.Source >= len(r.Sources) {
			return errors.New("the recording has a bad source")
		}
		if frame.Line < 1 || frame.Line > r.Sources[frame.Source].lines {
			return errors.New("the recording has a bad line")
		}
	}
	return nil
}

func (d *debuggee) threads() []*thread {
	if d.shown < 0 {
		return nil
	}
	return d.Moments[d.shown].Threads
}

func (d *debuggee) thread(id int) *thread {
	for _, thread := range d.threads() {
		if thread.Id == id {
			return thread
		}
	}
	return nil
}

// evaluate is the first variable of that name that stands directly in a scope of the frame.
func (f *frame) evaluate(text string) *holder {
	for _, scope := range f.Scopes {
		if variable := scope.variable(text); variable != nil {
			return variable
		}
	}
	return nil
}

// variable is the first one of that name that stands directly in a holder.
func (h *holder) variable(name string) *holder {
	for _, variable := range h.Variables {
		if variable.Name == name {
			return variable
		}
	}
	return nil
}

// value is the one that was set, else the recorded one.
func (d *debuggee) value(variable *holder) string {
	if value, ok := d.values[variable]; ok {
		return value
	}
	return variable.Value
}

// linesOf is how many lines the longest source of that name has.
func (d *debuggee) linesOf(name sourceName) int {
	lines := 0
	for place, source := range d.Sources {
		named := source.Path != nil && nameByPath(*source.Path) == name || nameByReference(place+1) == name
		if named && source.lines > lines {
			lines = source.lines
		}
	}
	return lines
}

// others is how many breakpoints stand in other sources.
func (d *debuggee) others(name sourceName) int {
	count := 0
	for other, lines := range d.set {
		if other != name {
			count += len(lines)
		}
	}
	return count
}

func (d *debuggee) isAtBreakpoint(place int) bool {
	top := d.Moments[place].came.Frames[0]
	isSet := func(name sourceName) bool {
		for _, line := range d.set[name] {
			if line == top.Line {
				return true
			}
		}
		return false
	}
	path := d.Sources[top.Source].Path
	return isSet(nameByReference(top.Source+1)) || path != nil && isSet(nameByPath(*path))
}

func (d *debuggee) start() {
	d.shown = 0
	d.tell(d.Moments[0])
	d.goal = goal{0, "entry"}
	d.held = false
}

func (d *debuggee) end() { d.shown = -1 }

// resume moves by a command, and pause ends the wait at a moment where it is held.
func (d *debuggee) resume(command string) {
	at := d.shown
	d.goal = d.target(command, at)
	d.held = false
	d.values = map[*holder]string{}
	if command == "stepBack" || command == "reverseContinue" {
		return
	}
	for place := at + 1; place < d.goal.place && !d.held; place++ {
		if d.Moments[place].Waits {
			d.goal, d.held = goal{place, "pause"}, true
		}
	}
	for place := at + 1; place <= d.goal.place && place < len(d.Moments); place++ {
		d.tell(d.Moments[place])
	}
}

func (d *debuggee) pause() { d.held = false }

// target is where a move goes, and why it stops there; past the last moment is the exit.
func (d *debuggee) target(command string, at int) goal {
	depth := func(place int) int { return len(d.Moments[place].came.Frames) }
	ahead := func(stops func(int) bool) int {
		place := at + 1
		for place < len(d.Moments) && !stops(place) {
			place++
		}
		return place
	}
	switch command {
	case "stepIn":
		return goal{at + 1, "step"}
	case "next":
		return goal{ahead(func(place int) bool { return depth(place) <= depth(at) }), "step"}
	case "stepOut":
		return goal{ahead(func(place int) bool { return depth(place) < depth(at) }), "step"}
	case "continue":
		return goal{ahead(d.isAtBreakpoint), "breakpoint"}
	case "stepBack":
		if at == 0 {
			return goal{0, "step"}
		}
		return goal{at - 1, "step"}
	}
	for place := at - 1; place >= 0; place-- {
		if d.isAtBreakpoint(place) {
			return goal{place, "breakpoint"}
		}
	}
	return goal{0, "entry"}
}

// tell keeps the pieces of a moment's output: each as long as may be, and of whole characters.
func (d *debuggee) tell(moment *moment) {
	output := moment.Output
	for len(output) > pieceBytes {
		end := pieceBytes
		for !utf8.RuneStart(output[end]) {
			end--
		}
		d.untold = append(d.untold, output[:end])
		output = output[end:]
	}
	if output != "" {
		d.untold = append(d.untold, output)
	}
}
