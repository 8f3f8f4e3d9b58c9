package main

import (
	"bufio"
	"encoding/json"
	"errors"
	"fmt"
	"io"
	"os"
	"strings"

	"github.com/google/go-dap"
)

// flushing writes what is gathered before it reads on, so that no answer waits for the next request, and the
// answers to the requests of one piece go out together.
type flushing struct {
	from io.Reader
	out  *bufio.Writer
}

func (f *flushing) Read(into []byte) (int, error) {
	if err := f.out.Flush(); err != nil {
		return 0, err
	}
	return f.from.Read(into)
}

// A failure is why a request fails.
type failure struct {
	id           int
	name, format string
}

var (
	notInitialized      = &failure{1001, "notInitialized", "The session is not initialized."}
	alreadyInitialized  = &failure{1002, "alreadyInitialized", "The session is already initialized."}
	unknownCommand      = &failure{1003, "unknownCommand", "The command is not known."}
	unsupported         = &failure{1004, "unsupported", "The command is not supported."}
	notStopped          = &failure{1006, "notStopped", "The debuggee is not stopped."}
	wrongPhase          = &failure{1007, "wrongPhase", "The request does not fit the state of the session."}
	unknownThread       = &failure{1008, "unknownThread", "The thread does not exist."}
	staleReference      = &failure{1009, "staleReference", "The reference is not valid in this stop."}
	tooManyReferences   = &failure{1010, "tooManyReferences", "Too many references are in use."}
	cancelled           = &failure{1012, "cancelled", "The request was cancelled."}
	refused             = &failure{1013, "debuggee", "The debuggee refused."}
	unknownSource       = &failure{1014, "unknownSource", "The source does not exist."}
	tooManyBreakpoints  = &failure{1015, "tooManyBreakpoints", "Too many breakpoints are set."}
	referencesExhausted = &failure{1017, "referencesExhausted", "No reference numbers are left."}
)

func badArguments(key string) *failure {
	return &failure{1005, "badArguments", fmt.Sprintf("The argument %s is missing or malformed.", key)}
}

// serve answers the requests of standard input on standard output.
func serve(recording string) error {
	debuggee, err := openRecording(recording)
	if err != nil {
		return err
	}
	out := bufio.NewWriterSize(os.Stdout, 1<<16)
	read := &counter{from: &flushing{os.Stdin, out}}
	in := bufio.NewReaderSize(read, 1<<16)
	used := func() int64 { return read.count - int64(in.Buffered()) }
	s := newSession(debuggee, out)
	for {
		offset := used()
		message, err := dap.ReadProtocolMessage(in)
		if err == io.EOF && used() == offset {
			return out.Flush()
		}
		var unknown *dap.DecodeProtocolMessageFieldError
		var mismatch *json.UnmarshalTypeError
		bad := ""
		switch {
		case errors.As(err, &unknown):
			if unknown.SubType == "Request" {
				request := &dap.Request{Command: unknown.FieldValue}
				request.Seq = unknown.Seq
				why := unknownCommand
				if s.phase == fresh {
					why = notInitialized
				}
				if err := s.fail(request, why); err != nil {
					return err
				}
			}
			continue
		case errors.As(err, &mismatch) && message != nil:
			bad = badKey(mismatch.Field)
		case err != nil:
			fail(out, err, offset)
		}
		request, ok := message.(dap.RequestMessage)
		if !ok {
			continue
		}
		last, err := s.handle(request, bad)
		if err != nil {
			return err
		}
		if last {
			return out.Flush()
		}
	}
}

// badKey is the argument in which a field stands that could not be read.
func badKey(field string) string {
	_, key, deep := strings.Cut(field, "arguments.")
	if !deep {
		return "arguments"
	}
	key, _, _ = strings.Cut(key, ".")
	return key
}
