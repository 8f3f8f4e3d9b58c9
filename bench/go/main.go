// The Go baseline: the same tasks as the Rust baseline's, over Google's package go-dap 0.7.0.
//
//	baseline show FILE          one line for each message
//	baseline frames FILE        framing alone: the count of frames and the sum of their body lengths
//	baseline serve RECORDING    answers the requests of standard input on standard output
//
// Each message is read by dap.ReadProtocolMessage (for `frames` by dap.ReadBaseMessage) from a bufio.Reader over
// the open file. So, unlike the other programs, this one never holds the whole file. What differs by go-dap:
//
//   - It decodes each body three times, into Go types of ever more fields, so it also checks the types of
//     arguments and bodies, which the other programs do not look into.
//   - It takes one header field only, `Content-Length: N`, in this very spelling.
//   - A body without `seq` counts as one with 0; so for `request_seq`, and an absent `success` is false.
//     Commands of any length are taken.
//   - A message of an unknown type, command or event comes as an error that has `seq` and the name. The line
//     can be had from it, but for an unknown command's response: its REQUEST_SEQ is printed as `?`.
//   - `serve` writes the package's own responses: keys in the order of its types, `showUser` in each error, and an
//     empty `source` or `presentationHint` where there is none. An absent number, flag, text or object can't be told
//     from one that is 0, false or empty.
package main

import (
	"bufio"
	"errors"
	"fmt"
	"io"
	"os"
	"strconv"

	"github.com/google/go-dap"
)

// counter counts the bytes that were read from the file.
type counter struct {
	from  io.Reader
	count int64
}

func (c *counter) Read(into []byte) (int, error) {
	n, err := c.from.Read(into)
	c.count += int64(n)
	return n, err
}

// fail ends the program, with the lines so far written.
func fail(out *bufio.Writer, err error, offset int64) {
	out.Flush()
	fmt.Fprintf(os.Stderr, "baseline: %v at %d\n", err, offset)
	os.Exit(3)
}

func show(in *bufio.Reader, used func() int64, out *bufio.Writer) {
	var line []byte
	for {
		offset := used()
		message, err := dap.ReadProtocolMessage(in)
		if err == io.EOF && used() == offset {
			return
		}
		var unknown *dap.DecodeProtocolMessageFieldError
		line = strconv.AppendInt(line[:0], offset, 10)
		line = append(line, ' ')
		switch {
		case errors.As(err, &unknown):
			line = strconv.AppendInt(line, int64(unknown.Seq), 10)
			switch {
			case unknown.FieldName == "type":
				line = append(line, " other "...)
			case unknown.SubType == "Request":
				line = append(line, " request "...)
			case unknown.SubType == "Response":
				line = append(line, " response "...)
			default:
				line = append(line, " event "...)
			}
			line = appendPlain(line, unknown.FieldValue)
			if unknown.SubType == "Response" {
				line = append(line, " ? ok"...)
			}
		case err != nil:
			fail(out, err, offset)
		default:
			line = strconv.AppendInt(line, int64(message.GetSeq()), 10)
			switch message := message.(type) {
			case dap.RequestMessage:
				line = append(line, " request "...)
				line = appendPlain(line, message.GetRequest().Command)
			case dap.ResponseMessage:
				response := message.GetResponse()
				line = append(line, " response "...)
				line = appendPlain(line, response.Command)
				line = append(line, ' ')
				line = strconv.AppendInt(line, int64(response.RequestSeq), 10)
				if response.Success {
					line = append(line, " ok"...)
				} else {
					line = append(line, " failed"...)
				}
			case dap.EventMessage:
				line = append(line, " event "...)
				line = appendPlain(line, message.GetEvent().Event)
			}
		}
		line = append(line, '\n')
		out.Write(line)
	}
}

// appendPlain appends a text with ? for each control character, so that a line stays a line.
func appendPlain(line []byte, text string) []byte {
	for i := 0; i < len(text); i++ {
		if text[i] < 0x20 || text[i] == 0x7f {
			line = append(line, '?')
		} else {
			line = append(line, text[i])
		}
	}
	return line
}

func frames(in *bufio.Reader, used func() int64, out *bufio.Writer) {
	count, bytes := 0, 0
	for {
		offset := used()
		body, err := dap.ReadBaseMessage(in)
		if err == io.EOF && used() == offset {
			break
		}
		if err != nil {
			fail(out, err, offset)
		}
		count++
		bytes += len(body)
	}
	fmt.Fprintf(out, "%d %d\n", count, bytes)
}

func main() {
	if len(os.Args) != 3 || os.Args[1] != "show" && os.Args[1] != "frames" && os.Args[1] != "serve" {
		fmt.Fprintln(os.Stderr, "usage: baseline show FILE | baseline frames FILE | baseline serve RECORDING")
		os.Exit(2)
	}
	if os.Args[1] == "serve" {
		if err := serve(os.Args[2]); err != nil {
			fmt.Fprintln(os.Stderr, "baseline:", err)
			os.Exit(5)
		}
		return
	}
	file, err := os.Open(os.Args[2])
	if err != nil {
		fmt.Fprintln(os.Stderr, "baseline:", err)
		os.Exit(5)
	}
	read := &counter{from: file}
	in := bufio.NewReaderSize(read, 1<<16)
	used := func() int64 { return read.count - int64(in.Buffered()) }
	out := bufio.NewWriterSize(os.Stdout, 1<<16)
	if os.Args[1] == "show" {
		show(in, used, out)
	} else {
		frames(in, used, out)
	}
	if err := out.Flush(); err != nil {
		fmt.Fprintln(os.Stderr, "baseline:", err)
		os.Exit(5)
	}
}
