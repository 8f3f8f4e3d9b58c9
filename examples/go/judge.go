// judge judges a transcript by the library for C: what is found, and why, in one sentence.
//
//	CGO_CFLAGS=-IFOLDER CGO_LDFLAGS=FOLDER/libyarntaupe.a go run judge.go TRANSCRIPT
//
// FOLDER has yarntaupe.h and libyarntaupe.a, as release/ of the repository has them. Where they are installed, CGO_LDFLAGS=-lyarntaupe
// is enough.
package main

// #include "yarntaupe.h"
import "C"

import (
	"fmt"
	"os"
	"unsafe"
)

// bytes is the pointer to the first byte; cgo pins what it points to for the call.
func bytes(text []byte) *C.uint8_t { return (*C.uint8_t)(unsafe.Pointer(&text[0])) }

// judge is "" where the transcript keeps the rules; else what is found.
func judge(text []byte) string {
	text = append(text, 0) // a pointer to no bytes is not nil then
	size := C.size_t(len(text) - 1)
	var verdict C.yt_verdict
	switch code := C.yt_check(bytes(text), size, 0, &verdict); code {
	case C.YT_OK:
		return ""
	case C.YT_FINDING:
		why := make([]byte, 1)
		var length C.size_t
		for i := 0; i < 2; i++ { // the first call tells how long the sentence is
			C.yt_explain(bytes(text), size, verdict.line, verdict.rule, bytes(why), C.size_t(len(why)), &length)
			if i == 0 {
				why = make([]byte, length)
			}
		}
		return fmt.Sprintf("line %d breaks rule %d: %s", verdict.line, verdict.rule, why)
	default:
		return fmt.Sprintf("line %d: code %d", verdict.line, code)
	}
}

func main() {
	if len(os.Args) != 2 {
		fmt.Fprintln(os.Stderr, "usage: judge TRANSCRIPT")
		os.Exit(2)
	}
	text, err := os.ReadFile(os.Args[1])
	if err != nil {
		fmt.Fprintln(os.Stderr, "judge:", err)
		os.Exit(2)
	}
	if found := judge(text); found != "" {
		fmt.Println(found)
		os.Exit(1)
	}
	fmt.Println("legal")
}
