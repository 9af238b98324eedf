// resolve FILE ADDRESS..: the text of `pdb_tool resolve FILE ADDRESS..`, by cgo. Addresses are as 0x1108 or 1108, offsets
// in sections as 0001:00000108.
//
//	CGO_CFLAGS=-I$PWD/include CGO_LDFLAGS="$PWD/c/out/libpdb.a" go run examples/go/resolve.go FILE ADDRESS..
package main

// #include "pdb.h"
import "C"

import (
	"bufio"
	"fmt"
	"os"
	"strconv"
	"strings"
)

// Frame is a function at an address, and the line there. An unknown name is nil.
type Frame struct {
	Address      int
	Name, File   []byte
	Line, Column uint32
}

// first is a pointer to the first of the items; there is always one, since a call takes no null pointer.
func first[T any](items []T) *T {
	if len(items) == 0 {
		return new(T)
	}
	return &items[0]
}

// Frames are the frames of addresses in a file's bytes; an error is its code.
func Frames(file []byte, addresses []C.pdb_address) ([]Frame, C.pdb_code) {
	var rows []C.pdb_frame
	var names []byte
	var count, size C.size_t
	for {
		code := C.pdb_frames((*C.uint8_t)(first(file)), C.size_t(len(file)), first(addresses), C.size_t(len(addresses)),
			first(rows), C.size_t(len(rows)), &count, (*C.uint8_t)(first(names)), C.size_t(len(names)), &size)
		if code == C.PDB_ROOM {
			rows, names = make([]C.pdb_frame, count), make([]byte, size)
			continue
		}
		if code != C.PDB_DONE {
			return nil, code
		}
		frames := make([]Frame, len(rows))
		for i, row := range rows {
			frames[i] = Frame{Address: int(row.address), Line: uint32(row.line), Column: uint32(row.column)}
			if row.has_name == 1 {
				frames[i].Name = names[row.name_at : row.name_at+row.name_size]
			}
			if row.has_file == 1 {
				frames[i].File = names[row.file_at : row.file_at+row.file_size]
			}
		}
		return frames, code
	}
}

// hex is a number of 1 to most hex digits.
func hex(digits string, most int) (C.uint32_t, bool) {
	if len(digits) > most || strings.Trim(digits, "0123456789abcdefABCDEF") != "" {
		return 0, false
	}
	n, err := strconv.ParseUint(digits, 16, 32)
	return C.uint32_t(n), err == nil
}

// asked is the address that an argument is: HEX, 0xHEX or SECTION:HEX.
func asked(word string) (C.pdb_address, bool) {
	if section, offset, found := strings.Cut(word, ":"); found {
		s, isSection := hex(section, 4)
		o, isOffset := hex(offset, 8)
		return C.pdb_address{section: C.uint16_t(s), offset: o, kind: C.PDB_PLACE}, isSection && isOffset
	}
	if strings.HasPrefix(word, "0x") || strings.HasPrefix(word, "0X") {
		word = word[2:]
	}
	o, isOffset := hex(word, 8)
	return C.pdb_address{offset: o, kind: C.PDB_ADDRESS}, isOffset
}

// stop ends the program with a line on standard error.
func stop(status int, why string) {
	fmt.Fprintln(os.Stderr, why)
	os.Exit(status)
}

const usage = "usage: resolve FILE ADDRESS.., each HEX, 0xHEX or SECTION:HEX"

func orUnknown(name []byte) []byte {
	if name == nil {
		return []byte("??")
	}
	return name
}

func main() {
	if len(os.Args) < 2 {
		stop(2, usage)
	}
	var addresses []C.pdb_address
	for _, word := range os.Args[2:] {
		address, ok := asked(word)
		if !ok {
			stop(2, "resolve: not an address: "+word+"\n"+usage)
		}
		addresses = append(addresses, address)
	}
	file, err := os.ReadFile(os.Args[1])
	if err != nil {
		stop(3, "resolve: "+err.Error())
	}
	frames, code := Frames(file, addresses)
	if code == C.PDB_OUT_OF_MEMORY {
		stop(5, "out of memory")
	}
	if code != C.PDB_DONE {
		stop(4, fmt.Sprintf("cannot open: %d", code))
	}
	out := bufio.NewWriter(os.Stdout)
	for k := range addresses {
		for len(frames) > 0 && frames[0].Address == k {
			fmt.Fprintf(out, "%s\n%s:%d:%d\n", orUnknown(frames[0].Name), orUnknown(frames[0].File), frames[0].Line, frames[0].Column)
			frames = frames[1:]
		}
		fmt.Fprintln(out)
	}
	if out.Flush() != nil {
		os.Exit(6)
	}
}
