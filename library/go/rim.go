// Package rim is an example of how Go calls librim, by cgo: Realm Initial Measurements of confidential VMs (Arm CCA), of a manifest and its files
// in memory. CGO_LDFLAGS says where the library is, where the linker does not look there by itself.
package rim

/*
#cgo CFLAGS: -I${SRCDIR}/..
#cgo LDFLAGS: -lrim
#include <stdlib.h>
#include "rim.h"
*/
import "C"

import (
	"fmt"
	"strings"
	"unsafe"
)

// Code is what a call ends with that has no answer, as rim.h numbers it.
type Code int

const (
	NoFile       = Code(C.RIM_NO_FILE)
	NoSuchLaunch = Code(C.RIM_NO_SUCH_LAUNCH)
	Syntax       = Code(C.RIM_SYNTAX)
	Overlap      = Code(C.RIM_OVERLAP)
)

func (code Code) Error() string {
	return fmt.Sprintf("librim ends with the code %d of rim.h", int(code))
}

// Measurement is a launch's Realm Initial Measurement: 32 bytes by sha256, 64 by sha512.
type Measurement struct {
	Algorithm string
	Value     []byte
}

// firstRoom is the first room of an answer, in bytes.
const firstRoom = 1 << 20

// memory is what is lent to a call. C may keep no pointer to Go's memory in its structs, so all is copied.
type memory struct{ kept []unsafe.Pointer }

func (lent *memory) keep(pointer unsafe.Pointer) unsafe.Pointer {
	lent.kept = append(lent.kept, pointer)
	return pointer
}

func (lent *memory) free() {
	for _, each := range lent.kept {
		C.free(each)
	}
}

func (lent *memory) put(to *C.rim_file, path string, bytes []byte) {
	to.path, to.path_length = (*C.char)(lent.keep(unsafe.Pointer(C.CString(path)))), C.size_t(len(path))
	to.bytes, to.length = lent.keep(C.CBytes(append(bytes[:len(bytes):len(bytes)], 0))), C.size_t(len(bytes))
}

// files copies a manifest and its files: the manifest first.
func (lent *memory) files(manifest []byte, files map[string][]byte) (*C.rim_file, *C.rim_file) {
	first := (*C.rim_file)(lent.keep(C.calloc(C.size_t(len(files)+1), C.sizeof_rim_file)))
	all := unsafe.Slice(first, len(files)+1)
	lent.put(&all[0], "", manifest)
	at := 1
	for path, bytes := range files {
		lent.put(&all[at], path, bytes)
		at++
	}
	if at == 1 {
		return first, nil
	}
	return first, &all[1]
}

// answer makes a call, and makes it again with as much room as it says where the answer has more bytes than the first room.
func answer(call func(out unsafe.Pointer, room C.size_t, length *C.size_t) C.rim_code) ([]byte, error) {
	for room := C.size_t(firstRoom); ; {
		var length C.size_t
		out := make([]byte, room)
		code := call(unsafe.Pointer(&out[0]), room, &length)
		switch code {
		case C.RIM_OK, C.RIM_REFUSED, C.RIM_FAULTY:
			return out[:length], nil
		case C.RIM_ROOM:
			room = length
		default:
			return nil, Code(code)
		}
	}
}

// Measure answers the report of all launches, as `rim measure` prints it. `files` has what each path of the manifest leads to.
func Measure(manifest []byte, files map[string][]byte) (string, error) {
	var lent memory
	defer lent.free()
	subject, others := lent.files(manifest, files)
	report, err := answer(func(out unsafe.Pointer, room C.size_t, length *C.size_t) C.rim_code {
		return C.rim_measure(subject, others, C.size_t(len(files)), C.RIM_LINES, out, room, length)
	})
	return string(report), err
}

// LaunchRim answers the measurement of one launch. The error is the Code of why it is refused, where it is.
func LaunchRim(manifest []byte, files map[string][]byte, launch string) (Measurement, error) {
	var lent memory
	defer lent.free()
	subject, others := lent.files(manifest, files)
	name := (*C.char)(lent.keep(unsafe.Pointer(C.CString(launch))))
	var algorithm C.rim_algorithm
	value, err := answer(func(out unsafe.Pointer, room C.size_t, length *C.size_t) C.rim_code {
		return C.rim_launch_rim(subject, others, C.size_t(len(files)), name, C.size_t(len(launch)), &algorithm, out, room, length)
	})
	if err != nil {
		return Measurement{}, err
	}
	return Measurement{map[C.rim_algorithm]string{C.RIM_SHA256: "sha256", C.RIM_SHA512: "sha512"}[algorithm], value}, nil
}

// Paths answers the paths of the files that a manifest names, in its order.
func Paths(manifest []byte) ([]string, error) {
	var lent memory
	defer lent.free()
	subject, _ := lent.files(manifest, nil)
	paths, err := answer(func(out unsafe.Pointer, room C.size_t, length *C.size_t) C.rim_code {
		return C.rim_manifest_paths(subject, out, room, length)
	})
	if err != nil || len(paths) == 0 {
		return nil, err
	}
	return strings.Split(strings.TrimSuffix(string(paths), "\x00"), "\x00"), nil
}
