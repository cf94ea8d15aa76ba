// Package yamlcanon gives the canonical text of YAML 1.2 streams, and says whether two streams mean the same.
//
// It calls the static library libyamlcanon.a by cgo. If the library and its header are not where the C compiler looks, name
// their folder:
//
//	CGO_CFLAGS="-I$FOLDER" CGO_LDFLAGS="-L$FOLDER" go build
//
// Any number of goroutines may call at once. A call holds no state. It keeps its thread until it returns, so no more calls run at
// once than GOMAXPROCS was when the program started; other callers wait. If the thread's stack may be too small for an input of
// this length, the call is made on a thread with 4 MiB. A slice must not be written while a call reads it.
package yamlcanon

// #cgo CFLAGS: -O2 -Wall -Wextra -pthread
// #cgo LDFLAGS: -l:libyamlcanon.a -pthread
// #include "stack.h"
import "C"

import (
	"runtime"
	"unsafe"
)

// Form is the form of the texts that Canonical gives: yamlcanon-form-1.
const Form = C.YAMLCANON_FORM

// Version is the version of the library that is linked: 101 for 1.1. A library of an older interface does not link.
func Version() int { return int(C.yamlcanon_version()) }

// Release is the release of the library that is linked.
func Release() string { return C.GoString(C.yamlcanon_release()) }

// Limits has the calls under limits. The zero value has none but that of Load.
type Limits struct {
	// Memory is what a call may hold at once, in bytes, with 16 more for each block that it asks for. The answer is not counted. A
	// call that needs more gives OutOfMemory.
	Memory uintptr
	// Nodes is how many nodes the values of Load may have together; 0 is 1,000,000 and two more for each byte of the input, which no
	// input without aliases reaches.
	Nodes uint64
}

// Canonical gives the canonical text of a stream. It is UTF-8, and empty for a stream without documents. Every error is a *Refused.
func Canonical(input []byte) ([]byte, error) { return Limits{}.Canonical(input) }

// Events gives the events of a stream, in the notation of yaml-test-suite. Every error is a *Refused.
func Events(input []byte) ([]byte, error) { return Limits{}.Events(input) }

// Same says whether two streams mean the same. Every error is a *Refused, whose Side is the input that is rejected.
func Same(left, right []byte) (bool, error) { return Limits{}.Same(left, right) }

// SHA256 gives the SHA-256 of the canonical text: what means the same has the same. Every error is a *Refused.
func SHA256(input []byte) ([32]byte, error) { return Limits{}.SHA256(input) }

// Canonical is the call of this name under these limits.
func (l Limits) Canonical(input []byte) ([]byte, error) { return l.text(C.YC_CANONICAL, input) }

// Events is the call of this name under these limits.
func (l Limits) Events(input []byte) ([]byte, error) { return l.text(C.YC_EVENTS, input) }

// Same is the call of this name under these limits.
func (l Limits) Same(left, right []byte) (bool, error) {
	running <- struct{}{}
	defer func() { <-running }()
	answer := C.yc_same(first(left), C.size_t(len(left)), first(right), C.size_t(len(right)), C.size_t(l.Memory))
	if answer.status == C.YAMLCANON_REFUSED {
		return false, refused(&answer.fault, Left+Side(answer.fault.side))
	}
	return answer.status == C.YAMLCANON_DONE, nil
}

// SHA256 is the call of this name under these limits.
func (l Limits) SHA256(input []byte) (digest [C.YC_DIGEST]byte, err error) {
	running <- struct{}{}
	defer func() { <-running }()
	answer := C.yc_sha256(first(input), C.size_t(len(input)), first(digest[:]), C.size_t(l.Memory))
	if answer.status == C.YAMLCANON_REFUSED {
		return digest, refused(&answer.fault, Only)
	}
	return digest, nil
}

// running has an entry for each call that runs: a call keeps its thread, and a thread takes memory.
var running = make(chan struct{}, runtime.GOMAXPROCS(0))

func first(data []byte) *C.uint8_t {
	if len(data) == 0 {
		return nil
	}
	return (*C.uint8_t)(unsafe.Pointer(&data[0]))
}

func (l Limits) text(which C.int, input []byte) ([]byte, error) {
	running <- struct{}{}
	defer func() { <-running }()
	room := make([]byte, 2*len(input)+64)
	for {
		answer := C.yc_text(which, first(input), C.size_t(len(input)), first(room), C.size_t(len(room)), C.size_t(l.Memory))
		switch answer.status {
		case C.YAMLCANON_DONE:
			return room[:answer.len:answer.len], nil
		case C.YAMLCANON_SHORT:
			room = make([]byte, answer.len)
		case C.YAMLCANON_NO_JSON:
			return nil, ErrNoJSON
		case C.YAMLCANON_UNLIKE:
			return nil, ErrUnlike
		default:
			return nil, refused(&answer.fault, Only)
		}
	}
}

func refused(fault *C.yamlcanon_fault, side Side) *Refused {
	return &Refused{Kind(fault.number), side, uint64(fault.place), uint64(fault.first), uint64(fault.second)}
}

// message is what the library says of an error; not ok where it has none of this number.
func (r *Refused) message() (text string, ok bool) {
	var room [C.YAMLCANON_MESSAGE]C.char
	var length C.size_t
	status := C.yc_message(C.uint32_t(r.Kind), C.uint64_t(r.Place), C.uint64_t(r.First), C.uint64_t(r.Second), &room[0], &length)
	return C.GoStringN(&room[0], C.int(length)), status == C.YAMLCANON_DONE
}

// Position is the line and the column of the place in the input that is rejected, both from 1, as yamlreview faults prints them: of
// the byte, of the event's text, of the document's root, or of the second of two equal keys. TooLong, TextTooLong and OutOfMemory have
// none. A line ends with a line feed, a carriage return, or both (YAML 1.2.2, 5.4). A column counts characters. A byte order mark has
// none. For UndefinedAlias to EqualKeys the input is read again.
func (r *Refused) Position(input []byte) (line, column int, ok bool) {
	return Limits{}.Position(r, input)
}

// Position is that of the error under these limits; not ok if they do not allow to find it.
func (l Limits) Position(r *Refused, input []byte) (line, column int, ok bool) {
	running <- struct{}{}
	defer func() { <-running }()
	kind, place, one, other := C.uint32_t(r.Kind), C.uint64_t(r.Place), C.uint64_t(r.First), C.uint64_t(r.Second)
	answer := C.yc_position(kind, place, one, other, first(input), C.size_t(len(input)), C.size_t(l.Memory))
	return int(answer.line), int(answer.column), answer.status == C.YAMLCANON_DONE
}
