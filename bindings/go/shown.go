package yamlcanon

// #include "stack.h"
import "C"

import "errors"

// ErrNoJSON is the error of ToJSON for an input that is accepted and that JSON cannot express: a key is no string, a float is .inf,
// -.inf or .nan, or a tag is none of the core schema. JSONPosition says where it is, and yamlreview show --format=json also which.
var ErrNoJSON = errors.New("JSON cannot express this stream")

// ErrUnlike is the error of ToJSON where the lines did not pass their check: a fault of the library. No input is known for this.
var ErrUnlike = errors.New("the lines of JSON did not pass their check; this is a bug of the library")

// Show gives the stream as readable YAML, as yamlreview show writes it: block style, a line for each entry and item, aliases written
// out. It is checked to mean what the stream means before it is returned. Every error is a *Refused. TextTooLong means that this text
// would have more than 67,108,864 bytes.
func Show(input []byte) ([]byte, error) { return Limits{}.Show(input) }

// ToJSON gives the stream as JSON (RFC 8259), a line for each document, checked to mean what the stream means. An error is ErrNoJSON,
// ErrUnlike or a *Refused.
func ToJSON(input []byte) ([]byte, error) { return Limits{}.ToJSON(input) }

// Show is the call of this name under these limits.
func (l Limits) Show(input []byte) ([]byte, error) { return l.text(C.YC_SHOW, input) }

// ToJSON is the call of this name under these limits.
func (l Limits) ToJSON(input []byte) ([]byte, error) { return l.text(C.YC_JSON, input) }

// JSONPosition is the line and the column of the first node that JSON cannot express, both from 1; not ok if there is none.
func JSONPosition(input []byte) (line, column int, ok bool) { return Limits{}.JSONPosition(input) }

// JSONPosition is the call of this name under these limits; not ok if they do not allow to find it.
func (l Limits) JSONPosition(input []byte) (line, column int, ok bool) {
	running <- struct{}{}
	defer func() { <-running }()
	answer := C.yc_json_position(first(input), C.size_t(len(input)), C.size_t(l.Memory))
	return int(answer.line), int(answer.column), answer.status == C.YAMLCANON_DONE
}
