package yamlcanon

// #include "stack.h"
import "C"

import (
	"bytes"
	"encoding/json"
)

// Difference is where two streams differ, as a line of yamlreview diff --format=json tells it.
type Difference struct {
	// Kind is "changed"; "left" or "right" for what that side has alone; "moved" for an item of a sequence that has another place among
	// the others; and "more", behind all others, if there are more differences than were asked for.
	Kind string `json:"kind"`
	// Path is where it is: .spec.replicas, [1]. The number of the document comes first unless each side has one document.
	Path string `json:"path"`
	// Left and Right are the canonical text of what each side has there, cut behind 60 bytes; nil where it has nothing.
	Left  *string `json:"left"`
	Right *string `json:"right"`
	// LeftPlace and RightPlace are where that begins; nil where there is none.
	LeftPlace  *Place `json:"left_place"`
	RightPlace *Place `json:"right_place"`
}

// Place is a line and a column, both from 1. A column counts characters.
type Place struct {
	Line   int `json:"line"`
	Column int `json:"column"`
}

// Diff tells where two streams differ, at most so many differences. It gives none if the streams mean the same. Every error is a
// *Refused, whose Side is the input that is rejected.
func Diff(left, right []byte, lines uint) ([]Difference, error) {
	return Limits{}.Diff(left, right, lines)
}

// Diff is the call of this name under these limits.
func (l Limits) Diff(left, right []byte, lines uint) ([]Difference, error) {
	text, err := l.differingLines(left, right, lines)
	if err != nil || len(text) == 0 {
		return nil, err
	}
	told := bytes.Split(bytes.TrimSuffix(text, []byte("\n")), []byte("\n"))
	list := make([]Difference, len(told))
	for i, line := range told {
		if err := json.Unmarshal(line, &list[i]); err != nil {
			return nil, err
		}
	}
	return list, nil
}

func (l Limits) differingLines(left, right []byte, lines uint) ([]byte, error) {
	running <- struct{}{}
	defer func() { <-running }()
	room := make([]byte, 4096)
	for {
		answer := C.yc_diff(first(left), C.size_t(len(left)), first(right), C.size_t(len(right)), C.size_t(lines),
			first(room), C.size_t(len(room)), C.size_t(l.Memory))
		switch answer.status {
		case C.YAMLCANON_REFUSED:
			return nil, refused(&answer.fault, Left+Side(answer.fault.side))
		case C.YAMLCANON_SHORT:
			room = make([]byte, answer.len)
		default:
			return room[:answer.len], nil
		}
	}
}
