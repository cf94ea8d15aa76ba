package yamlcanon

import "fmt"

// Kind is which error it is, by the number that the program prints.
type Kind uint32

// The kinds of errors. OutOfMemory says nothing of the input: memory was refused.
const (
	TooLong Kind = 1 + iota
	NotUtf8
	NotPrintable
	Syntax
	Tab
	KeyTooLong
	TooDeep
	BadEscape
	BadDirective
	UnknownHandle
	BadTag
	UndefinedAlias
	CyclicAlias
	WrongKind
	BadContent
	IntRange
	FloatRange
	TooHigh
	EqualKeys
	TextTooLong
	OutOfMemory
)

var names = [...]string{
	"TooLong", "NotUtf8", "NotPrintable", "Syntax", "Tab", "KeyTooLong", "TooDeep", "BadEscape", "BadDirective", "UnknownHandle",
	"BadTag", "UndefinedAlias", "CyclicAlias", "WrongKind", "BadContent", "IntRange", "FloatRange", "TooHigh", "EqualKeys",
	"TextTooLong", "OutOfMemory",
}

// String is the name that the program prints, as EqualKeys.
func (k Kind) String() string {
	if k < TooLong || k > OutOfMemory {
		return fmt.Sprintf("Kind(%d)", uint32(k))
	}
	return names[k-TooLong]
}

// Side is which input is rejected.
type Side uint8

const (
	Only  Side = iota // there was one input
	Left              // the first of two
	Right             // the second of two
)

// String is only, left or right.
func (s Side) String() string {
	if s > Right {
		return fmt.Sprintf("Side(%d)", uint8(s))
	}
	return [...]string{"only", "left", "right"}[s]
}

// Refused says why an input is rejected. Its text is the message that the program prints.
type Refused struct {
	Kind          Kind
	Side          Side
	Place         uint64 // a byte offset up to BadTag, an event up to FloatRange, a document for TooHigh, a node for EqualKeys; else 0
	First, Second uint64 // the two entries of EqualKeys; else 0
}

// Error is the message that the program prints.
func (r *Refused) Error() string {
	text, ok := r.message()
	if !ok {
		text = fmt.Sprintf("%d %s", uint32(r.Kind), r.Kind)
	}
	if r.Side != Only && r.Kind != OutOfMemory {
		text = fmt.Sprintf("%s: %s", r.Side, text)
	}
	return text
}

// Offset is the byte of the input at which the error is, and whether it is at a byte.
func (r *Refused) Offset() (offset int, ok bool) {
	if r.Kind < NotUtf8 || r.Kind > BadTag {
		return 0, false
	}
	return int(r.Place), true
}
