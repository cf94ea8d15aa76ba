package yamlcanon

// #include "stack.h"
import "C"

import (
	"errors"
	"fmt"
	"math"
	"math/big"
	"strconv"
)

// Float is a float of a stream as its canonical text, with all its digits: 1.5, 1.0e+30, .inf, -.inf or .nan.
type Float string

// Float64 is the machine's float that is nearest. It has an error if the float is out of the machine's range.
func (f Float) Float64() (float64, error) {
	switch f {
	case ".inf":
		return math.Inf(1), nil
	case "-.inf":
		return math.Inf(-1), nil
	case ".nan":
		return math.NaN(), nil
	}
	return strconv.ParseFloat(string(f), 64)
}

// Tagged is a value of another tag than those of the core schema: the text of a scalar, or the value of a sequence or a mapping.
type Tagged struct {
	Tag   string
	Value any
}

// Map is a mapping with a key that is no string: its entries, in the order of the canonical text.
type Map []Entry

// Entry is an entry of a mapping.
type Entry struct{ Key, Value any }

// TooManyNodes is the error of Load where the values would have more nodes than the limit, since each alias stands for a value of its
// own. Nodes is math.MaxUint64 if there are more than that.
type TooManyNodes struct{ Nodes, Limit uint64 }

// Error says how many there are, and how many there may be.
func (t *TooManyNodes) Error() string {
	return fmt.Sprintf("the values have %d nodes, and the limit is %d", t.Nodes, t.Limit)
}

// ErrNotOne is the error of LoadOne for a stream that has no document, or several.
var ErrNotOne = errors.New("the stream has not one document")

// Load gives the values of the documents of a stream. They are made from what the library gives, with no reader of YAML in between: two
// streams have the same values if they mean the same.
//
//   - null is nil, and a bool is a bool
//   - an int is an int64 if it fits, else a *big.Int
//   - a float is a Float, which is a text: no value passes through a float of the machine
//   - a str is a string
//   - a sequence is a []any
//   - a mapping is a map[string]any if each key is a str, else a Map
//   - what has another tag is Tagged
//
// Each alias stands for a value of its own, so that a change of one does not change the other. An error is a *Refused or a *TooManyNodes.
func Load(input []byte) ([]any, error) { return Limits{}.Load(input) }

// LoadOne gives the value of the only document of a stream. Its errors are those of Load and ErrNotOne.
func LoadOne(input []byte) (any, error) { return Limits{}.LoadOne(input) }

// LoadOne is the call of this name under these limits.
func (l Limits) LoadOne(input []byte) (any, error) {
	values, err := l.Load(input)
	if err != nil {
		return nil, err
	}
	if len(values) != 1 {
		return nil, fmt.Errorf("%w: it has %d", ErrNotOne, len(values))
	}
	return values[0], nil
}

// Load is the call of this name under these limits.
func (l Limits) Load(input []byte) ([]any, error) {
	r, err := l.records(input)
	if err != nil {
		return nil, err
	}
	limit := l.Nodes
	if limit == 0 {
		limit = 1000000 + 2*uint64(len(input))
	}
	if nodes := r.nodes(); nodes > limit {
		return nil, &TooManyNodes{nodes, limit}
	}
	values := make([]any, len(r.roots))
	for i, root := range r.roots {
		values[i] = r.value(root)
	}
	return values, nil
}

// records are what the library gives of a stream: a record for each different value, each behind its parts.
type records struct {
	values       []C.yamlcanon_value
	parts, roots []C.uint32_t
	texts        []byte
}

func (l Limits) records(input []byte) (*records, error) {
	running <- struct{}{}
	defer func() { <-running }()
	// Enough for most inputs. Where it is not, the library says what is.
	values, parts, texts := len(input)/8+64, len(input)/8+64, len(input)+1024
	for {
		r := &records{values: make([]C.yamlcanon_value, values), parts: make([]C.uint32_t, parts), texts: make([]byte, texts)}
		answer := C.yc_values(first(input), C.size_t(len(input)), &r.values[0], C.size_t(values), &r.parts[0], C.size_t(parts),
			first(r.texts), C.size_t(texts), C.size_t(l.Memory))
		switch answer.status {
		case C.YAMLCANON_REFUSED:
			return nil, refused(&answer.fault, Only)
		case C.YAMLCANON_DONE:
			r.roots = r.parts[:answer.lengths.documents]
			r.values = r.values[:answer.lengths.values]
			return r, nil
		}
		values, parts, texts = int(answer.lengths.values), int(answer.lengths.parts), int(answer.lengths.texts)
	}
}

// partsOf are the items of a sequence; the keys and values of a mapping, in turn.
func (r *records) partsOf(v *C.yamlcanon_value) []C.uint32_t {
	if v.kind < C.YAMLCANON_KIND_SEQUENCE {
		return nil
	}
	return r.parts[v.start:v.end]
}

// nodes is how many nodes the documents have with each alias written out, or math.MaxUint64 if there are more.
func (r *records) nodes() uint64 {
	counts := make([]uint64, len(r.values))
	for i := range r.values {
		counts[i] = sum(1, counts, r.partsOf(&r.values[i]))
	}
	return sum(0, counts, r.roots)
}

func sum(total uint64, counts []uint64, parts []C.uint32_t) uint64 {
	for _, part := range parts {
		if total > math.MaxUint64-counts[part] {
			return math.MaxUint64
		}
		total += counts[part]
	}
	return total
}

func (r *records) text(start, end C.uint32_t) string { return string(r.texts[start:end]) }

// value makes a value, whose parts lie in one another up to 1,023 times.
func (r *records) value(number C.uint32_t) any {
	v := &r.values[number]
	switch v.kind {
	case C.YAMLCANON_KIND_SEQUENCE:
		return r.tagged(v, "tag:yaml.org,2002:seq", r.list(r.partsOf(v)))
	case C.YAMLCANON_KIND_MAPPING:
		return r.tagged(v, "tag:yaml.org,2002:map", r.mapping(r.partsOf(v)))
	}
	return r.scalar(v, r.text(v.start, v.end))
}

func (r *records) scalar(v *C.yamlcanon_value, content string) any {
	switch v.kind {
	case C.YAMLCANON_KIND_NULL:
		return nil
	case C.YAMLCANON_KIND_BOOL:
		return content == "true"
	case C.YAMLCANON_KIND_INT:
		return intOf(content)
	case C.YAMLCANON_KIND_FLOAT:
		return Float(content)
	case C.YAMLCANON_KIND_STR:
		return content
	}
	return Tagged{r.text(v.tag_start, v.tag_end), content}
}

func intOf(digits string) any {
	if small, err := strconv.ParseInt(digits, 10, 64); err == nil {
		return small
	}
	large, _ := new(big.Int).SetString(digits, 10)
	return large
}

// tagged is a sequence or a mapping, with its tag if that is not the one that it has by its kind.
func (r *records) tagged(v *C.yamlcanon_value, own string, value any) any {
	if tag := r.text(v.tag_start, v.tag_end); tag != own {
		return Tagged{tag, value}
	}
	return value
}

func (r *records) list(parts []C.uint32_t) []any {
	items := make([]any, len(parts))
	for i, part := range parts {
		items[i] = r.value(part)
	}
	return items
}

func (r *records) mapping(parts []C.uint32_t) any {
	for i := 0; i < len(parts); i += 2 {
		if r.values[parts[i]].kind != C.YAMLCANON_KIND_STR {
			return r.entries(parts)
		}
	}
	named := make(map[string]any, len(parts)/2)
	for i := 0; i < len(parts); i += 2 {
		key := &r.values[parts[i]]
		named[r.text(key.start, key.end)] = r.value(parts[i+1])
	}
	return named
}

func (r *records) entries(parts []C.uint32_t) Map {
	entries := make(Map, len(parts)/2)
	for i := range entries {
		entries[i] = Entry{r.value(parts[2*i]), r.value(parts[2*i+1])}
	}
	return entries
}
