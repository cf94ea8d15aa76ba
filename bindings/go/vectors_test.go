package yamlcanon

import (
	"bufio"
	"bytes"
	"encoding/base64"
	"encoding/json"
	"errors"
	"io"
	"os"
	"strconv"
	"strings"
	"testing"
)

// vector is a line of vectors/form-1.jsonl.
type vector struct {
	Name    string
	Input   *string
	Events  *string
	Text    *string
	Refusal *struct {
		Number Kind
		Name   string
		Place  []uint64
	}
	InputPieces  []json.RawMessage `json:"input_pieces"`
	EventsPieces []json.RawMessage `json:"events_pieces"`
	TextPieces   []json.RawMessage `json:"text_pieces"`
}

// joined is what pieces stand for: texts, and lists of a text, what is between two of it, and how often it comes, an @ in it being its number.
func joined(t *testing.T, pieces []json.RawMessage) []byte {
	var out bytes.Buffer
	for _, piece := range pieces {
		var text string
		if json.Unmarshal(piece, &text) == nil {
			out.WriteString(text)
			continue
		}
		var told []interface{}
		if err := json.Unmarshal(piece, &told); err != nil {
			t.Fatal(err)
		}
		for i := 0; i < int(told[2].(float64)); i++ {
			if i > 0 {
				out.WriteString(told[1].(string))
			}
			out.WriteString(strings.ReplaceAll(told[0].(string), "@", strconv.Itoa(100000+i)))
		}
	}
	return out.Bytes()
}

// expected is an input with its answers. Text or events are nil where they are rejected.
type expected struct {
	input, events, text []byte
	refused             *Refused
	name                string
}

func (v *vector) expected(t *testing.T) expected {
	e := expected{name: v.Name}
	if v.Refusal != nil {
		place := append(v.Refusal.Place, 0, 0, 0)
		e.refused = &Refused{Kind: v.Refusal.Number, Place: place[0], First: place[1], Second: place[2]}
		if v.Refusal.Name != v.Refusal.Number.String() {
			t.Errorf("%s: %d is %s and not %v", v.Name, uint32(v.Refusal.Number), v.Refusal.Name, v.Refusal.Number)
		}
	}
	if v.Input == nil {
		e.input, e.events, e.text = joined(t, v.InputPieces), joined(t, v.EventsPieces), joined(t, v.TextPieces)
		return e
	}
	input, err := base64.StdEncoding.DecodeString(*v.Input)
	if err != nil {
		t.Fatal(err)
	}
	e.input = input
	if v.Events != nil {
		e.events = []byte(*v.Events)
	}
	if v.Text != nil {
		e.text = []byte(*v.Text)
	}
	return e
}

// vectors are the lines of the file, the last one of each input.
func vectors(t *testing.T) map[string]expected {
	name := os.Getenv("YAMLCANON_VECTORS")
	if name == "" {
		name = "../../vectors/form-1.jsonl"
		if _, err := os.Stat(name); err != nil {
			t.Skip("YAMLCANON_VECTORS names no file of vectors, and ", err)
		}
	}
	file, err := os.Open(name)
	if err != nil {
		t.Fatal(err)
	}
	defer file.Close()
	found, lines := map[string]expected{}, bufio.NewReaderSize(file, 1<<20)
	for {
		line, err := lines.ReadBytes('\n')
		if err == io.EOF {
			break
		}
		var v vector
		if err == nil {
			err = json.Unmarshal(line, &v)
		}
		if err != nil {
			t.Fatal(err)
		}
		e := v.expected(t)
		found[string(e.input)] = e
	}
	return found
}

func refusal(t *testing.T, err error) Refused {
	var r *Refused
	if !errors.As(err, &r) {
		t.Errorf("no refusal: %v", err)
		return Refused{}
	}
	return *r
}

func tryAccepted(t *testing.T, e expected) {
	got, err := Canonical(e.input)
	if err != nil || !bytes.Equal(got, e.text) {
		t.Errorf("%s: %q, %v", e.name, got, err)
	}
	if same, err := Same(e.input, e.text); !same || err != nil {
		t.Errorf("%s: not the same as its text: %v", e.name, err)
	}
}

func tryRejected(t *testing.T, e expected) {
	_, err := Canonical(e.input)
	if got := refusal(t, err); got != *e.refused {
		t.Errorf("%s: %v and not %v", e.name, err, e.refused)
	}
	left, right := *e.refused, *e.refused
	left.Side, right.Side = Left, Right
	_, err = Same(e.input, nil)
	if got := refusal(t, err); got != left {
		t.Errorf("%s: %v and not %v", e.name, err, &left)
	}
	_, err = Same([]byte("a"), e.input)
	if got := refusal(t, err); got != right {
		t.Errorf("%s: %v and not %v", e.name, err, &right)
	}
}

func TestVectors(t *testing.T) {
	found := vectors(t)
	if len(found) < 700 {
		t.Errorf("%d vectors", len(found))
	}
	for _, e := range found {
		if e.refused == nil {
			tryAccepted(t, e)
		} else {
			tryRejected(t, e)
		}
		got, err := Events(e.input)
		if e.events != nil && (err != nil || !bytes.Equal(got, e.events)) {
			t.Errorf("%s: events %q, %v", e.name, got, err)
		}
		if e.events == nil && refusal(t, err) != *e.refused {
			t.Errorf("%s: events: %v and not %v", e.name, err, e.refused)
		}
	}
}
