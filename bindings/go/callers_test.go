package yamlcanon

import (
	"bytes"
	"crypto/sha256"
	"encoding/json"
	"os"
	"sync"
	"testing"
)

// budgets are what callers have: none, enough for all vectors but large ones, and too little for any that has a node.
var budgets = []uintptr{0, 1 << 20, 500}

// isAnswer says whether an answer is that of a vector, or says that memory is lacking to a caller with a budget.
func isAnswer(t *testing.T, l Limits, e expected, got, want []byte, err error) bool {
	if err == nil {
		return want != nil && bytes.Equal(got, want)
	}
	fault := refusal(t, err)
	if fault.Kind == OutOfMemory {
		return l.Memory > 0
	}
	return want == nil && e.refused != nil && fault == *e.refused
}

func answer(t *testing.T, l Limits, e expected) {
	text, err := l.Canonical(e.input)
	events, errOfEvents := l.Events(e.input)
	if !isAnswer(t, l, e, text, e.text, err) || !isAnswer(t, l, e, events, e.events, errOfEvents) {
		t.Errorf("%s: %.100q, %v, %.100q, %v", e.name, text, err, events, errOfEvents)
	}
	if digest, err := l.SHA256(e.input); err == nil && digest != sha256.Sum256(e.text) {
		t.Errorf("%s: %x", e.name, digest)
	}
	if same, err := l.Same(e.input, e.text); e.refused == nil && err == nil && !same {
		t.Errorf("%s: not the same as its text", e.name)
	}
	if told, err := l.Diff(e.input, e.text, 5); e.refused == nil && err == nil && told != nil {
		t.Errorf("%s: %v", e.name, told)
	}
}

// A service with 64 callers at once, each with a budget, gives the answers of the vectors.
func TestCallersWithBudgets(t *testing.T) {
	found, work := vectors(t), make(chan expected)
	var all sync.WaitGroup
	for i := 0; i < 64; i++ {
		all.Add(1)
		go func(l Limits) {
			defer all.Done()
			for e := range work {
				answer(t, l, e)
			}
		}(Limits{Memory: budgets[i%len(budgets)]})
	}
	for round := 0; round < 3; round++ {
		for _, e := range found {
			if len(e.input) < 100000 {
				work <- e
			}
		}
	}
	close(work)
	all.Wait()
}

// compared is a pair of streams with what yamlreview diff --format=json answers: its status, and the lines that it prints.
type compared struct {
	Left, Right, Lines []byte
	Status             int
}

// comparisons are the lines of the file that tools/bindings writes.
func comparisons(t *testing.T) []compared {
	name := os.Getenv("YAMLCANON_DIFFERENCES")
	if name == "" {
		t.Skip("YAMLCANON_DIFFERENCES names no file of pairs with the program's answers")
	}
	data, err := os.ReadFile(name)
	if err != nil {
		t.Fatal(err)
	}
	var found []compared
	for _, line := range bytes.Split(bytes.TrimSpace(data), []byte("\n")) {
		var c compared
		if err := json.Unmarshal(line, &c); err != nil {
			t.Fatal(err)
		}
		found = append(found, c)
	}
	if len(found) < 2000 {
		t.Errorf("%d pairs", len(found))
	}
	return found
}

// compare holds an answer against the program's.
func compare(t *testing.T, l Limits, c compared) {
	lines, err := l.differingLines(c.Left, c.Right, 1000)
	told, errOfDiff := l.Diff(c.Left, c.Right, 1000)
	if err != nil || errOfDiff != nil {
		kind, other := refusal(t, err), refusal(t, errOfDiff)
		if kind != other || (kind.Kind != OutOfMemory && c.Status != 2) || (kind.Kind == OutOfMemory && l.Memory == 0) {
			t.Errorf("%.100q, %.100q: %v, %v, and yamlreview ends with %d", c.Left, c.Right, err, errOfDiff, c.Status)
		}
		return
	}
	if !bytes.Equal(lines, c.Lines) || len(told) != bytes.Count(c.Lines, []byte("\n")) || (len(told) > 0) != (c.Status == 1) || c.Status > 1 {
		t.Errorf("%.100q, %.100q: %.300q, %d differences, and yamlreview %.300q, status %d", c.Left, c.Right, lines, len(told), c.Lines, c.Status)
	}
}

// A service with 64 callers at once, each with a budget, tells the differences that the program prints.
func TestCallersOfDiffWithBudgets(t *testing.T) {
	found, work := comparisons(t), make(chan compared)
	var all sync.WaitGroup
	for i := 0; i < 64; i++ {
		all.Add(1)
		go func(l Limits) {
			defer all.Done()
			for c := range work {
				compare(t, l, c)
			}
		}(Limits{Memory: budgets[i%len(budgets)]})
	}
	for _, c := range found {
		work <- c
	}
	close(work)
	all.Wait()
}
