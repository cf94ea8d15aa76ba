package yamlcanon

import (
	"bytes"
	"crypto/sha256"
	"fmt"
	"math/rand"
	"os"
	"strings"
	"sync"
	"testing"
)

func TestEmpty(t *testing.T) {
	for _, input := range [][]byte{nil, {}} {
		if text, err := Canonical(input); err != nil || len(text) != 0 {
			t.Error(text, err)
		}
		if same, err := Same(input, input); !same || err != nil {
			t.Error(same, err)
		}
	}
}

func TestVersion(t *testing.T) {
	if Version() != 101 || Form != 1 || !strings.HasPrefix(Release(), "1.1.") {
		t.Error(Version(), Form, Release())
	}
}

func TestTextLongerThanTheFirstRoom(t *testing.T) {
	many := bytes.Repeat([]byte("- \n"), 10000)
	text, err := Canonical(many)
	if err != nil || len(text) <= 2*len(many)+64 || cap(text) != len(text) {
		t.Fatal(len(text), cap(text), err)
	}
	if again, err := Canonical(text); err != nil || !bytes.Equal(again, text) {
		t.Error(err)
	}
}

func TestDigests(t *testing.T) {
	for _, input := range append(deepest(), nil, []byte("{b: 0x1, a: [~]}"), bytes.Repeat([]byte("- \n"), 10000)) {
		text, err := Canonical(input)
		digest, errOfDigest := SHA256(input)
		if err != nil || errOfDigest != nil || digest != sha256.Sum256(text) {
			t.Error(err, errOfDigest, digest)
		}
	}
	if digest, err := SHA256([]byte("[a")); err == nil || err.Error() != "4 Syntax at byte 2" || digest != [32]byte{} {
		t.Error(digest, err)
	}
}

// A call under a limit needs more, and the same call without one does not, on a thread of Go and on one that it is handed to.
func TestLimits(t *testing.T) {
	small := Limits{Memory: 10000}
	for _, input := range append(deepest(), bytes.Repeat([]byte("- a\n"), 10000)) {
		_, err := small.Canonical(input)
		_, errOfEvents := small.Events(input)
		_, errOfSame := small.Same(input, nil)
		_, errOfDigest := small.SHA256(input)
		for _, err := range []error{err, errOfEvents, errOfSame, errOfDigest} {
			if refusal(t, err).Kind != OutOfMemory || err.Error() != "21 OutOfMemory" {
				t.Error(err)
			}
		}
		if text, err := (Limits{Memory: 1 << 24}).Canonical(input); err != nil || len(text) == 0 {
			t.Error(err)
		}
	}
}

func TestNames(t *testing.T) {
	told := fmt.Sprint(TooLong, EqualKeys, OutOfMemory, Kind(0), Kind(22), Only, Left, Right, Side(9))
	if told != "TooLong EqualKeys OutOfMemory Kind(0) Kind(22) only left right Side(9)" {
		t.Error(told)
	}
	for text, r := range map[string]*Refused{
		"left: 1 TooLong":                         {Kind: TooLong, Side: Left},
		"11 BadTag at byte 3":                     {Kind: BadTag, Place: 3},
		"17 FloatRange at event 3":                {Kind: FloatRange, Place: 3},
		"right: 18 TooHigh in document 3":         {Kind: TooHigh, Side: Right, Place: 3},
		"19 EqualKeys in node 4, entries 0 and 1": {Kind: EqualKeys, Place: 4, Second: 1},
		"20 TextTooLong":                          {Kind: TextTooLong},
		"21 OutOfMemory":                          {Kind: OutOfMemory, Side: Left},
	} {
		if r.Error() != text {
			t.Error(r, "and not", text)
		}
	}
}

// positionByDefinition counts a line more for each break that ends before, a column more for each character of the line before.
func positionByDefinition(input []byte, offset int) (line, column int) {
	text, at, start := input, offset, 0
	if strings.HasPrefix(string(input), "\ufeff") {
		text, at = input[3:], offset-3
	}
	line = 1
	for k := 0; k < at; k++ {
		if text[k] == '\n' || text[k] == '\r' && !strings.HasPrefix(string(text[k+1:]), "\n") {
			line, start = line+1, k+1
		}
	}
	if at < start {
		return line, 1
	}
	return line, 1 + len([]rune(string(text[start:at])))
}

func TestPositionIsThatOfTheDefinition(t *testing.T) {
	parts := []string{"\n", "\r", "\r\n", "a", "é", "\u2028", "\U0001f600"}
	chance := rand.New(rand.NewSource(1))
	for number := 0; number < 3000; number++ {
		text, ends := strings.Repeat("\ufeff", number%2), []int{}
		for range make([]struct{}, number%12) {
			ends = append(ends, len(text))
			text += parts[chance.Intn(len(parts))]
		}
		for _, at := range append(ends, len(text)) {
			r := Refused{Kind: Syntax, Place: uint64(at)}
			line, column, ok := r.Position([]byte(text))
			if wantLine, wantColumn := positionByDefinition([]byte(text), at); !ok || line != wantLine || column != wantColumn {
				t.Fatalf("%q at %d: %d:%d and not %d:%d", text, at, line, column, wantLine, wantColumn)
			}
		}
	}
	for _, r := range []Refused{{Kind: EqualKeys, Place: 1}, {Kind: TooLong}, {Kind: Tab, Place: 9}} {
		if line, column, ok := r.Position([]byte("a")); ok {
			t.Errorf("%v has the position %d:%d", &r, line, column)
		}
	}
}

func TestPositionsOfEventsDocumentsAndKeys(t *testing.T) {
	deep := strings.Repeat("[", 1000) + "{a: 1, 'a': 2}" + strings.Repeat("]", 1000)
	for _, one := range []struct {
		kind         Kind
		input        string
		line, column int
	}{
		{UndefinedAlias, "a: 1\nb: *x\n", 2, 4},
		{CyclicAlias, "a: &a\n  b: [*a]", 2, 7},
		{WrongKind, "a: 1\nb: !!seq x", 2, 4},
		{BadContent, "a: 1\r\nb: &x !!int x", 2, 7},
		{IntRange, "\ufeff0xffffffffffffffffffffffffffffffff", 1, 1},
		{FloatRange, "é: [é, 1e-1000001]", 1, 8},
		{TooHigh, "--- a\n---\n" + strings.Repeat("- ", 1024) + "x", 3, 1},
		{EqualKeys, "- {b: 1}\n- a: 1\n  b: 2\n  a: 3", 4, 3},
		{EqualKeys, deep, 1, 1008},
	} {
		input := []byte(one.input)
		_, err := Canonical(input)
		r := refusal(t, err)
		if line, column, ok := r.Position(input); r.Kind != one.kind || !ok || line != one.line || column != one.column {
			t.Errorf("%v of %.40q: %d:%d", &r, input, line, column)
		}
		if line, column, ok := (Limits{Memory: 1000}).Position(&r, input); ok {
			t.Errorf("%v has the position %d:%d in 1,000 bytes", &r, line, column)
		}
		if line, column, ok := r.Position([]byte("[a")); ok {
			t.Errorf("%v has the position %d:%d in another input", &r, line, column)
		}
	}
}

func deepest() [][]byte {
	return [][]byte{
		[]byte(strings.Repeat("[", 1000) + strings.Repeat("]", 1000)),
		[]byte(strings.Repeat("{a: ", 1023) + "x" + strings.Repeat("}", 1023)),
		[]byte(strings.Repeat("- ", 1000)),
	}
}

// Each goroutine's call has the stack that the greatest depth takes, whatever the system gives its threads.
func TestDeep(t *testing.T) {
	var all sync.WaitGroup
	for i := 0; i < 200; i++ {
		all.Add(1)
		go func() {
			defer all.Done()
			for _, input := range deepest() {
				if text, err := Canonical(input); err != nil || len(text) == 0 {
					t.Error(err)
				}
				if same, err := Same(input, input); !same || err != nil {
					t.Error(err)
				}
			}
		}()
	}
	all.Wait()
}

// As many calls run at once as there are processors, and Go keeps no more threads for them.
func TestThreadsAreBounded(t *testing.T) {
	var all sync.WaitGroup
	input := []byte(strings.Repeat("key: [a, b, {c: d}]\n---\n", 500))
	for i := 0; i < 1000; i++ {
		all.Add(1)
		go func() {
			defer all.Done()
			if _, err := Events(input); err != nil {
				t.Error(err)
			}
		}()
	}
	all.Wait()
	status, err := os.ReadFile("/proc/self/status")
	if err != nil {
		t.Skip(err)
	}
	for _, line := range strings.Split(string(status), "\n") {
		var threads int
		if n, _ := fmt.Sscanf(line, "Threads: %d", &threads); n == 1 && threads > cap(running)+32 {
			t.Errorf("%d threads behind 1000 goroutines", threads)
		}
	}
}

func BenchmarkCanonicalSmall(b *testing.B) {
	for i := 0; i < b.N; i++ {
		if _, err := Canonical([]byte("a: b\n")); err != nil {
			b.Fatal(err)
		}
	}
}
