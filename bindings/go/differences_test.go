package yamlcanon

import (
	"reflect"
	"strings"
	"testing"
)

func text(words string) *string { return &words }

func TestDiff(t *testing.T) {
	got, err := Diff([]byte("a: 1\nb: [x]\n"), []byte("a: 2\nc: ~\nb: []\n"), 1000)
	want := []Difference{
		{"changed", ".a", text(`!!int "1"`), text(`!!int "2"`), &Place{1, 4}, &Place{1, 4}},
		{"left", ".b[0]", text(`"x"`), nil, &Place{2, 5}, nil},
		{"right", ".c", nil, text(`!!null "null"`), nil, &Place{2, 4}},
	}
	if err != nil || !reflect.DeepEqual(got, want) {
		t.Error(got, err)
	}
	got, err = Diff([]byte("a: 1\nb: [x]\n"), []byte("a: 2\nc: ~\nb: []\n"), 1)
	if err != nil || !reflect.DeepEqual(got, []Difference{want[0], {Kind: "more"}}) {
		t.Error(got, err)
	}
	for _, lines := range []uint{0, 1000} {
		if got, err := Diff([]byte("a: 3"), []byte("{a: 0x3}"), lines); got != nil || err != nil {
			t.Error(got, err)
		}
	}
	if got, err := Diff([]byte("a"), []byte("b"), 0); got != nil || err != nil {
		t.Error(got, err)
	}
}

func TestDiffLongerThanTheFirstRoom(t *testing.T) {
	left, right := strings.Repeat("- a\n", 900), strings.Repeat("- b\n", 900)
	if got, err := Diff([]byte(left), []byte(right), 10000); err != nil || len(got) < 900 {
		t.Error(len(got), err)
	}
	for _, input := range deepest() {
		if got, err := Diff(input, nil, 10); err != nil || len(got) != 1 || got[0].Kind != "left" {
			t.Error(got, err)
		}
		changed := []byte(strings.Replace(string(input), "x", "y", 1))
		if got, err := Diff(input, changed, 10); err != nil || len(got) > 1 {
			t.Error(got, err)
		}
	}
}

// Each side of a vector is rejected as it is by Same, and the differences are none exactly if the streams mean the same.
func TestDiffOfVectors(t *testing.T) {
	before := []byte("a: [b]")
	for _, e := range vectors(t) {
		same, err := Same(before, e.input)
		got, errOfDiff := Diff(before, e.input, 5)
		if err != nil {
			if want := refusal(t, err); refusal(t, errOfDiff) != want {
				t.Errorf("%s: %v and not %v", e.name, errOfDiff, err)
			}
			continue
		}
		if errOfDiff != nil || same != (len(got) == 0) || len(got) > 6 {
			t.Errorf("%s: %v, %v", e.name, got, errOfDiff)
		}
		if len(e.input) < 10000 {
			before = e.input
		}
	}
	if _, err := (Limits{Memory: 1000}).Diff([]byte("a: b"), []byte("a: c"), 5); refusal(t, err).Kind != OutOfMemory {
		t.Error(err)
	}
}
