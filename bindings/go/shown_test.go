package yamlcanon

import (
	"bytes"
	"encoding/json"
	"errors"
	"strings"
	"testing"
)

func TestShow(t *testing.T) {
	for _, input := range append(deepest(), nil, []byte("{b: 0x1, a: &x [~], c: *x}"), bytes.Repeat([]byte("- \n"), 10000)) {
		text, err := Show(input)
		if err != nil {
			t.Fatal(err)
		}
		if same, err := Same(input, text); !same || err != nil {
			t.Error(same, err)
		}
		if again, err := Show(text); err != nil || !bytes.Equal(again, text) {
			t.Error(err)
		}
	}
	if _, err := Show([]byte("[a")); refusal(t, err).Kind != Syntax {
		t.Error(err)
	}
	if _, err := (Limits{Memory: 1000}).Show([]byte("a: b")); refusal(t, err).Kind != OutOfMemory {
		t.Error(err)
	}
}

func TestToJSON(t *testing.T) {
	text, err := ToJSON([]byte("b: 0x10\na: [~, .5, yes]\n--- x"))
	if err != nil || string(text) != "{\"a\": [null, 0.5, \"yes\"], \"b\": 16}\n\"x\"\n" {
		t.Error(string(text), err)
	}
	for _, input := range deepest() {
		if text, err := ToJSON(input); err != nil || !json.Valid(text) {
			t.Error(err)
		}
	}
	for _, input := range []string{"{1: a}", "{[a]: b}", "- .inf", "- -.inf", "- .nan", "- !x a", "a\n--- {!x b: c}"} {
		if text, err := ToJSON([]byte(input)); !errors.Is(err, ErrNoJSON) || text != nil {
			t.Error(input, text, err)
		}
	}
	if _, err := ToJSON([]byte("[a")); refusal(t, err).Kind != Syntax {
		t.Error(err)
	}
}

func TestJSONPosition(t *testing.T) {
	deep := strings.Repeat("[", 1000) + "{~: b}" + strings.Repeat("]", 1000)
	for input, wanted := range map[string][2]int{
		"a: 1\nb: .inf\nc: .nan": {2, 4}, "a: 1\n80: x": {2, 1}, "a\n--- [b, !x c]": {2, 9}, deep: {1, 1002},
	} {
		if line, column, ok := JSONPosition([]byte(input)); !ok || line != wanted[0] || column != wanted[1] {
			t.Errorf("%.40q: %d:%d", input, line, column)
		}
		if _, _, ok := (Limits{Memory: 1000}).JSONPosition([]byte(input)); ok {
			t.Errorf("%.40q: a position in 1,000 bytes", input)
		}
	}
	for _, input := range []string{"a", "", "[a"} {
		if line, column, ok := JSONPosition([]byte(input)); ok {
			t.Errorf("%q: %d:%d", input, line, column)
		}
	}
}
