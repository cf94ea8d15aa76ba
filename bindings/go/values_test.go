package yamlcanon

import (
	"errors"
	"fmt"
	"math"
	"math/big"
	"reflect"
	"strconv"
	"strings"
	"testing"
)

func TestEachKind(t *testing.T) {
	large, _ := new(big.Int).SetString("-170141183460469231731687303715884105728", 10)
	input := "[~, TRUE, 0x10, -5, 9223372036854775807, 9223372036854775808, -170141183460469231731687303715884105728, 1.50, .Inf, a, '1', " +
		"!t u, !t [v], !t {w: x}, [], {}, {b: 1, a: c}, {1: a, '1': b}]"
	want := []any{
		nil, true, int64(16), int64(-5), int64(math.MaxInt64), new(big.Int).SetUint64(1 << 63), large, Float("1.5"), Float(".inf"), "a", "1",
		Tagged{"!t", "u"}, Tagged{"!t", []any{"v"}}, Tagged{"!t", map[string]any{"w": "x"}}, []any{}, map[string]any{},
		map[string]any{"a": "c", "b": int64(1)}, Map{{int64(1), "a"}, {"1", "b"}},
	}
	got, err := LoadOne([]byte(input))
	if err != nil || !reflect.DeepEqual(got, want) {
		t.Errorf("%#v, %v", got, err)
	}
}

func TestNoValuePassesThroughAFloat(t *testing.T) {
	digits := "123456789012345678901234567890.1234567890123456789"
	for _, input := range []string{digits, "1e1000000", "-1.5E-300"} {
		got, err := LoadOne([]byte(input))
		told, is := got.(Float)
		if same, _ := Same([]byte(input), []byte(told)); err != nil || !is || !same {
			t.Errorf("%v and not %v, %v", got, input, err)
		}
	}
	for float, want := range map[Float]float64{"1.5": 1.5, ".inf": math.Inf(1), "-.inf": math.Inf(-1), "1.0e-400": 0} {
		if got, err := float.Float64(); got != want || err != nil {
			t.Error(float, got, err)
		}
	}
	if got, err := Float(".nan").Float64(); !math.IsNaN(got) || err != nil {
		t.Error(got, err)
	}
	if _, err := Float("1.0e+400").Float64(); err == nil {
		t.Error("a float of the machine")
	}
}

func TestDocuments(t *testing.T) {
	for input, want := range map[string][]any{"": {}, "a\n--- b\n--- a\n": {"a", "b", "a"}} {
		if got, err := Load([]byte(input)); err != nil || !reflect.DeepEqual(got, want) {
			t.Error(got, err)
		}
		if _, err := LoadOne([]byte(input)); !errors.Is(err, ErrNotOne) {
			t.Error(err)
		}
	}
	if _, err := LoadOne([]byte("{1: a, 0x1: b}")); refusal(t, err).Kind != EqualKeys {
		t.Error(err)
	}
	if _, err := (Limits{Memory: 1000}).LoadOne([]byte("a")); refusal(t, err).Kind != OutOfMemory {
		t.Error(err)
	}
}

func TestEachAliasIsAValueOfItsOwn(t *testing.T) {
	got, err := LoadOne([]byte("- &x [1]\n- *x"))
	if err != nil {
		t.Fatal(err)
	}
	lists := got.([]any)
	lists[0].([]any)[0] = "changed"
	if lists[1].([]any)[0] != int64(1) {
		t.Error(lists)
	}
}

// unfolding has lists of two aliases of the one before: 2 to the power of so many scalars.
func unfolding(levels int) []byte {
	var text strings.Builder
	text.WriteString("- &a0 [x, x]\n")
	for level := 1; level < levels; level++ {
		fmt.Fprintf(&text, "- &a%d [*a%d, *a%d]\n", level, level-1, level-1)
	}
	return []byte(text.String())
}

func TestAliasesAreLimited(t *testing.T) {
	var many *TooManyNodes
	if _, err := Load(unfolding(30)); !errors.As(err, &many) || many.Nodes <= 1<<30 || many.Limit < 1000000 {
		t.Error(err)
	}
	if _, err := Load(unfolding(100)); !errors.As(err, &many) || many.Nodes != math.MaxUint64 {
		t.Error(err)
	}
	if _, err := Load(unfolding(10)); err != nil {
		t.Error(err)
	}
	_, err := Limits{Nodes: 2}.Load([]byte("[[], []]"))
	if !errors.As(err, &many) || err.Error() != "the values have 3 nodes, and the limit is 2" {
		t.Error(err)
	}
	if _, err := (Limits{Nodes: 3}).Load([]byte("[[], []]")); err != nil {
		t.Error(err)
	}
}

func TestMoreValuesThanTheFirstRoomHolds(t *testing.T) {
	var text strings.Builder
	for i := 0; i < 10000; i++ {
		fmt.Fprintf(&text, "- %d\n", i)
	}
	got, err := LoadOne([]byte(text.String()))
	if err != nil {
		t.Fatal(err)
	}
	for i, item := range got.([]any) {
		if item != int64(i) {
			t.Fatal(i, item)
		}
	}
}

func encoded(tag string) string {
	var text strings.Builder
	for _, letter := range []byte(tag) {
		if letter >= '0' && letter <= '9' || letter >= 'a' && letter <= 'z' || letter >= 'A' && letter <= 'Z' || strings.IndexByte("!:.,-", letter) >= 0 {
			text.WriteByte(letter)
		} else {
			fmt.Fprintf(&text, "%%%02X", letter)
		}
	}
	return "!<" + text.String() + ">"
}

// written is a value as YAML: each scalar has its tag, and is quoted.
func written(value any) string {
	parts := []string{}
	switch v := value.(type) {
	case nil:
		return "!!null 'null'"
	case bool, int64, *big.Int:
		return fmt.Sprintf("!!%s '%v'", map[bool]string{true: "bool", false: "int"}[reflect.TypeOf(v).Kind() == reflect.Bool], v)
	case Float:
		return "!!float '" + string(v) + "'"
	case string:
		return "!!str " + strconv.QuoteToASCII(v)
	case Tagged:
		if text, is := v.Value.(string); is {
			return encoded(v.Tag) + " " + strconv.QuoteToASCII(text)
		}
		return encoded(v.Tag) + " " + written(v.Value)
	case []any:
		for _, item := range v {
			parts = append(parts, written(item))
		}
		return "[" + strings.Join(parts, ", ") + "]"
	case map[string]any:
		for key, one := range v {
			parts = append(parts, "? "+written(key)+" : "+written(one))
		}
	case Map:
		for _, entry := range v {
			parts = append(parts, "? "+written(entry.Key)+" : "+written(entry.Value))
		}
	}
	return "{" + strings.Join(parts, ", ") + "}"
}

// The values of a vector, written as YAML again, mean what the vector means.
func TestVectorsHaveTheirValues(t *testing.T) {
	tried := 0
	for _, e := range vectors(t) {
		values, err := Load(e.input)
		var many *TooManyNodes
		if errors.As(err, &many) || e.refused != nil && e.refused.Kind == TextTooLong {
			continue
		}
		if e.refused != nil {
			if got := refusal(t, err); got != *e.refused {
				t.Errorf("%s: %v and not %v", e.name, err, e.refused)
			}
			continue
		}
		var text strings.Builder
		for _, value := range values {
			text.WriteString("--- " + written(value) + "\n")
		}
		if same, err := Same(e.input, []byte(text.String())); err != nil || !same {
			t.Errorf("%s: %.300s is not the same: %v", e.name, text.String(), err)
		}
		tried++
	}
	if tried < 300 {
		t.Errorf("the values of %d vectors", tried)
	}
}
