package yamlcanon_test

import (
	"errors"
	"fmt"

	"example.org/yamlcanon"
)

func ExampleCanonical() {
	text, err := yamlcanon.Canonical([]byte("{b: 0x1, a: [~]}"))
	fmt.Print(string(text), err)
	// Output:
	// --- {"a" : [!!null "null"], "b" : !!int "1"}
	// <nil>
}

// What means the same has the same digest.
func ExampleSHA256() {
	left, _ := yamlcanon.SHA256([]byte("replicas: 0x3\nname: web\n"))
	right, _ := yamlcanon.SHA256([]byte(`{"name": "web", "replicas": 3}`))
	fmt.Println(left == right)
	fmt.Printf("%x\n", left)
	// Output:
	// true
	// 1f2dbd154f106ffcb6156d68b05ba9e6cf3470d4691957f94a7f3f71cdcd44c1
}

func ExampleLimits() {
	_, err := yamlcanon.Limits{Memory: 1000}.Canonical([]byte("a: b"))
	fmt.Println(err)
	// Output: 21 OutOfMemory
}

func ExampleEvents() {
	events, _ := yamlcanon.Events([]byte("- &x a\n- *x"))
	fmt.Print(string(events))
	// Output:
	// +STR
	// +DOC
	// +SEQ
	// =VAL &x :a
	// =ALI *x
	// -SEQ
	// -DOC
	// -STR
}

func ExampleSame() {
	fmt.Println(yamlcanon.Same([]byte("a: 0x3"), []byte("{a: 3}")))
	fmt.Println(yamlcanon.Same([]byte("a: 3"), []byte("a: '3'")))
	fmt.Println(yamlcanon.Same([]byte("a: 3"), []byte("a: '3")))
	// Output:
	// true <nil>
	// false <nil>
	// false right: 4 Syntax at byte 5
}

func ExampleShow() {
	text, err := yamlcanon.Show([]byte("{b: 0x10, a: &x [yes], c: *x}"))
	fmt.Print(string(text), err, "\n")
	// Output:
	// ---
	// a:
	//   - "yes"
	// b: 16
	// c:
	//   - "yes"
	// <nil>
}

func ExampleToJSON() {
	text, err := yamlcanon.ToJSON([]byte("b: 0x10\na: [~, .5]\n--- x"))
	fmt.Print(string(text), err, "\n")
	_, err = yamlcanon.ToJSON([]byte("{80: web}"))
	fmt.Println(errors.Is(err, yamlcanon.ErrNoJSON), err)
	// Output:
	// {"a": [null, 0.5], "b": 16}
	// "x"
	// <nil>
	// true JSON cannot express this stream
}

func ExampleDiff() {
	told, err := yamlcanon.Diff([]byte("replicas: 0x3\nports: [80]\n"), []byte("{replicas: 5, ports: [80, 443]}"), 1000)
	for _, one := range told {
		fmt.Println(one.Kind, one.Path, one.RightPlace.Line, one.RightPlace.Column)
	}
	fmt.Println(*told[0].Left, *told[0].Right, err)
	// Output:
	// changed .replicas 1 12
	// right .ports[1] 1 27
	// !!int "3" !!int "5" <nil>
}

func ExampleLoad() {
	values, err := yamlcanon.Load([]byte("{b: 0x10, a: [~, 1.50]}\n--- !color red\n"))
	fmt.Println(values, err)
	config := values[0].(map[string]any)
	fmt.Println(config["b"].(int64)+1, config["a"].([]any)[1].(yamlcanon.Float))
	// Output:
	// [map[a:[<nil> 1.5] b:16] {!color red}] <nil>
	// 17 1.5
}

func ExampleLoadOne() {
	value, err := yamlcanon.LoadOne([]byte("{80: web, 443: tls}"))
	for _, entry := range value.(yamlcanon.Map) {
		fmt.Println(entry.Key, entry.Value)
	}
	fmt.Println(err)
	// Output:
	// 443 tls
	// 80 web
	// <nil>
}

func ExampleRefused() {
	_, err := yamlcanon.Canonical([]byte("{1: a, 0x1: b}"))
	var fault *yamlcanon.Refused
	if errors.As(err, &fault) && fault.Kind == yamlcanon.EqualKeys {
		fmt.Println(fault)
		fmt.Println(fault.First, fault.Second)
	}
	// Output:
	// 19 EqualKeys in node 4, entries 0 and 1
	// 0 1
}

func ExampleRefused_Position() {
	input := []byte("port: 80\nhost:\tweb\n")
	_, err := yamlcanon.Canonical(input)
	var fault *yamlcanon.Refused
	if errors.As(err, &fault) {
		if line, column, ok := fault.Position(input); ok {
			fmt.Printf("line %d, column %d: %v\n", line, column, fault)
		}
	}
	// Output: line 2, column 6: 5 Tab at byte 14
}
