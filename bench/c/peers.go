// Reads a YAML file, document by document, by yaml.v3 into plain values, and with a second word prints them: peers.go FILE [show]
package main

import (
	"fmt"
	"os"

	"gopkg.in/yaml.v3"
)

func main() {
	file, err := os.Open(os.Args[1])
	if err != nil {
		fmt.Fprintln(os.Stderr, err)
		os.Exit(3)
	}
	reader := yaml.NewDecoder(file)
	for {
		var value interface{}
		err := reader.Decode(&value)
		if err != nil && err.Error() == "EOF" {
			return
		}
		if err != nil {
			fmt.Fprintln(os.Stderr, err)
			os.Exit(2)
		}
		if len(os.Args) > 2 {
			fmt.Printf("%#v\n", value)
		}
	}
}
