// store keeps configurations by what they mean: store FOLDER FILE..
//
// The canonical text of each file goes into FOLDER, under its SHA-256. Printed is of each file whether it is kept, means the same as an
// earlier one, or is rejected, with line and column; and where what is kept differs from the first. The status is 1 if a file is
// rejected.
package main

import (
	"errors"
	"fmt"
	"log"
	"os"
	"path/filepath"
	"strings"

	"example.org/yamlcanon"
)

type store struct {
	folder string
	first  []byte
	paths  map[[32]byte]string // the files by their digests
}

// both are what the sides have, as far as they have anything.
func both(one yamlcanon.Difference) string {
	var texts []string
	for _, side := range []*string{one.Left, one.Right} {
		if side != nil {
			texts = append(texts, *side)
		}
	}
	return strings.Join(texts, " -> ")
}

// keep keeps the text, or says of which other file it is a second spelling.
func (s *store) keep(path string, data []byte) error {
	digest, err := yamlcanon.SHA256(data)
	if err != nil {
		return err
	}
	if other, ok := s.paths[digest]; ok {
		fmt.Printf("%s means the same as %s\n", path, other)
		return nil
	}
	text, err := yamlcanon.Canonical(data)
	if err != nil {
		return err
	}
	name := fmt.Sprintf("%x", digest)
	if err := os.WriteFile(filepath.Join(s.folder, name+".yaml"), text, 0o666); err != nil {
		return err
	}
	fmt.Printf("%s is kept as %.12s\n", path, name)
	if len(s.paths) == 0 {
		s.first = data
	}
	s.paths[digest] = path
	told, err := yamlcanon.Diff(s.first, data, 1000)
	for _, one := range told {
		fmt.Printf("  %s %s: %s\n", one.Kind, one.Path, both(one))
	}
	return err
}

func main() {
	if len(os.Args) < 2 {
		log.Fatal("usage: store FOLDER FILE..")
	}
	s, status := store{folder: os.Args[1], paths: map[[32]byte]string{}}, 0
	for _, path := range os.Args[2:] {
		data, err := os.ReadFile(path)
		if err == nil {
			err = s.keep(path, data)
		}
		var fault *yamlcanon.Refused
		if !errors.As(err, &fault) {
			if err != nil {
				log.Fatal(err)
			}
			continue
		}
		status = 1
		if line, column, ok := fault.Position(data); ok {
			fmt.Printf("%s:%d:%d: %v\n", path, line, column, fault)
		} else {
			fmt.Printf("%s: %v\n", path, fault)
		}
	}
	os.Exit(status)
}
