// The functions of a file, by its symbols.

package main

import (
	"strconv"
	"strings"

	"noppalerk/bench/command"
)

// A file has the sizes of the crates' functions in it.
type file struct {
	name       string
	sizes      map[string]int
	isStripped bool // of every function's symbol, also of those that are no crate's
}

// newFile lists the functions whose names have one of the prefixes.
func newFile(name, path string, prefixes []string) file {
	f := file{name: name, sizes: map[string]int{}, isStripped: true}
	for _, line := range command.Lines(nil, "nm", "--print-size", "--defined-only", path) {
		function, size, isFunction := functionOf(line)
		if !isFunction {
			continue
		}
		f.isStripped = false
		if hasAny(function, prefixes) {
			f.sizes[function] = size
		}
	}
	return f
}

// functionOf reads a line of nm's that has all four words: value, size, type and name.
func functionOf(line string) (name string, size int, isFunction bool) {
	words := strings.SplitN(line, " ", 4)
	if len(words) != 4 || strings.ToLower(words[2]) != "t" {
		return "", 0, false
	}
	octets, err := strconv.ParseInt(words[1], 16, 0)
	return words[3], int(octets), err == nil
}

func hasAny(name string, prefixes []string) bool {
	for _, prefix := range prefixes {
		if strings.HasPrefix(name, prefix) {
			return true
		}
	}
	return false
}
