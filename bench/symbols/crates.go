// The names of the repository's own functions.

package main

import (
	"os"
	"strings"

	"noppalerk/bench/fail"
)

// What the names of the functions for C start with, which no crate's name stands before.
const entryPrefix = "noppalerk_"

// prefixesOf reads the list of crates, which has a line for each: its name, what kind of library it is if not the usual one, a colon and what
// it stands on.
func prefixesOf(list string) []string {
	octets, err := os.ReadFile(list)
	if err != nil {
		fail.Now("%v", err)
	}
	prefixes := []string{entryPrefix}
	for _, line := range strings.Split(string(octets), "\n") {
		if crate, _, isCrate := strings.Cut(line, ":"); isCrate && !strings.HasPrefix(line, "#") {
			prefixes = append(prefixes, strings.Fields(crate)[0]+"::")
		}
	}
	return prefixes
}
