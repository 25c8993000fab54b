// The rows that time the library's C entry beside C code.

package main

import (
	"noppalerk/bench/readers"
	"noppalerk/bench/segment"
)

// An entryRow is a set that the library's C entry and C code go through, both from a loop in C.
type entryRow struct {
	name       string
	library, c *loop
}

func newEntryRow(name string, library, c readers.Reader, set segment.Set) *entryRow {
	return &entryRow{name: name, library: newCLoop(library, set), c: newCLoop(c, set)}
}

func (r *entryRow) pass(s settings) { contest(s.turns, r.library, r.c) }

func (r *entryRow) cells() []string {
	return append([]string{r.name}, comparedNs(r.library.nanoseconds(), r.c.nanoseconds())...)
}
