// The table of the distance of two serial numbers.

package main

import (
	"fmt"
	"math/rand"

	"noppalerk/bench/fail"
	"noppalerk/bench/readers"
	"noppalerk/bench/segment"
	"noppalerk/bench/table"
)

// Two serial numbers of 32 bits.
const octetsOfPair = 8

func newDistanceRow() *entryRow {
	set := randomPairs()
	library, c := readers.LibraryDistance.Sum(set), readers.CDistance.Sum(set)
	if library != c {
		fail.Now("distances add up to %d by the library, and to %d in C", int64(library), int64(c))
	}
	return newEntryRow(fmt.Sprintf("%d random pairs", set.Count), readers.LibraryDistance, readers.CDistance, set)
}

// randomPairs has the same pairs in every run.
func randomPairs() segment.Set {
	random := rand.New(rand.NewSource(1))
	pairs := make([][]byte, segmentsOfCase)
	for i := range pairs {
		pairs[i] = make([]byte, octetsOfPair)
		random.Read(pairs[i])
	}
	return segment.NewSet(pairs)
}

func distanceTable(row *entryRow) *table.Table {
	const note = "The library is `noppalerk_distance`; in C it is `(int32_t)(to - from)`, in a file of its own, so that both are calls from a loop\n" +
		"in C."
	t := table.New("The distance of two serial numbers, through the C entry", note,
		table.Text("serial numbers"), table.Number("library, ns"), table.Number("C / library"))
	t.Add(row.cells()...)
	return t
}
