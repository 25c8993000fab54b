// The table of how an arrival's cost grows with its payload.

package main

import (
	"fmt"

	"noppalerk/bench/table"
)

// A lengthRow has a round of as many arrivals of one length as fit, and a round of one. Their difference is free of what a round itself
// costs, which would weigh more where fewer arrivals fit.
type lengthRow struct {
	length    int
	many, one *streamRow
}

func newLengthRows(s settings) []*lengthRow {
	var rows []*lengthRow
	for _, length := range []int{0, 100, 536, usualLength, 8_948, 65_000} {
		rows = append(rows, &lengthRow{
			length: length,
			many:   newLengthStream(s, fitting(length), length),
			one:    newLengthStream(s, 1, length),
		})
	}
	return rows
}

func newLengthStream(s settings, count, length int) *streamRow {
	return newStreamRow(s, fmt.Sprintf("%d arrivals of %d octets", count, length), 0, ofArrivals(nil, inOrder(count, length)))
}

func (r *lengthRow) pass(s settings) {
	r.many.pass(s)
	r.one.pass(s)
}

// furtherNs is what each arrival after a round's first adds to it.
func (r *lengthRow) furtherNs(manyNs, oneNs float64) float64 {
	count := float64(r.many.calls.count)
	return (count*manyNs - oneNs) / (count - 1)
}

func (r *lengthRow) cells() []string {
	library := r.furtherNs(r.many.libraryNs(), r.one.libraryNs())
	reference := r.furtherNs(r.many.referenceNs(), r.one.referenceNs())
	return append([]string{fmt.Sprint(r.length), fmt.Sprint(r.many.calls.count)}, comparedNs(library, reference)...)
}

func lengthTable(rows []*lengthRow) *table.Table {
	note := fmt.Sprintf("A round has as many arrivals as fit in %d octets of calls, and at most %d. A figure is what each of them after the first adds to\n"+
		"a round of one arrival, so that what a round itself costs is in none.", mostStreamOctets, mostCalls)
	t := table.New("How cost grows: the payload of an arrival in order", note,
		table.Number("octets of payload"), table.Number("arrivals a round"), table.Number("library, ns"), table.Number("Rust / library"))
	for _, r := range rows {
		t.Add(r.cells()...)
	}
	return t
}
