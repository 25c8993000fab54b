// The table of how cost grows with the ranges held.

package main

import (
	"fmt"

	"noppalerk/bench/table"
)

// A rangesRow has the three streams of a record that holds so many ranges; out of order, there is one range at least.
type rangesRow struct {
	ranges                              int
	inOrder, outOfOrder, acknowledgment *streamRow
}

func newRangesRows(s settings) []*rangesRow {
	var rows []*rangesRow
	for _, ranges := range []int{0, 1, 2, 4, mostRanges} {
		r := &rangesRow{
			ranges:         ranges,
			inOrder:        newStreamRow(s, "in order", 0, inOrderHolding(ranges)),
			acknowledgment: newAcknowledgmentRow(s, ranges),
		}
		if ranges > 0 {
			r.outOfOrder = newStreamRow(s, "out of order", 0, outOfOrder(ranges))
		}
		rows = append(rows, r)
	}
	return rows
}

func (r *rangesRow) pass(s settings) {
	r.inOrder.pass(s)
	if r.outOfOrder != nil {
		r.outOfOrder.pass(s)
	}
	r.acknowledgment.pass(s)
}

func (r *rangesRow) cells() []string {
	outOfOrder := []string{"-", "-"}
	if r.outOfOrder != nil {
		outOfOrder = r.outOfOrder.cells()
	}
	cells := append([]string{fmt.Sprint(r.ranges)}, r.inOrder.cells()...)
	return append(append(cells, outOfOrder...), r.acknowledgment.cells()...)
}

func rangesTable(rows []*rangesRow) *table.Table {
	const note = "In order: none of the ranges is reached. Out of order: each arrival extends the range that was extended longest ago.\n" +
		"An acknowledgment has three of the ranges at most."
	t := table.New("How cost grows: the ranges held", note,
		table.Text("ranges held"), table.Number("in order, ns"), table.Number("Rust / library"),
		table.Number("out of order, ns"), table.Number("Rust / library"),
		table.Number("acknowledgment, ns"), table.Number("Rust / library"))
	for _, r := range rows {
		t.Add(r.cells()...)
	}
	return t
}
