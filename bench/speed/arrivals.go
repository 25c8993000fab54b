// The tables of whole arrivals and of acknowledgments.

package main

import (
	"fmt"

	"noppalerk/bench/table"
)

const mostRanges = 8

func inOrderHolding(ranges int) stream { return ofArrivals(held(ranges), fullSegments()) }

func outOfOrder(ranges int) stream { return ofArrivals(held(ranges), extending(ranges)) }

// newArrivalRows has the usual segment of a bulk receiver first: data in order, and nothing new acknowledged.
func newArrivalRows(s settings) []*streamRow {
	return []*streamRow{
		newStreamRow(s, "in order (the usual segment)", 0, ofArrivals(nil, fullSegments())),
		newStreamRow(s, "in order, each acknowledges new octets (a sample for the timer)", 0, ofArrivals(nil, acknowledging(fullSegments()))),
		newStreamRow(s, "in order, with three SACK blocks from the peer", 0, ofArrivals(nil, sacking(fullSegments()))),
		newStreamRow(s, "in order, eight ranges held", 0, inOrderHolding(mostRanges)),
		newStreamRow(s, "out of order, eight ranges held, each extends the oldest", 0, outOfOrder(mostRanges)),
	}
}

func newAcknowledgmentRow(s settings, ranges int) *streamRow {
	return newStreamRow(s, fmt.Sprintf("timestamps, %d ranges held", ranges), 0, acknowledgments(ranges))
}

func streamTable(title, first, note string, rows []*streamRow) *table.Table {
	t := table.New(title, note, table.Text(first), table.Number("library, ns"), table.Number("Rust / library"))
	for _, r := range rows {
		t.Add(append([]string{r.name}, r.cells()...)...)
	}
	return t
}

func (r *streamRow) cells() []string { return comparedNs(r.libraryNs(), r.referenceNs()) }

func arrivalTable(rows []*streamRow) *table.Table {
	note := fmt.Sprintf("Segments of %d octets of payload with NOP NOP timestamps; reading, verdict and taking. A round has %d of them, and starts\n"+
		"from a copy of the record, which is in the figures.", usualLength, mostCalls)
	return streamTable("A whole arrival", "arrival", note, rows)
}

func acknowledgmentTable(row *streamRow) *table.Table {
	note := fmt.Sprintf("A round has %d of them.", mostCalls)
	return streamTable("Writing an acknowledgment", "acknowledgment", note, []*streamRow{row})
}
