// The table of how reading's cost grows with the options.

package main

import (
	"fmt"

	"noppalerk/bench/segment"
	"noppalerk/bench/table"
)

// newOptionRows have so many options of one sort, judged by the refusal number.
func newOptionRows() []*entryRow {
	rows := []*entryRow{newOptionRow("none", nil)}
	for _, count := range []int{1, 5, 10, 20} {
		rows = append(rows, newOptionRow(fmt.Sprintf("%d unknown of two octets", count), segment.Unknown(count)))
	}
	for _, count := range []int{10, 20, 40} {
		rows = append(rows, newOptionRow(fmt.Sprintf("%d NOPs", count), segment.NOPs(count)))
	}
	return rows
}

func newOptionRow(name string, options []byte) *entryRow {
	return newRefusalRow(readingCase{name: name, flags: segment.ACK, options: fixed(padded(options))})
}

// padded fills a list of options with end-of-list octets to a multiple of four.
func padded(options []byte) []byte {
	for len(options)%4 != 0 {
		options = append(options, segment.KindEnd)
	}
	return options
}

func optionTable(rows []*entryRow) *table.Table {
	t := table.New("How cost grows: the number of options, by the refusal number",
		"Lists are filled up to a multiple of four octets with end-of-list.",
		table.Text("options"), table.Number("library, ns"), table.Number("C reader / library"))
	for _, r := range rows {
		t.Add(r.cells()...)
	}
	return t
}
