// The tables of reading a segment.

package main

import (
	"fmt"

	"noppalerk/bench/fail"
	"noppalerk/bench/readers"
	"noppalerk/bench/segment"
	"noppalerk/bench/table"
)

func newRefusalRow(c readingCase) *entryRow {
	set := c.set()
	mustRefuse(c, set)
	return newEntryRow(c.name, readers.LibraryRefusal, readers.CRefusal, set)
}

// mustRefuse holds the library's C entry and the C reader to the case's number.
func mustRefuse(c readingCase, set segment.Set) {
	want := uint64(c.refusal * set.Count)
	for _, reader := range []readers.Reader{readers.LibraryRefusal, readers.CRefusal} {
		if sum := reader.Sum(set); sum != want {
			fail.Now("%s: refusal numbers add up to %d, and not to %d", c.name, sum, want)
		}
	}
}

// A readingRow is a case that every reader reads.
type readingRow struct {
	refusal                   *entryRow
	fields                    *streamRow
	c, lwIP, gVisor, goPacket *loop
	sum                       uint64 // of the C reader's fields
}

func newReadingRow(s settings, c readingCase) *readingRow {
	set := c.set()
	return &readingRow{
		refusal:  newRefusalRow(c),
		fields:   newStreamRow(s, c.name, c.refusal, reading(set)),
		c:        newCLoop(readers.CFields, set),
		lwIP:     newCLoop(readers.LwIP, set),
		gVisor:   newGVisorLoop(set, c.isSYN()),
		goPacket: newGoPacketLoop(set),
		sum:      readers.CFields.Sum(set),
	}
}

// pass also holds the C reader's fields to those of the programs.
func (r *readingRow) pass(s settings) {
	r.fields.passWith(s, r.refusal.library, r.refusal.c, r.c, r.lwIP, r.gVisor, r.goPacket)
	if sum := fmt.Sprint(r.sum); sum != r.fields.sum {
		fail.Now("%s: the C reader's fields add up to %s, and the library's to %s", r.fields.name, sum, r.fields.sum)
	}
}

func newReadingRows(s settings) []*readingRow {
	rows := make([]*readingRow, len(readingCases))
	for i, c := range readingCases {
		rows[i] = newReadingRow(s, c)
	}
	return rows
}

func refusalTable(rows []*readingRow) *table.Table {
	const note = "The library is `noppalerk_refusal` and the C reader its refusal alone, each called from a loop in C. lwIP, gVisor and gopacket\n" +
		"read the header's fields and the options that they know; on the damaged list lwIP and gVisor keep what came before the damage,\n" +
		"and gopacket makes an error value."
	t := table.New("Reading a segment: its refusal number, through the C entry", note,
		table.Text("segment"), table.Number("library, ns"), table.Number("C reader / library"),
		table.Number("lwIP / library"), table.Number("gVisor / library"), table.Number("gopacket / library"))
	for _, r := range rows {
		ours := r.refusal.library.nanoseconds()
		t.Add(append([]string{r.refusal.name, nanoseconds(ours), ratio(r.refusal.c.nanoseconds(), ours)}, r.peers(ours)...)...)
	}
	return t
}

func fieldsTable(rows []*readingRow) *table.Table {
	const note = "The C entry of the table above answers the number alone, so that the values of the options are not read there, whereas lwIP and\n" +
		"gVisor read them. This table has the reading of every field by the stream programs, walking the stream included, and carries no\n" +
		"goal. The C reader writes every field to a record, and its loop adds up the same ones as the programs; the sums must be equal. The\n" +
		"times of lwIP, gVisor and gopacket are those of the table above."
	t := table.New("Reading a segment: all fields", note,
		table.Text("segment"), table.Number("library, ns"), table.Number("Rust / library"), table.Number("C reader / library"),
		table.Number("lwIP / library"), table.Number("gVisor / library"), table.Number("gopacket / library"))
	for _, r := range rows {
		ours := r.fields.libraryNs()
		own := []string{r.fields.name, nanoseconds(ours), ratio(r.fields.referenceNs(), ours), ratio(r.c.nanoseconds(), ours)}
		t.Add(append(own, r.peers(ours)...)...)
	}
	return t
}

// peers are the ratios that both tables have.
func (r *readingRow) peers(ours float64) []string {
	return []string{ratio(r.lwIP.nanoseconds(), ours), ratio(r.gVisor.nanoseconds(), ours), ratio(r.goPacket.nanoseconds(), ours)}
}
