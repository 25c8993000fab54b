// The comparison of two readers' lines, and its tables.

package main

import (
	"fmt"
	"strings"

	"noppalerk/bench/fail"
	"noppalerk/bench/segment"
	"noppalerk/bench/table"
)

// A comparison counts how a peer's lines stand to the library's.
type comparison struct {
	peer              string
	segments          int
	readable, refused int // answered alike
	classes           []class
	differ            []int // by class
}

// compare ends the run where a difference falls in no class.
func compare(peer string, ours, theirs []string, segments [][]byte, classes []class) comparison {
	c := comparison{peer: peer, segments: len(segments), classes: classes, differ: make([]int, len(classes))}
	for i, octets := range segments {
		switch {
		case ours[i] != theirs[i]:
			c.differ[c.classOf(ours[i], theirs[i], octets)]++
		case isReadable(ours[i]):
			c.readable++
		default:
			c.refused++
		}
	}
	return c
}

// numbersAlone leaves of a refusal its number: gopacket and scapy give neither the place of the option at fault nor the steps up to it.
func numbersAlone(lines []string) []string {
	cut := append([]string{}, lines...)
	for i, line := range lines {
		if !isReadable(line) {
			cut[i] = strings.Join(strings.Fields(line)[:2], " ")
		}
	}
	return cut
}

func isReadable(line string) bool { return strings.HasPrefix(line, "read 0 ") }

func (c comparison) classOf(ours, theirs string, octets []byte) int {
	for i, class := range c.classes {
		if ours == segment.RefusalLine(class.number) && class.holds(octets) {
			return i
		}
	}
	fail.Now("no rule explains a difference from %s\nsegment: %x\nlibrary: %s\n%s: %s", c.peer, octets, ours, c.peer, theirs)
	return 0
}

func (c comparison) differing() (sum int) {
	for _, count := range c.differ {
		sum += count
	}
	return sum
}

func printCounts(seed int64, all []comparison) {
	t := table.New(fmt.Sprintf("Reading compared with other readers, on random segments from seed %d", seed),
		"A difference that no rule of the next table explains ends the run, and its segment is printed.",
		table.Text("reader"), table.Number("segments"), table.Number("read alike, every field"), table.Number("refused alike"),
		table.Number("differ, by a rule of the reader's"))
	for _, c := range all {
		t.Add(c.peer, fmt.Sprint(c.segments), fmt.Sprint(c.readable), fmt.Sprint(c.refused), fmt.Sprint(c.differing()))
	}
	t.Print()
}

func printDifferences(all []comparison) {
	t := table.New("The differences", "",
		table.Text("reader"), table.Text("the library refuses"), table.Number("segments"), table.Text("the reader's rule"))
	for _, c := range all {
		for i, class := range c.classes {
			t.Add(c.peer, fmt.Sprintf("E%d: %s", class.number, class.segments), fmt.Sprint(c.differ[i]), class.reason)
		}
	}
	t.Print()
}
