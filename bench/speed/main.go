// The command speed measures the library beside its peers, and prints the tables of one run and which goals are met.
package main

import (
	"flag"
	"runtime"
)

// settings has what the command line says.
type settings struct {
	passes, turns      int // a contestant has so many short runs in each pass
	library, reference []string
	replay             string
}

func main() {
	s := arguments()
	runtime.LockOSThread()

	readings, distance := newReadingRows(s), newDistanceRow()
	arrivals := newArrivalRows(s)
	acknowledgment := newAcknowledgmentRow(s, 3)
	lengths, options, ranges := newLengthRows(s), newOptionRows(), newRangesRows(s)
	measure(s, rowsOf(readings), []row{distance}, rowsOf(arrivals), []row{acknowledgment}, rowsOf(lengths), rowsOf(options), rowsOf(ranges))

	refusalTable(readings).Print()
	fieldsTable(readings).Print()
	distanceTable(distance).Print()
	arrivalTable(arrivals).Print()
	acknowledgmentTable(acknowledgment).Print()
	lengthTable(lengths).Print()
	optionTable(options).Print()
	rangesTable(ranges).Print()
	printGoals(arrivals[0], readings)
}

// measure goes through all rows once in each pass.
func measure(s settings, parts ...[]row) {
	for i := 0; i < s.passes; i++ {
		for _, rows := range parts {
			for _, r := range rows {
				r.pass(s)
			}
		}
	}
}

func rowsOf[R row](some []R) []row {
	rows := make([]row, len(some))
	for i, one := range some {
		rows[i] = one
	}
	return rows
}

func arguments() settings {
	quick := flag.Bool("quick", false, "few short runs: to try the command, not to measure")
	library := flag.String("library", "target/bin/bench", "the library's stream program")
	reference := flag.String("reference", "reference/target/release/reference", "the reference")
	replay := flag.String("replay", "target/bin/replay", "the replay program")
	flag.Parse()
	s := settings{passes: 10, turns: 50, library: []string{*library}, reference: []string{*reference, "bench"}, replay: *replay}
	if *quick {
		s.passes, s.turns = 2, 5
	}
	return s
}
