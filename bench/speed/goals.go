// The goals, each met or missed by the figures of this run.

package main

import "fmt"

// The goals that the figures are held to: each is the most that the library may take.
const (
	goalUsual     = 58  // ns of a usual segment's whole arrival
	goalReference = 1.2 // times the Rust reference
	goalC         = 3   // times the C reader
)

func printGoals(usual *streamRow, rows []*readingRow) {
	fmt.Print("### Goals\n\n")
	arrivalGoals(usual.libraryNs(), usual.referenceNs())
	for _, r := range rows {
		if r.refusal.name == nameOfUsual {
			fasterGoal(r)
		}
	}
	everyRowGoal(rows)
	fmt.Println()
}

func goal(met bool, text, figure string) {
	verdict := "missed"
	if met {
		verdict = "met"
	}
	fmt.Printf("- %s: %s: %s\n", verdict, text, figure)
}

func arrivalGoals(ours, reference float64) {
	goal(ours < goalUsual,
		fmt.Sprintf("the usual segment's whole arrival takes less than %d ns", goalUsual),
		nanoseconds(ours)+" ns")
	goal(ours <= goalReference*reference,
		fmt.Sprintf("it takes at most %.1f times what the Rust reference takes, so that Rust / library is at least %s", goalReference, ratio(1, goalReference)),
		ratio(reference, ours))
}

func fasterGoal(r *readingRow) {
	ours, lwIP, gVisor := r.refusal.library.nanoseconds(), r.lwIP.nanoseconds(), r.gVisor.nanoseconds()
	goal(ours < lwIP && ours < gVisor,
		fmt.Sprintf("reading %s, through the C entry, is faster than by lwIP and by gVisor", nameOfUsual),
		fmt.Sprintf("lwIP / library %s, gVisor / library %s", ratio(lwIP, ours), ratio(gVisor, ours)))
}

// everyRowGoal judges all rows by the one that comes off worst.
func everyRowGoal(rows []*readingRow) {
	worst := rows[0].refusal
	for _, r := range rows {
		if r.refusal.timesC() > worst.timesC() {
			worst = r.refusal
		}
	}
	goal(worst.timesC() <= goalC,
		fmt.Sprintf("reading, through the C entry, takes at most %d times what the C reader takes in every row, so that C reader / library is at least %s",
			goalC, ratio(1, goalC)),
		fmt.Sprintf("at least %s (%s)", ratio(1, worst.timesC()), worst.name))
}

func (r *entryRow) timesC() float64 { return r.library.nanoseconds() / r.c.nanoseconds() }
