// The rows that are measured by the two stream programs, which must answer alike.

package main

import (
	"math"
	"time"

	"noppalerk/bench/fail"
)

// A streamRow is a stream, with what both programs have taken for it so far.
type streamRow struct {
	name               string
	calls              stream
	rounds             uint32 // of a timed order
	sum                string // the answer to an order of one round
	library, reference timing
}

// newStreamRow also holds each call to its number, by the replay program.
func newStreamRow(s settings, name string, number int, calls stream) *streamRow {
	mustAnswer(s, name, number, calls)
	return &streamRow{name: name, calls: calls, library: newTiming(), reference: newTiming()}
}

// pass starts both programs anew, since where a process lies in memory can slow it as long as it runs.
func (r *streamRow) pass(s settings) { r.passWith(s) }

// passWith has other contestants run in the same turns.
func (r *streamRow) passWith(s settings, others ...contestant) {
	library, reference := startProgram(s.library, r.calls), startProgram(s.reference, r.calls)
	if r.rounds == 0 {
		r.rounds = enoughRounds(library)
	}
	r.sum, _ = library.order(1)
	contest(s.turns, append(others, programs{r, library, reference})...)
	library.stop()
	reference.stop()
}

// enoughRounds is how many make an order long enough to be timed.
func enoughRounds(p *program) uint32 {
	const enough, most = 400 * time.Microsecond, 1 << 24
	for rounds := uint32(1); rounds <= most; rounds *= 2 {
		if leastOf(10, p, rounds) >= enough {
			return rounds
		}
	}
	fail.Now("%s answers %d rounds in no time", p.name, most)
	return 0
}

// leastOf gives the least time of some orders: a program that has to wait for a processor is not taken for a slow one.
func leastOf(orders int, p *program, rounds uint32) time.Duration {
	least := time.Duration(math.MaxInt64)
	for i := 0; i < orders; i++ {
		if _, taken := p.order(rounds); taken < least {
			least = taken
		}
	}
	return least
}

// programs are the two at work on a row.
type programs struct {
	row                *streamRow
	library, reference *program
}

// run holds both to one answer.
func (p programs) run() {
	ours := p.row.library.take(p.library, p.row.rounds)
	theirs := p.row.reference.take(p.reference, p.row.rounds)
	if ours != theirs {
		fail.Now("%s, %d rounds: %s answers %s, %s answers %s", p.row.name, p.row.rounds, p.library.name, ours, p.reference.name, theirs)
	}
}

// timing has the least time of a program's orders, and of its orders of no rounds, which cost the pipes alone.
type timing struct{ order, idle time.Duration }

func newTiming() timing { return timing{math.MaxInt64, math.MaxInt64} }

func (t *timing) take(p *program, rounds uint32) (answer string) {
	answer, taken := p.order(rounds)
	if taken < t.order {
		t.order = taken
	}
	if _, taken = p.order(0); taken < t.idle {
		t.idle = taken
	}
	return answer
}

// nanoseconds of one call.
func (r *streamRow) nanoseconds(t timing) float64 {
	calls := float64(r.rounds) * float64(r.calls.count)
	return float64((t.order - t.idle).Nanoseconds()) / calls
}

func (r *streamRow) libraryNs() float64   { return r.nanoseconds(r.library) }
func (r *streamRow) referenceNs() float64 { return r.nanoseconds(r.reference) }
