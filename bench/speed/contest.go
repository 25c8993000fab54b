// How contestants are timed: in turn, in short runs, by the least of them.

package main

// A row of a table is measured in several passes, so that a while in which the machine was busy spoils no row.
type row interface {
	pass(s settings)
}

// A contestant is timed in short runs; what counts is the least of them, a run that nothing disturbed.
type contestant interface {
	run()
}

// contest lets the contestants run in turn, so that all of them see the same machine.
func contest(turns int, contestants ...contestant) {
	for i := 0; i < turns; i++ {
		for _, c := range contestants {
			c.run()
		}
	}
}

// A loop is a contestant inside this process.
type loop struct {
	once  func() float64 // one short run, in nanoseconds
	calls int            // of one short run
	least float64
}

func newLoop(calls int, once func() float64) *loop {
	return &loop{once: once, calls: calls, least: once()}
}

func (l *loop) run() {
	if taken := l.once(); taken < l.least {
		l.least = taken
	}
}

// nanoseconds of one call, by the least run so far.
func (l *loop) nanoseconds() float64 { return l.least / float64(l.calls) }
