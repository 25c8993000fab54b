// The arrivals that prepare a record, and those that a round is made of.

package main

import "noppalerk/bench/segment"

// The most calls that a round has.
const mostCalls = 64

// inOrder gives so many arrivals of one length, each where the one before ended.
func inOrder(count, length int) []arrival {
	arrivals := make([]arrival, count)
	for i := range arrivals {
		arrivals[i] = arrival{offset: i * length, length: length}
	}
	return arrivals
}

// fullSegments are a whole round in order.
func fullSegments() []arrival { return inOrder(mostCalls, usualLength) }

// acknowledging has each arrival acknowledge octets that no earlier one did.
func acknowledging(arrivals []arrival) []arrival {
	for i := range arrivals {
		arrivals[i].acked = (i + 1) * 1_000
	}
	return arrivals
}

// sacking has each arrival bring the SACK blocks of three ranges that lie in what we sent.
func sacking(arrivals []arrival) []arrival {
	for i := range arrivals {
		newest := uint32(ourISS + 1 + 50_000 + 100*i)
		arrivals[i].blocks = []segment.Block{
			{Left: newest, Right: newest + 1_448},
			{Left: ourISS + 30_000, Right: ourISS + 40_000},
			{Left: ourISS + 10_000, Right: ourISS + 20_000},
		}
	}
	return arrivals
}

// Where the held ranges lie: each with room for all full segments of a round, and the first above as much room.
const (
	heldLength = 100
	heldRoom   = heldLength + (mostCalls+1)*usualLength
)

func heldFrom(i int) int { return (i + 1) * heldRoom }

// held gives arrivals of so many ranges that stay apart.
func held(ranges int) []arrival {
	arrivals := make([]arrival, ranges)
	for i := range arrivals {
		arrivals[i] = arrival{offset: heldFrom(i), length: heldLength}
	}
	return arrivals
}

// extending gives full segments out of order that extend the held ranges in turn.
func extending(ranges int) []arrival {
	arrivals := make([]arrival, mostCalls)
	for i := range arrivals {
		earlier := i / ranges * usualLength
		arrivals[i] = arrival{offset: heldFrom(i%ranges) + heldLength + earlier, length: usualLength}
	}
	return arrivals
}
