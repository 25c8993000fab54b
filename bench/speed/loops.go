// The contestants inside this process: loops that read a set of segments.

package main

import (
	"time"

	"github.com/google/gopacket/layers"

	"noppalerk/bench/readers"
	"noppalerk/bench/segment"
)

// How often a short run reads its set.
const roundsOfRun = 32

// newCLoop is a loop in C, timed there.
func newCLoop(reader readers.Reader, set segment.Set) *loop {
	return newLoop(roundsOfRun*set.Count, func() float64 { return reader.Run(set, roundsOfRun) })
}

// newGoLoop is a loop in Go.
func newGoLoop(set segment.Set, round func() uint64) *loop {
	return newLoop(roundsOfRun*set.Count, func() float64 { return timed(round) })
}

func newGVisorLoop(set segment.Set, isSYN bool) *loop {
	if isSYN {
		return newGoLoop(set, func() uint64 { return gvisorSYNRound(set) })
	}
	return newGoLoop(set, func() uint64 { return gvisorRound(set) })
}

func newGoPacketLoop(set segment.Set) *loop {
	var tcp layers.TCP
	return newGoLoop(set, func() uint64 { return gopacketRound(set, &tcp) })
}

// What the rounds add up is kept, so that no call can be left out.
var kept uint64

// timed gives the nanoseconds of one short run, after a round that is not timed and warms the caches.
func timed(round func() uint64) float64 {
	kept += round()
	start := time.Now()
	for i := 0; i < roundsOfRun; i++ {
		kept += round()
	}
	return float64(time.Since(start).Nanoseconds())
}
