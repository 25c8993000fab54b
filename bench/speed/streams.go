// The streams of calls that are measured.

package main

import "noppalerk/bench/segment"

// The most octets of calls that the programs take.
const mostStreamOctets = 262_144

// A stream has the calls that prepare a record and those that are measured, which are a round; count is how many are measured.
type stream struct {
	prepared, measured []byte
	count              int
}

// ofArrivals gives the stream that opens a record, prepares it by some arrivals and measures others.
func ofArrivals(before, measured []arrival) stream {
	return stream{
		prepared: append(opened(), arrivalCalls(0, before)...),
		measured: arrivalCalls(len(before), measured),
		count:    len(measured),
	}
}

// arrivalCalls has arrivals come a millisecond apart.
func arrivalCalls(step int, arrivals []arrival) (calls []byte) {
	for i, a := range arrivals {
		calls = append(calls, a.call(step+i)...)
	}
	return calls
}

// fitting is how many arrivals of one length a round can have.
func fitting(length int) int {
	count := (mostStreamOctets - len(opened())) / len(arrival{length: length}.call(0))
	if count > mostCalls {
		return mostCalls
	}
	return count
}

// acknowledgments gives the stream that writes acknowledgments of a record that holds so many ranges.
func acknowledgments(ranges int) stream {
	const greatestHeader = 60
	s := ofArrivals(held(ranges), nil)
	s.count = mostCalls
	for i := 0; i < s.count; i++ {
		s.measured = append(s.measured, segment.Acknowledge(ourPort, peerPort, clockAt(ranges+i), greatestHeader)...)
	}
	return s
}

// reading gives the stream that reads each segment of a set.
func reading(set segment.Set) stream {
	s := stream{count: set.Count}
	for i := 0; i < set.Count; i++ {
		s.measured = append(s.measured, segment.Read(set.Segment(i))...)
	}
	return s
}
