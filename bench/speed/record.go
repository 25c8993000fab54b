// The record that the streams start from, and the peer's segments that arrive for it.

package main

import "noppalerk/bench/segment"

// What the streams have in common: our side, the peer's, and when the connection opens.
const (
	ourISS      = 1_000_000
	peerISS     = 7_000_000
	ourPort     = 443
	peerPort    = 50_000
	ourOffset   = 90_000
	ourShift    = 14
	peerShift   = 14
	firstWindow = 65_535 // the greatest that a record opens with
	ourWindow   = 65_535 << ourShift
	peerWindow  = 65_535
	usualMSS    = 1_460
	usualLength = 1_448 // a full segment with timestamps
	openClock   = 1_000
	peerClock   = 400_000 // the peer's timestamp at our clock 0
	roundTrip   = 40      // ms
	sentOctets  = 100_000 // past the SYN's window, which is not scaled
)

// opened gives the calls that open the record. Octets are noted as sent, so that acknowledgments and SACK blocks have a meaning; both this
// and the whole window are possible only after the peer's first ACK.
func opened() []byte {
	offers := segment.Offers{ISS: ourISS, Shift: ourShift, Window: firstWindow, Offset: ourOffset}
	calls := segment.Open(offers, openClock, peerSYN())
	calls = append(calls, arrival{}.call(0)...)
	calls = append(calls, segment.Sent(sentOctets)...)
	return append(calls, segment.Window(ourWindow)...)
}

// peerSYN has every option, and acknowledges our SYN.
func peerSYN() []byte {
	header := segment.Header{
		Source: peerPort, Destination: ourPort, Seq: peerISS, Ack: ourISS + 1,
		Flags: segment.SYN | segment.ACK, Window: peerWindow,
	}
	options := segment.Opening(usualMSS, peerShift, peerClock+openClock, ourOffset+openClock-roundTrip)
	return segment.Write(header, options, 0)
}

// clockAt is our clock so many milliseconds after the peer's first ACK.
func clockAt(step int) uint64 { return uint64(openClock + roundTrip + step) }

// An arrival is a segment of the peer's; one without payload that acknowledges nothing is its first ACK.
type arrival struct {
	offset int // of its payload, from the first octet after the SYN
	length int // of its payload
	acked  int // how many octets of ours it acknowledges
	blocks []segment.Block
}

// call gives the arrival as the call of a stream.
func (a arrival) call(step int) []byte {
	clock := clockAt(step)
	options := segment.AlignedTimestamps(peerClock+uint32(clock), ourOffset+uint32(clock)-roundTrip)
	if len(a.blocks) > 0 {
		options = append(options, segment.AlignedSACK(a.blocks...)...)
	}
	header := segment.Header{
		Source: peerPort, Destination: ourPort,
		Seq: peerISS + 1 + uint32(a.offset), Ack: ourISS + 1 + uint32(a.acked),
		Flags: segment.ACK, Window: peerWindow,
	}
	return segment.Arrive(clock, segment.Write(header, options, a.length))
}
