// The segments of the reading tables.

package main

import (
	"math/rand"

	"noppalerk/bench/segment"
)

// Different enough that no field can be learnt, and few enough to stay in the cache.
const segmentsOfCase = 64

// A readingCase is a row of the reading tables: segments that differ in ports, SEQ, ACK and timestamps.
type readingCase struct {
	name    string
	flags   byte
	payload int
	options func(random *rand.Rand) []byte
	refusal int // its number, 0 if it can be read
}

func (c readingCase) isSYN() bool { return c.flags&segment.SYN != 0 }

// set gives the segments of a case, the same ones in every run.
func (c readingCase) set() segment.Set {
	random := rand.New(rand.NewSource(1))
	segments := make([][]byte, segmentsOfCase)
	for i := range segments {
		header := segment.Header{
			Source: uint16(random.Uint32()), Destination: uint16(random.Uint32()),
			Seq: random.Uint32(), Ack: random.Uint32(),
			Flags: c.flags, Window: uint16(random.Uint32()),
		}
		segments[i] = segment.Write(header, c.options(random), c.payload)
	}
	return segment.NewSet(segments)
}

const nameOfUsual = "NOP NOP timestamps"

var readingCases = []readingCase{
	{name: "no options", flags: segment.ACK, payload: usualLength, options: fixed(nil)},
	{name: nameOfUsual, flags: segment.ACK, payload: usualLength, options: stamps},
	{name: "SYN with all options", flags: segment.SYN | segment.ACK, options: synOptions},
	{name: "timestamps, three SACK blocks", flags: segment.ACK, options: stampsAndBlocks},
	{name: "40 NOPs", flags: segment.ACK, options: fixed(segment.NOPs(40))},
	{name: "twenty unknown options", flags: segment.ACK, options: fixed(segment.Unknown(20))},
	{name: "damaged list (E4)", flags: segment.ACK, payload: usualLength, options: damaged, refusal: 4},
}

func fixed(options []byte) func(*rand.Rand) []byte {
	return func(*rand.Rand) []byte { return options }
}

func stamps(random *rand.Rand) []byte {
	return segment.AlignedTimestamps(random.Uint32(), random.Uint32())
}

func synOptions(random *rand.Rand) []byte {
	return segment.Opening(usualMSS, peerShift, random.Uint32(), random.Uint32())
}

func stampsAndBlocks(random *rand.Rand) []byte {
	blocks := make([]segment.Block, 3)
	for i := range blocks {
		left := random.Uint32()
		blocks[i] = segment.Block{Left: left, Right: left + usualLength}
	}
	return append(stamps(random), segment.AlignedSACK(blocks...)...)
}

// damaged ends in an option that says six octets where four are left.
func damaged(random *rand.Rand) []byte {
	return append(stamps(random), 254, 6, 0, 0)
}
