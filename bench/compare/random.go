// Random segments, good and damaged.

package main

import (
	"math/rand"

	"noppalerk/bench/segment"
)

// Limits of the random segments.
const (
	mostOptions = 40
	mostOctets  = 65_535
	mostPayload = 20
)

// The lengths that the known kinds may have.
var rightLengths = map[byte][]int{
	segment.KindMSS:           {4},
	segment.KindScale:         {3},
	segment.KindSACKPermitted: {2},
	segment.KindSACK:          {10, 18, 26, 34},
	segment.KindTimestamps:    {10},
}

var knownKinds = []byte{segment.KindMSS, segment.KindScale, segment.KindSACKPermitted, segment.KindSACK, segment.KindTimestamps}

func randomSegments(random *rand.Rand, count int) [][]byte {
	segments := make([][]byte, count)
	for i := range segments {
		segments[i] = randomSegment(random)
	}
	return segments
}

// oneIn is true once in so many times.
func oneIn(random *rand.Rand, times int) bool { return random.Intn(times) == 0 }

func randomOctets(random *rand.Rand, count int) []byte {
	octets := make([]byte, count)
	random.Read(octets)
	return octets
}

// randomSegment is most often one that can be read; each way to damage one comes up too.
func randomSegment(random *rand.Rand) []byte {
	if oneIn(random, 50) {
		return randomOctets(random, random.Intn(segment.HeaderLength))
	}
	options := randomOptions(random)
	octets := append(randomOctets(random, segment.HeaderLength), options...)
	octets[12] = octets[12]&0x0f | byte(len(octets)/4)<<4
	if oneIn(random, 40) {
		octets[12] = byte(random.Intn(256))
	}
	return append(octets, randomPayload(random, len(octets))...)
}

// randomPayload makes a few segments longer than any segment may be.
func randomPayload(random *rand.Rand, header int) []byte {
	if oneIn(random, 2_000) {
		return make([]byte, mostOctets-header+random.Intn(4))
	}
	return randomOctets(random, random.Intn(mostPayload+1))
}

// randomOptions is a list that is cut to what a header holds, and filled up to a multiple of four octets.
func randomOptions(random *rand.Rand) []byte {
	var options []byte
	kinds := random.Perm(len(knownKinds))
	for len(options) < mostOptions && !oneIn(random, 6) {
		option := randomOption(random, &kinds)
		if len(options)+len(option) > mostOptions && !oneIn(random, 10) {
			break
		}
		options = append(options, option...)
	}
	if len(options) > mostOptions {
		options = options[:mostOptions]
	}
	filling := byte(random.Intn(2))
	for len(options)%4 != 0 {
		options = append(options, filling)
	}
	return options
}

// randomOption takes a known kind that has not come yet, most often; kinds has those that are left.
func randomOption(random *rand.Rand, kinds *[]int) []byte {
	switch {
	case oneIn(random, 4):
		return segment.NOPs(1 + random.Intn(3))
	case oneIn(random, 25):
		return []byte{segment.KindEnd}
	case oneIn(random, 4):
		return unknownOption(random)
	case len(*kinds) == 0 || oneIn(random, 25):
		return knownOption(random, knownKinds[random.Intn(len(knownKinds))])
	}
	kind := knownKinds[(*kinds)[0]]
	*kinds = (*kinds)[1:]
	return knownOption(random, kind)
}

func knownOption(random *rand.Rand, kind byte) []byte {
	lengths := rightLengths[kind]
	length := lengths[random.Intn(len(lengths))]
	if oneIn(random, 25) {
		length = random.Intn(mostOptions)
	}
	return optionOf(random, kind, length)
}

func isUnknown(kind byte) bool {
	return rightLengths[kind] == nil && kind != segment.KindEnd && kind != segment.KindNOP
}

func unknownOption(random *rand.Rand) []byte {
	kind := byte(random.Intn(256))
	for !isUnknown(kind) {
		kind = byte(random.Intn(256))
	}
	length := 2 + random.Intn(11)
	if oneIn(random, 25) {
		length = random.Intn(2)
	}
	return optionOf(random, kind, length)
}

// optionOf has the length octet that is asked for, also where it is below two.
func optionOf(random *rand.Rand, kind byte, length int) []byte {
	option := []byte{kind, byte(length)}
	if length > 2 {
		option = append(option, randomOctets(random, length-2)...)
	}
	return option
}
