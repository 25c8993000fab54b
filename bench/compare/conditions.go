// What a segment has that readers treat differently, by its octets alone.

package main

import "noppalerk/bench/segment"

// A condition is what a segment must have for a difference to be explained.
type condition func(octets []byte) bool

func isShort(octets []byte) bool { return len(octets) < segment.HeaderLength }

func isLong(octets []byte) bool { return len(octets) > mostOctets }

// headerEnd is where the data offset says that the header ends.
func headerEnd(octets []byte) int { return int(octets[12]>>4) * 4 }

func hasLowOffset(octets []byte) bool {
	return !isShort(octets) && headerEnd(octets) < segment.HeaderLength
}

func hasOffsetPastEnd(octets []byte) bool { return !isShort(octets) && headerEnd(octets) > len(octets) }

// The three ways in which a list of options can break off.
type damage int

const (
	whole damage = iota
	noLengthOctet
	lengthUnderTwo
	lengthPastHeader
)

// An option of a list: its kind and its length octet.
type option struct {
	kind   byte
	length int
}

// listOptions gives the options up to the end of the list or to the first that breaks it off.
func listOptions(octets []byte) (list []option, broken damage) {
	if isShort(octets) || hasLowOffset(octets) || hasOffsetPastEnd(octets) {
		return nil, whole
	}
	rest := octets[segment.HeaderLength:headerEnd(octets)]
	for len(rest) > 0 && rest[0] != segment.KindEnd {
		length := 1
		if rest[0] != segment.KindNOP {
			if broken = damageOf(rest); broken != whole {
				return list, broken
			}
			length = int(rest[1])
			list = append(list, option{rest[0], length})
		}
		rest = rest[length:]
	}
	return list, whole
}

func damageOf(rest []byte) damage {
	switch {
	case len(rest) < 2:
		return noLengthOctet
	case rest[1] < 2:
		return lengthUnderTwo
	case int(rest[1]) > len(rest):
		return lengthPastHeader
	}
	return whole
}

func breaksOffBy(kind damage) condition {
	return func(octets []byte) bool {
		_, broken := listOptions(octets)
		return broken == kind
	}
}

func hasWrongLength(octets []byte) bool {
	list, _ := listOptions(octets)
	for _, option := range list {
		if lengths := rightLengths[option.kind]; lengths != nil && !contains(lengths, option.length) {
			return true
		}
	}
	return false
}

func hasKindTwice(octets []byte) bool {
	list, _ := listOptions(octets)
	seen := map[byte]bool{}
	for _, option := range list {
		if rightLengths[option.kind] != nil && seen[option.kind] {
			return true
		}
		seen[option.kind] = true
	}
	return false
}

func contains(numbers []int, number int) bool {
	for _, one := range numbers {
		if one == number {
			return true
		}
	}
	return false
}
