// Segments side by side.

package segment

// Set has segments of one length side by side in one buffer, for the timed loops; for the distance they are pairs of numbers.
type Set struct {
	Octets []byte
	Length int
	Count  int
}

// NewSet copies segments, which must all have one length, into a set.
func NewSet(segments [][]byte) Set {
	set := Set{Length: len(segments[0]), Count: len(segments)}
	for _, octets := range segments {
		set.Octets = append(set.Octets, octets...)
	}
	return set
}

// Segment is the i-th one.
func (s Set) Segment(i int) []byte {
	return s.Octets[i*s.Length : (i+1)*s.Length]
}
