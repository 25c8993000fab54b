// Package segment writes TCP segments, their options, and the calls of docs/REPLAY.md.
package segment

import "encoding/binary"

// The flags of a segment's header that the streams use.
const (
	SYN = 0x02
	ACK = 0x10
)

// HeaderLength is that of a header without options.
const HeaderLength = 20

// Header has the fields of a segment's header that differ from one segment to the next; the others are 0.
type Header struct {
	Source, Destination uint16
	Seq, Ack            uint32
	Flags               byte
	Window              uint16
}

// Write gives the segment of a header, its options (a multiple of four octets) and a payload of so many octets.
func Write(header Header, options []byte, payload int) []byte {
	start := HeaderLength + len(options)
	octets := make([]byte, start+payload)
	binary.BigEndian.PutUint16(octets[0:], header.Source)
	binary.BigEndian.PutUint16(octets[2:], header.Destination)
	binary.BigEndian.PutUint32(octets[4:], header.Seq)
	binary.BigEndian.PutUint32(octets[8:], header.Ack)
	octets[12] = byte(start/4) << 4
	octets[13] = header.Flags
	binary.BigEndian.PutUint16(octets[14:], header.Window)
	copy(octets[HeaderLength:], options)
	return octets
}
