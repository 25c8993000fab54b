// The options of a segment.

package segment

import (
	"bytes"
	"encoding/binary"
)

// The kinds of options; the known ones are those from MSS on.
const (
	KindEnd           = 0
	KindNOP           = 1
	KindMSS           = 2
	KindScale         = 3
	KindSACKPermitted = 4
	KindSACK          = 5
	KindTimestamps    = 8
)

// Block is a SACK block.
type Block struct{ Left, Right uint32 }

// NOPs gives so many NOP options.
func NOPs(count int) []byte {
	return bytes.Repeat([]byte{KindNOP}, count)
}

// Unknown gives so many options of two octets, of a kind that has no meaning.
func Unknown(count int) []byte {
	const experimental = 254
	return bytes.Repeat([]byte{experimental, 2}, count)
}

// Timestamps gives the timestamps option alone.
func Timestamps(tsval, tsecr uint32) []byte {
	option := []byte{KindTimestamps, 10}
	option = binary.BigEndian.AppendUint32(option, tsval)
	return binary.BigEndian.AppendUint32(option, tsecr)
}

// AlignedTimestamps gives NOP NOP timestamps, as most segments have them.
func AlignedTimestamps(tsval, tsecr uint32) []byte {
	return append(NOPs(2), Timestamps(tsval, tsecr)...)
}

// AlignedSACK gives NOP NOP SACK.
func AlignedSACK(blocks ...Block) []byte {
	option := append(NOPs(2), KindSACK, byte(2+8*len(blocks)))
	for _, block := range blocks {
		option = binary.BigEndian.AppendUint32(option, block.Left)
		option = binary.BigEndian.AppendUint32(option, block.Right)
	}
	return option
}

// Opening gives all options of a SYN, in the order that Linux writes them.
func Opening(mss uint16, scale byte, tsval, tsecr uint32) []byte {
	options := binary.BigEndian.AppendUint16([]byte{KindMSS, 4}, mss)
	options = append(options, KindSACKPermitted, 2)
	options = append(options, Timestamps(tsval, tsecr)...)
	return append(options, KindNOP, KindScale, 3, scale)
}
