// The C reader, called for one segment.

package readers

// #include "reader.h"
import "C"

import (
	"unsafe"

	"noppalerk/bench/segment"
)

// Refusal is the C reader's number for a segment.
func Refusal(octets []byte) int {
	return int(C.reader_refusal(first(octets), C.size_t(len(octets))))
}

// Fields is the C reader's number for a segment, all that it reads at 0, else the steps alone, and the place of an option at fault.
func Fields(octets []byte) (number int, read segment.Fields, place int) {
	var inC C.struct_reader_segment
	number = int(C.reader_read(first(octets), C.size_t(len(octets)), &inC))
	read.Steps = int(inC.steps)
	if number == 0 {
		read = fields(inC)
	}
	return number, read, int(inC.place)
}

func first(octets []byte) *C.uint8_t {
	if len(octets) == 0 {
		return nil
	}
	return (*C.uint8_t)(unsafe.Pointer(&octets[0]))
}

func fields(read C.struct_reader_segment) segment.Fields {
	f := segment.Fields{
		Header: segment.Header{
			Source: uint16(read.source), Destination: uint16(read.destination),
			Seq: uint32(read.seq), Ack: uint32(read.ack),
			Flags: byte(read.flags), Window: uint16(read.window),
		},
		Urgent:        uint16(read.urgent),
		SACKPermitted: bool(read.sack_permitted),
		Skipped:       int(read.skipped),
		Steps:         int(read.steps),
		PayloadStart:  int(read.payload_start),
		PayloadLength: int(read.payload_length),
	}
	if read.has_mss {
		f.SetMSS(uint16(read.mss))
	}
	if read.has_scale {
		f.SetScale(byte(read.scale))
	}
	if read.has_stamps {
		f.SetTimestamps(uint32(read.tsval), uint32(read.tsecr))
	}
	for _, block := range read.blocks[:read.block_count] {
		f.Blocks = append(f.Blocks, segment.Block{Left: uint32(block.left), Right: uint32(block.right)})
	}
	return f
}
