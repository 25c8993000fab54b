// Package readers calls the loops in C: the library through its C entry, the C reader, lwIP, and the distance in C.
package readers

// #include "loops.h"
import "C"

import (
	"unsafe"

	"noppalerk/bench/segment"
)

// Reader is one of the timed loops in C.
type Reader uint32

// The loops of c/loops.h.
const (
	LibraryRefusal  Reader = C.LOOPS_LIBRARY_REFUSAL
	CRefusal        Reader = C.LOOPS_C_REFUSAL
	CFields         Reader = C.LOOPS_C_FIELDS
	LwIP            Reader = C.LOOPS_LWIP
	LibraryDistance Reader = C.LOOPS_LIBRARY_DISTANCE
	CDistance       Reader = C.LOOPS_C_DISTANCE
)

// The set is passed by value, so that C sees one pointer to plain octets.
func inC(set segment.Set) C.struct_loops_set {
	return C.struct_loops_set{
		first:  (*C.uint8_t)(unsafe.Pointer(&set.Octets[0])),
		length: C.size_t(set.Length),
		count:  C.size_t(set.Count),
	}
}

// Run goes through the set so many times, and gives the nanoseconds that all took.
func (r Reader) Run(set segment.Set, rounds int) float64 {
	return float64(C.loops_run(uint32(r), inC(set), C.size_t(rounds)))
}

// Sum goes through the set once, and adds up what each call gives.
func (r Reader) Sum(set segment.Set) uint64 {
	return uint64(C.loops_sum(uint32(r), inC(set)))
}
