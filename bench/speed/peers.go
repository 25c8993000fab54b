// gVisor's and gopacket's reading of a set of segments.

package main

import (
	"github.com/google/gopacket"
	"github.com/google/gopacket/layers"
	"gvisor.dev/gvisor/pkg/tcpip/header"

	"noppalerk/bench/segment"
)

// gvisorRound reads each segment's header and options by gVisor's readers, as its endpoint does for an established connection.
func gvisorRound(set segment.Set) (sum uint64) {
	for i := 0; i < set.Count; i++ {
		tcp := header.TCP(set.Segment(i))
		if !isWhole(tcp) {
			continue
		}
		options := header.ParseTCPOptions(tcp.Options())
		sum += headerSum(tcp) + uint64(options.TSVal) + uint64(options.TSEcr) + uint64(len(options.SACKBlocks))
	}
	return sum
}

// gvisorSYNRound is the same for segments that open a connection, whose options gVisor reads by a function of their own.
func gvisorSYNRound(set segment.Set) (sum uint64) {
	for i := 0; i < set.Count; i++ {
		tcp := header.TCP(set.Segment(i))
		if !isWhole(tcp) {
			continue
		}
		options := header.ParseSynOptions(tcp.Options(), true)
		sum += headerSum(tcp) + uint64(options.MSS) + uint64(options.WS) + uint64(options.TSVal) + uint64(options.TSEcr)
	}
	return sum
}

// isWhole is the check that gVisor leaves to the caller of Options.
func isWhole(tcp header.TCP) bool {
	offset := int(tcp.DataOffset())
	return offset >= header.TCPMinimumSize && offset <= len(tcp)
}

func headerSum(tcp header.TCP) uint64 {
	return uint64(tcp.SourcePort()) + uint64(tcp.DestinationPort()) + uint64(tcp.SequenceNumber()) + uint64(tcp.AckNumber()) +
		uint64(tcp.Flags()) + uint64(tcp.WindowSize())
}

// gopacketRound decodes each segment into the same layer, which keeps its list of options between calls.
func gopacketRound(set segment.Set, tcp *layers.TCP) (sum uint64) {
	for i := 0; i < set.Count; i++ {
		if tcp.DecodeFromBytes(set.Segment(i), gopacket.NilDecodeFeedback) == nil {
			sum += uint64(tcp.Seq) + uint64(len(tcp.Options))
		}
	}
	return sum
}
