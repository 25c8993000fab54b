// What gopacket reads of segments.

package main

import (
	"encoding/binary"
	"strings"

	"github.com/google/gopacket"
	"github.com/google/gopacket/layers"

	"noppalerk/bench/fail"
	"noppalerk/bench/segment"
)

func readByGoPacket(segments [][]byte) []string {
	lines := make([]string, len(segments))
	for i, octets := range segments {
		var tcp layers.TCP
		if err := tcp.DecodeFromBytes(octets, gopacket.NilDecodeFeedback); err != nil {
			lines[i] = segment.RefusalLine(numberOfError(err))
		} else {
			lines[i] = fieldsOfLayer(tcp).Line()
		}
	}
	return lines
}

// numberOfError: gopacket's errors have no numbers, only texts.
func numberOfError(err error) int {
	text := err.Error()
	switch {
	case strings.HasPrefix(text, "Invalid TCP header"):
		return 1
	case strings.Contains(text, "data offset"):
		return 3
	case strings.HasPrefix(text, "Invalid TCP option length"):
		return 4
	}
	fail.Now("an error of gopacket's that has no number: %v", err)
	return 0
}

func fieldsOfLayer(tcp layers.TCP) segment.Fields {
	fields := segment.Fields{
		Header: segment.Header{
			Source: uint16(tcp.SrcPort), Destination: uint16(tcp.DstPort),
			Seq: tcp.Seq, Ack: tcp.Ack,
			Flags: flagsOfLayer(tcp), Window: tcp.Window,
		},
		Urgent:        tcp.Urgent,
		PayloadStart:  len(tcp.Contents),
		PayloadLength: len(tcp.Payload),
		Steps:         len(tcp.Options), // NOPs and the end of the list are among them
	}
	for _, option := range tcp.Options {
		addOption(&fields, option)
	}
	return fields
}

func flagsOfLayer(tcp layers.TCP) (flags byte) {
	for bit, set := range []bool{tcp.FIN, tcp.SYN, tcp.RST, tcp.PSH, tcp.ACK, tcp.URG, tcp.ECE, tcp.CWR} {
		if set {
			flags |= 1 << bit
		}
	}
	return flags
}

// addOption: gopacket gives an option's octets unread; those too short for their kind are left out.
func addOption(fields *segment.Fields, option layers.TCPOption) {
	data := option.OptionData
	switch {
	case option.OptionType == layers.TCPOptionKindMSS && len(data) >= 2:
		fields.SetMSS(binary.BigEndian.Uint16(data))
	case option.OptionType == layers.TCPOptionKindWindowScale && len(data) >= 1:
		fields.SetScale(data[0])
	case option.OptionType == layers.TCPOptionKindSACKPermitted:
		fields.SACKPermitted = true
	case option.OptionType == layers.TCPOptionKindTimestamps && len(data) >= 8:
		fields.SetTimestamps(binary.BigEndian.Uint32(data), binary.BigEndian.Uint32(data[4:]))
	case option.OptionType == layers.TCPOptionKindSACK:
		for ; len(data) >= 8; data = data[8:] {
			fields.Blocks = append(fields.Blocks, segment.Block{Left: binary.BigEndian.Uint32(data), Right: binary.BigEndian.Uint32(data[4:])})
		}
	case isUnknown(byte(option.OptionType)):
		fields.Skipped++
	}
}
