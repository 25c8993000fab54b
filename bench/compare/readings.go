// What the library, the C reader and scapy read of segments, as lines of the replay program's form.

package main

import (
	"bytes"
	"encoding/binary"

	"noppalerk/bench/command"
	"noppalerk/bench/fail"
	"noppalerk/bench/readers"
	"noppalerk/bench/segment"
)

func readByLibrary(replay string, segments [][]byte) []string {
	var calls bytes.Buffer
	for _, octets := range segments {
		calls.Write(segment.Read(octets))
	}
	return linesFor(segments, calls.Bytes(), replay)
}

// readByScapy passes the segments to the script, each with a length of four octets before it.
func readByScapy(script string, segments [][]byte) []string {
	var input bytes.Buffer
	for _, octets := range segments {
		input.Write(binary.BigEndian.AppendUint32(nil, uint32(len(octets))))
		input.Write(octets)
	}
	const debianPython = "/usr/bin/python3"
	return linesFor(segments, input.Bytes(), debianPython, script)
}

// linesFor gives the lines that a program prints, which must be one for each segment.
func linesFor(segments [][]byte, input []byte, program string, words ...string) []string {
	lines := command.Lines(input, program, words...)
	if len(lines) != len(segments) {
		fail.Now("%s: %d segments, %d lines", program, len(segments), len(lines))
	}
	return lines
}

// readByC also holds the C reader's two functions to one number.
func readByC(segments [][]byte) []string {
	lines := make([]string, len(segments))
	for i, octets := range segments {
		number, fields, place := readers.Fields(octets)
		if refusal := readers.Refusal(octets); refusal != number {
			fail.Now("the C reader's numbers are %d and %d: %x", number, refusal, octets)
		}
		lines[i] = segment.PlacedLine(number, place, fields.Steps)
		if number == 0 {
			lines[i] = fields.Line()
		}
	}
	return lines
}
