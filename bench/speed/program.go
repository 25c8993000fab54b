// One stream program at work: it is given a stream, takes orders over a pipe and answers each.

package main

import (
	"bytes"
	"encoding/binary"
	"io"
	"os"
	"os/exec"
	"time"

	"noppalerk/bench/fail"
)

// A program takes one stream many times: target/bin/bench, or reference bench.
type program struct {
	name          string
	command       *exec.Cmd
	input, output *os.File
}

// What a program answers, before it ends, to a stream that breaks the protocol.
const refusedStream = "bad"

// startProgram starts it and gives it the stream.
func startProgram(words []string, s stream) *program {
	theirInput, input := pipe()
	output, theirOutput := pipe()
	// This has the two block, so that no scheduler of Go's stands between an answer and the clock.
	input.Fd()
	output.Fd()
	p := &program{name: words[0], command: exec.Command(words[0], words[1:]...), input: input, output: output}
	p.command.Stdin, p.command.Stdout, p.command.Stderr = theirInput, theirOutput, os.Stderr
	if err := p.command.Start(); err != nil {
		fail.Now("%v", err)
	}
	theirInput.Close()
	theirOutput.Close()
	p.write(inputOf(s))
	return p
}

func pipe() (read, write *os.File) {
	read, write, err := os.Pipe()
	if err != nil {
		fail.Now("%v", err)
	}
	return read, write
}

// inputOf has the two lengths before the calls.
func inputOf(s stream) []byte {
	octets := binary.BigEndian.AppendUint32(nil, uint32(len(s.prepared)))
	octets = binary.BigEndian.AppendUint32(octets, uint32(len(s.measured)))
	octets = append(octets, s.prepared...)
	return append(octets, s.measured...)
}

// write fails where the program has ended, which says why in what it answered.
func (p *program) write(octets []byte) {
	if _, err := p.input.Write(octets); err != nil {
		answered, _ := io.ReadAll(p.output)
		fail.Now("%s: %v, after the answer %q", p.name, err, answered)
	}
}

// order has the stream taken so many times, and gives the answer and how long it took to come.
func (p *program) order(rounds uint32) (answer string, taken time.Duration) {
	octets := binary.BigEndian.AppendUint32(nil, rounds)
	start := time.Now()
	p.write(octets)
	answer = p.line()
	taken = time.Since(start)
	if answer == refusedStream {
		fail.Now("%s does not take the stream", p.name)
	}
	return answer, taken
}

// line reads up to the newline.
func (p *program) line() string {
	var line []byte
	buffer := make([]byte, 64)
	for !bytes.HasSuffix(line, []byte("\n")) {
		n, err := p.output.Read(buffer)
		if err != nil {
			fail.Now("%s gives no answer: %v", p.name, err)
		}
		line = append(line, buffer[:n]...)
	}
	return string(bytes.TrimSuffix(line, []byte("\n")))
}

// stop ends it by the end of its input.
func (p *program) stop() {
	p.input.Close()
	p.output.Close()
	if err := p.command.Wait(); err != nil {
		fail.Now("%s: %v", p.name, err)
	}
}
