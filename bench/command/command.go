// Package command runs other programs to their end.
package command

import (
	"bytes"
	"os"
	"os/exec"
	"strings"

	"noppalerk/bench/fail"
)

// Lines gives the lines that a program prints on an input.
func Lines(input []byte, program string, words ...string) []string {
	command := exec.Command(program, words...)
	command.Stdin = bytes.NewReader(input)
	command.Stderr = os.Stderr
	printed, err := command.Output()
	if err != nil {
		fail.Now("%s: %v", program, err)
	}
	return strings.Split(strings.TrimSuffix(string(printed), "\n"), "\n")
}
