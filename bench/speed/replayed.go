// The check that the calls of a stream do what their row says, by the replay program.

package main

import (
	"fmt"
	"strings"

	"noppalerk/bench/command"
	"noppalerk/bench/fail"
)

// mustAnswer plays a stream's calls once by the replay program, and holds every answer to a number.
func mustAnswer(s settings, name string, number int, calls stream) {
	answers := replayed(s, calls)
	if len(answers) < calls.count {
		fail.Now("%s: %d calls, %d answers", name, calls.count, len(answers))
	}
	for _, answer := range answers {
		if words := strings.Fields(answer); len(words) < 2 || words[1] != fmt.Sprint(number) {
			fail.Now("%s: a call is to answer the number %d, and answers %q", name, number, answer)
		}
	}
}

// replayed gives the line that answers each call, without the lines of the record after it.
func replayed(s settings, calls stream) (answers []string) {
	script := append(append([]byte{}, calls.prepared...), calls.measured...)
	for _, line := range command.Lines(script, s.replay) {
		if !strings.HasPrefix(line, "record ") {
			answers = append(answers, line)
		}
	}
	return answers
}
