// What is read of a segment, and the line that the replay program writes of it.

package segment

import (
	"fmt"
	"strings"
)

// Fields has all that is read of a segment.
type Fields struct {
	Header
	Urgent                      uint16
	MSS                         *uint16
	Scale                       *byte
	SACKPermitted               bool
	Timestamps                  *[2]uint32 // TSval, TSecr
	Blocks                      []Block
	PayloadStart, PayloadLength int
	Skipped                     int // unknown options
	Steps                       int // NOPs, an end of list and options
}

// SetMSS notes that there is an MSS.
func (f *Fields) SetMSS(mss uint16) { f.MSS = &mss }

// SetScale notes that there is a window scale.
func (f *Fields) SetScale(scale byte) { f.Scale = &scale }

// SetTimestamps notes that there are timestamps.
func (f *Fields) SetTimestamps(tsval, tsecr uint32) { f.Timestamps = &[2]uint32{tsval, tsecr} }

// Line writes the fields as the replay program does.
func (f Fields) Line() string {
	words := []string{"read 0", f.headerWords(), f.optionWords()}
	words = append(words, fmt.Sprint(len(f.Blocks)))
	for _, block := range f.Blocks {
		words = append(words, fmt.Sprint(block.Left), fmt.Sprint(block.Right))
	}
	words = append(words, fmt.Sprint(f.PayloadStart), fmt.Sprint(f.PayloadLength), fmt.Sprint(f.Skipped), fmt.Sprint(f.Steps))
	return strings.Join(words, " ")
}

func (f Fields) headerWords() string {
	return fmt.Sprint(f.Source, f.Destination, f.Seq, f.Ack, f.Flags, f.Window, f.Urgent)
}

func (f Fields) optionWords() string {
	mss, scale, permitted, stamps := "-", "-", "0", "- -"
	if f.MSS != nil {
		mss = fmt.Sprint(*f.MSS)
	}
	if f.Scale != nil {
		scale = fmt.Sprint(*f.Scale)
	}
	if f.SACKPermitted {
		permitted = "1"
	}
	if f.Timestamps != nil {
		stamps = fmt.Sprint(f.Timestamps[0], f.Timestamps[1])
	}
	return strings.Join([]string{mss, scale, permitted, stamps}, " ")
}

// RefusalLine writes a refusal's number as the replay program does, but for the place and the steps.
func RefusalLine(number int) string {
	return fmt.Sprintf("read %d", number)
}

// PlacedLine also has the place of the option at fault, 0 where there is none, and the steps up to it.
func PlacedLine(number, place, steps int) string {
	if place == 0 {
		return fmt.Sprintf("%s - %d", RefusalLine(number), steps)
	}
	return fmt.Sprintf("%s %d %d", RefusalLine(number), place, steps)
}
