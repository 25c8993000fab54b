// The calls of docs/REPLAY.md that the streams and the comparison make.

package segment

import "encoding/binary"

// The calls' names, in one octet each.
const (
	callRead        = 1
	callOpen        = 4
	callArrive      = 5
	callSent        = 6
	callWindow      = 7
	callAcknowledge = 8
)

func call(name byte, body []byte) []byte {
	octets := binary.BigEndian.AppendUint32([]byte{name}, uint32(len(body)))
	return append(octets, body...)
}

// Read is the call that reads a segment.
func Read(octets []byte) []byte {
	return call(callRead, octets)
}

// Offers has what our side offers when it opens a connection: every option.
type Offers struct {
	ISS    uint32
	Shift  byte
	Window uint32
	Offset uint32
}

// Open is the call that opens the record from the peer's SYN.
func Open(offers Offers, clock uint64, syn []byte) []byte {
	const everyOption = 7
	body := binary.BigEndian.AppendUint32(nil, offers.ISS)
	body = append(body, offers.Shift, everyOption)
	body = binary.BigEndian.AppendUint32(body, offers.Window)
	body = binary.BigEndian.AppendUint32(body, offers.Offset)
	body = binary.BigEndian.AppendUint64(body, clock)
	return call(callOpen, append(body, syn...))
}

// Arrive is the call of an arriving segment.
func Arrive(clock uint64, octets []byte) []byte {
	body := binary.BigEndian.AppendUint64(nil, clock)
	return call(callArrive, append(body, octets...))
}

// Sent is the call that notes so many octets as sent.
func Sent(octets uint32) []byte {
	return call(callSent, binary.BigEndian.AppendUint32(nil, octets))
}

// Window is the call that opens the receive window to so many octets.
func Window(octets uint32) []byte {
	return call(callWindow, binary.BigEndian.AppendUint32(nil, octets))
}

// Acknowledge is the call that writes an acknowledgment into a buffer of so many octets.
func Acknowledge(source, destination uint16, clock uint64, buffer int) []byte {
	body := binary.BigEndian.AppendUint16(nil, source)
	body = binary.BigEndian.AppendUint16(body, destination)
	body = binary.BigEndian.AppendUint64(body, clock)
	return call(callAcknowledge, append(body, make([]byte, buffer)...))
}
