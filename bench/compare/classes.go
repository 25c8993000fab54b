// The rules of gopacket and scapy that differ from the library's.

package main

// A class explains differences by one rule: the library's number, what such a segment has, and what the peer does with it.
type class struct {
	number   int
	segments string
	holds    condition
	reason   string
}

const (
	tooLong     = "longer than 65,535 octets"
	wrongLength = "a known option of a wrong length"
	twice       = "a known option a second time"
)

var gopacketClasses = []class{
	{2, tooLong, isLong, "gopacket knows no greatest length"},
	{5, wrongLength, hasWrongLength, "gopacket lists an option with any length from 2 on, and leaves its octets to the caller"},
	{6, twice, hasKindTwice, "gopacket lists every option, as often as it comes"},
}

var scapyClasses = []class{
	{1, "shorter than 20 octets", isShort, "scapy reads the fields that are there, or fails inside one"},
	{2, tooLong, isLong, "scapy knows no greatest length"},
	{3, "data offset below 5", hasLowOffset, "scapy takes it as 5"},
	{3, "data offset past the end", hasOffsetPastEnd, "scapy reads options up to the segment's end"},
	{4, "an option without length octet", breaksOffBy(noLengthOctet), "scapy takes it as an option without octets"},
	{4, "an option with a length below 2", breaksOffBy(lengthUnderTwo), "scapy takes the length as 2 and reads on"},
	{4, "an option that runs past the header", breaksOffBy(lengthPastHeader), "scapy cuts it at the header's end"},
	{5, wrongLength, hasWrongLength, "scapy gives the octets unread, or an odd number of SACK edges"},
	{6, twice, hasKindTwice, "scapy lists every option, as often as it comes"},
}
