// The command compare reads random segments by the library and by other readers, and explains each difference by the rule it comes from.
package main

import (
	"flag"
	"math/rand"
)

func main() {
	quick := flag.Bool("quick", false, "fewer segments")
	seed := flag.Int64("seed", 1, "of the random segments")
	count := flag.Int("segments", 200_000, "how many segments")
	slow := flag.Int("slow", 20_000, "how many of them for scapy, which is slow")
	replay := flag.String("replay", "target/bin/replay", "the replay program")
	script := flag.String("script", "bench/compare/scapy_read.py", "the script that reads by scapy")
	flag.Parse()
	if *quick {
		*count, *slow = 20_000, 2_000
	}

	segments := randomSegments(rand.New(rand.NewSource(*seed)), *count)
	ours := readByLibrary(*replay, segments)
	plain := numbersAlone(ours)
	all := []comparison{
		compare("C reader", ours, readByC(segments), segments, nil),
		compare("gopacket", plain, readByGoPacket(segments), segments, gopacketClasses),
		compare("scapy", plain[:*slow], readByScapy(*script, segments[:*slow]), segments[:*slow], scapyClasses),
	}
	printCounts(*seed, all)
	printDifferences(all)
}
