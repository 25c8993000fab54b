// The command symbols lists the functions of the crates that the compiler left as calls, and did not inline.
package main

import "flag"

func main() {
	program := flag.String("library", "target/bin/bench", "the library's stream program")
	archive := flag.String("archive", "target/staticlib/libgateway.a", "the library for C")
	crates := flag.String("crates", "crates.txt", "the list of the crates")
	flag.Parse()

	prefixes := prefixesOf(*crates)
	callTable(newFile("bench", *program, prefixes), newFile("libgateway.a", *archive, prefixes)).Print()
}
