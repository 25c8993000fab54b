// How figures are written.

package main

import "fmt"

func nanoseconds(value float64) string { return fmt.Sprintf("%.1f", value) }

// ratio says how many times ours another takes: above 1, the library is the faster one.
func ratio(other, ours float64) string { return fmt.Sprintf("%.2f", other/ours) }

// comparedNs are the two cells of what the library and another take.
func comparedNs(library, other float64) []string {
	return []string{nanoseconds(library), ratio(other, library)}
}
