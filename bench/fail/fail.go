// Package fail ends a command that cannot go on.
package fail

import (
	"fmt"
	"os"
)

// Now says why, and ends the command.
func Now(format string, values ...any) {
	fmt.Fprintf(os.Stderr, "error: "+format+"\n", values...)
	os.Exit(1)
}
