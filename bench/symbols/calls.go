// The table of the functions that stayed calls.

package main

import (
	"fmt"
	"sort"

	"noppalerk/bench/table"
)

// callTable has a column for each file that still has symbols.
func callTable(files ...file) *table.Table {
	note := "The crates' functions that have a symbol of their own, by `nm`; the others are inlined, in `bench` up to its `main`."
	columns := []table.Column{table.Text("function")}
	var listed []file
	for _, f := range files {
		if f.isStripped {
			note += fmt.Sprintf("\n`%s` is stripped of its symbols, and not listed.", f.name)
			continue
		}
		columns = append(columns, table.Number(fmt.Sprintf("octets in `%s`", f.name)))
		listed = append(listed, f)
	}
	t := table.New("Functions that stayed calls", note, columns...)
	for _, name := range namesIn(listed) {
		t.Add(cellsOf(name, listed)...)
	}
	return t
}

// namesIn has each function of any file once, in order.
func namesIn(files []file) (names []string) {
	seen := map[string]bool{}
	for _, f := range files {
		for name := range f.sizes {
			if !seen[name] {
				names = append(names, name)
			}
			seen[name] = true
		}
	}
	sort.Strings(names)
	return names
}

func cellsOf(function string, files []file) []string {
	cells := []string{"`" + function + "`"}
	for _, f := range files {
		cell := "-"
		if size, has := f.sizes[function]; has {
			cell = fmt.Sprint(size)
		}
		cells = append(cells, cell)
	}
	return cells
}
