// Package table prints tables in Markdown, their columns lined up.
package table

import (
	"fmt"
	"strings"
	"unicode/utf8"
)

// Column has a heading; numbers stand at the right.
type Column struct {
	heading  string
	isNumber bool
}

// Text is a column of text.
func Text(heading string) Column { return Column{heading: heading} }

// Number is a column of numbers.
func Number(heading string) Column { return Column{heading: heading, isNumber: true} }

// Table has a title, a note that may be empty, and rows below its columns.
type Table struct {
	title, note string
	columns     []Column
	rows        [][]string
}

// New has no rows yet.
func New(title, note string, columns ...Column) *Table {
	return &Table{title: title, note: note, columns: columns}
}

// Add adds a row, a cell for each column.
func (t *Table) Add(cells ...string) { t.rows = append(t.rows, cells) }

// Print writes the table to standard output, and an empty line after it.
func (t *Table) Print() {
	fmt.Printf("### %s\n\n", t.title)
	if t.note != "" {
		fmt.Printf("%s\n\n", t.note)
	}
	widths := t.widths()
	t.printRow(t.headings(), widths)
	t.printRule(widths)
	for _, row := range t.rows {
		t.printRow(row, widths)
	}
	fmt.Println()
}

func (t *Table) headings() []string {
	headings := make([]string, len(t.columns))
	for i, column := range t.columns {
		headings[i] = column.heading
	}
	return headings
}

func (t *Table) widths() []int {
	widths := make([]int, len(t.columns))
	for _, row := range append([][]string{t.headings()}, t.rows...) {
		for i, cell := range row {
			if width := utf8.RuneCountInString(cell); width > widths[i] {
				widths[i] = width
			}
		}
	}
	return widths
}

func (t *Table) printRow(cells []string, widths []int) {
	for i, cell := range cells {
		if t.columns[i].isNumber {
			fmt.Printf("| %*s ", widths[i], cell)
		} else {
			fmt.Printf("| %-*s ", widths[i], cell)
		}
	}
	fmt.Println("|")
}

// printRule: a colon at its right sets a column of numbers to the right.
func (t *Table) printRule(widths []int) {
	for i, width := range widths {
		end := "-"
		if t.columns[i].isNumber {
			end = ":"
		}
		fmt.Printf("|%s%s", strings.Repeat("-", width+1), end)
	}
	fmt.Println("|")
}
