package terncommode

import (
	"strconv"
	"strings"
)

const head = "baggage table 1\n"

// A row is a field of a table that is reached through bags: its name path, the
// lines of the bags on the way to it, and its own lines, those below included.
type row struct {
	path, shape string
	isSlot      bool
	way         []int
	first, last int
}

// rowsOf gives the lines of a table's text and its rows, in their order.
func rowsOf(table string) ([]string, []*row) {
	lines := strings.SplitAfter(strings.TrimSuffix(table, "\n"), "\n")
	var rows, open []*row // open are the rows that the next line may stand below
	for number, line := range lines[1:] {
		number++
		words := strings.Fields(line)
		depth, _ := strconv.Atoi(words[0])
		if depth < len(open) {
			open = open[:depth]
		}
		for _, above := range open {
			above.last = number
		}
		if depth == len(open) && (depth == 0 || !open[depth-1].isSlot) {
			here := &row{path: words[2], shape: strings.Join(words[3:], " "), isSlot: words[3] != "bag", first: number, last: number}
			for _, above := range open {
				here.way = append(here.way, above.first)
			}
			if depth > 0 {
				here.path = open[depth-1].path + "." + here.path
			}
			rows, open = append(rows, here), append(open, here)
		}
	}
	return lines, rows
}

// slot is the row of the slot with a path; nil where there is none.
func slot(table, path string) *row {
	_, rows := rowsOf(table)
	for _, each := range rows {
		if each.isSlot && each.path == path {
			return each
		}
	}
	return nil
}

// numbersOf gives the numbers on the way to the slot with a path, and its shape;
// nothing where no slot has the path.
func numbersOf(table, path string) (numbers, shape string) {
	names := strings.Split(path, ".")
	way := make([]string, 0, len(names)) // the numbers of the bags that are open and on the way
	for _, line := range strings.Split(strings.TrimSuffix(table, "\n"), "\n")[1:] {
		words := strings.SplitN(line, " ", 4)
		depth, _ := strconv.Atoi(words[0])
		if depth < len(way) {
			way = way[:depth]
		}
		if depth > len(way) || words[2] != names[depth] {
			continue
		}
		if isBag := words[3] == "bag"; isBag == (depth < len(names)-1) {
			if way = append(way, words[1]); !isBag {
				return strings.Join(way, "."), words[3]
			}
		}
	}
	return "", ""
}

// excerpt is the text of the table with the fields at these paths alone.
func excerpt(table string, paths []string) (string, error) {
	lines, rows := rowsOf(table)
	kept := make([]bool, len(lines))
	kept[0] = true
	for _, path := range paths {
		found := false
		for _, each := range rows {
			if each.path == path {
				found = true
				for _, number := range each.way {
					kept[number] = true
				}
				for number := each.first; number <= each.last; number++ {
					kept[number] = true
				}
			}
		}
		if !found {
			return "", NoField{Path: path}
		}
	}
	var text strings.Builder
	for number, line := range lines {
		if kept[number] {
			text.WriteString(strings.TrimSuffix(line, "\n") + "\n")
		}
	}
	return text.String(), nil
}
