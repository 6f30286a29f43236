// Run_graph prints the report of a recorded graph, going through it step by step
// with the binding.
//
//	run_graph TABLE < GRAPH
//
// It prints what `baggage runtable TABLE` prints, refusals too. docs/FORMATS.md
// has the lines of graphs, and bindings/tests/README.md says which call stands
// for which line.
package main

import (
	"bytes"
	"encoding/hex"
	"errors"
	"fmt"
	"io"
	"os"
	"regexp"
	"strconv"
	"strings"
	"unicode/utf8"

	"terncommode"
)

const (
	name   = `[A-Za-z_][A-Za-z0-9_]*`
	path   = name + `(?:\.` + name + `)*`
	number = `(?:0|[1-9][0-9]{0,9})`

	inputMax, lineMax, stepsMax, parentsMax, budgetMax = 16_777_216, 2_097_152, 100_000, 4_096, 4_294_967_295
)

func form(text string) *regexp.Regexp {
	return regexp.MustCompile(`(?s)\A` + text + `\z`)
}

var (
	forms = []*regexp.Regexp{
		form(`(service2?) (` + name + `) (all|none|only(?: ` + path + `)+)`),
		form(`(start) (` + number + `) (` + name + `)`),
		form(`(recv) (` + number + `) (` + name + `) ([^ ]+)`),
		form(`(set) (` + number + `) (` + number + `) (` + path + `) (.+)`),
		form(`(branch) (` + number + `) (` + number + `)`),
		form(`(forward) (` + number + `) (` + number + `) (` + name + `)`),
		form(`(trim) (` + number + `) (` + number + `) (` + number + `)`),
		form(`(join) (` + number + `) (` + number + `(?: ` + number + `)*)`),
		form(`(show) (` + number + `)`),
	}
	digits = form(`(?:[0-9a-fA-F]{2})+`)
)

// A code is why a line is bad.
type code string

func (c code) Error() string { return string(c) }

// A service is the form of what stands there, and the bag that it knows.
type service struct {
	form terncommode.Form
	bag  terncommode.Bag
}

func (s *service) leastBudget() int {
	if s.form == terncommode.FormTwo {
		return 13
	}
	return 1
}

type step struct {
	at *service
	c  terncommode.Context
}

type graph struct {
	bag      terncommode.Bag
	slots    map[string]bool
	services map[string]*service
	steps    []step
	shown    []int
}

// add goes one line further.
func (g *graph) add(line []byte) error {
	if utf8.Valid(line) {
		for _, form := range forms {
			if words := form.FindStringSubmatch(string(line)); words != nil {
				return g.act(words[1], words)
			}
		}
	}
	return code("Form")
}

func (g *graph) act(act string, words []string) error {
	switch act {
	case "service", "service2":
		return g.declare(words)
	case "show":
		_, err := g.parents(words[2])
		if err == nil {
			g.shown = append(g.shown, numberOf(words[2]))
		}
		return err
	}
	return g.step(act, words)
}

func (g *graph) declare(words []string) error {
	if g.services[words[2]] != nil {
		return code("DuplicateService")
	}
	declared := &service{terncommode.FormOne, g.bag}
	if words[1] == "service2" {
		declared.form = terncommode.FormTwo
	}
	if views := strings.Split(words[3], " "); views[0] != "all" {
		bag, err := g.bag.Only(views[1:]...)
		if err != nil {
			return code("NoSuchPath")
		}
		declared.bag = bag
	}
	declared.bag = declared.bag.InForm(declared.form)
	g.services[words[2]] = declared
	return nil
}

func numberOf(word string) int {
	n, _ := strconv.Atoi(word)
	return n
}

// parents are the steps with these numbers.
func (g *graph) parents(words string) ([]step, error) {
	var found []step
	for _, word := range strings.Split(words, " ") {
		n := numberOf(word)
		if n >= len(g.steps) {
			return nil, code("NoSuchStep")
		}
		found = append(found, g.steps[n])
	}
	return found, nil
}

// step is a line that is a step.
func (g *graph) step(act string, words []string) error {
	if numberOf(words[2]) != len(g.steps) {
		return code("StepNumber")
	}
	var parents []step
	var err error
	if act != "start" && act != "recv" {
		if parents, err = g.parents(words[3]); err != nil {
			return err
		}
	}
	at, err := g.place(act, words, parents)
	if err != nil {
		return err
	}
	if err := g.check(act, words, at); err != nil {
		return err
	}
	if len(g.steps) >= stepsMax {
		return code("TooManySteps")
	}
	if len(parents) > parentsMax {
		return code("TooManyParents")
	}
	c, err := g.context(act, words, at, parents)
	g.steps = append(g.steps, step{at, c})
	return err
}

// place is the service where a step stands.
func (g *graph) place(act string, words []string, parents []step) (*service, error) {
	named := map[string]int{"start": 3, "recv": 3, "forward": 4}
	if place, isNamed := named[act]; isNamed {
		if g.services[words[place]] == nil {
			return nil, code("NoSuchService")
		}
		return g.services[words[place]], nil
	}
	for _, parent := range parents {
		if parent.at != parents[0].at {
			return nil, code("WrongService")
		}
	}
	return parents[0].at, nil
}

// check looks at what a line says beside its steps.
func (g *graph) check(act string, words []string, at *service) error {
	if act == "trim" {
		if budget := numberOf(words[4]); budget < at.leastBudget() || budget > budgetMax {
			return code("BudgetRange")
		}
	}
	if act == "set" {
		if !g.slots[words[4]] {
			return code("NoSuchPath")
		}
		switch _, err := at.bag.Update(nil, terncommode.Set(words[4], words[5])); err.(type) {
		case terncommode.NoField:
			return code("NotKnown")
		case terncommode.BadWrite:
			return code("BadValue")
		}
	}
	return nil
}

// context is that of a step.
func (g *graph) context(act string, words []string, at *service, parents []step) (terncommode.Context, error) {
	var contexts []terncommode.Context
	for _, parent := range parents {
		contexts = append(contexts, parent.c)
	}
	switch act {
	case "start":
		return terncommode.Context{}, nil
	case "recv":
		return g.receive(at, words[4])
	case "branch":
		return contexts[0], nil
	case "trim":
		return contexts[0].CutIn(at.form, uint64(numberOf(words[4]))), nil
	case "set":
		return at.bag.Update(contexts, terncommode.Set(words[4], words[5]))
	}
	return at.bag.Update(contexts)
}

// receive takes what comes from outside, which has to be typed under the whole
// table.
func (g *graph) receive(at *service, word string) (terncommode.Context, error) {
	if len(word) > lineMax {
		return terncommode.Context{}, code("HexTooLong")
	}
	if word == "-" {
		word = ""
	} else if !digits.MatchString(word) {
		return terncommode.Context{}, code("BadHex")
	}
	data, _ := hex.DecodeString(word)
	if c, err := g.bag.Receive(data); err != nil {
		return c, err
	}
	return at.bag.Receive(data)
}

// report writes the blocks of the steps to be shown.
func (g *graph) report(out io.Writer) error {
	for _, n := range g.shown {
		shown := g.steps[n]
		text := hex.EncodeToString(shown.c.BytesIn(shown.at.form))
		if text == "" {
			text = "-"
		}
		fmt.Fprintf(out, "step %d\nbytes %s\n", n, text)
		for _, path := range g.bag.Slots() {
			text, exact, err := g.bag.Text(shown.c, path)
			if err != nil {
				return err
			}
			state := "partial"
			if exact {
				state = "exact"
			}
			fmt.Fprintf(out, "%s %s %s\n", path, state, text)
		}
	}
	return nil
}

// run reads the lines that count.
func (g *graph) run(source []byte) (line int, err error) {
	if len(source) > inputMax {
		return 0, code("TooLong")
	}
	lines := bytes.Split(source, []byte("\n"))
	for k, line := range lines {
		if k < len(lines)-1 {
			line = bytes.TrimSuffix(line, []byte("\r"))
		}
		if len(line) == 0 || line[0] == '#' {
			continue
		}
		if err := g.add(line); err != nil {
			return k + 1, err
		}
	}
	return 0, nil
}

// refuse says why there is no report, and gives the status.
func refuse(line int, err error) int {
	var fault terncommode.Fault
	var ill terncommode.IllTyped
	switch {
	case errors.As(err, &fault):
		fmt.Fprintf(os.Stderr, "context line %d offset %d %v\n", line, fault.Offset, fault.Code)
		return 3
	case errors.As(err, &ill):
		fmt.Fprintf(os.Stderr, "context line %d offset %d IllTyped\n", line, ill.Offset)
		return 3
	}
	fmt.Fprintf(os.Stderr, "input line %d %v\n", line, err)
	return 2
}

func main() {
	table, err := os.ReadFile(os.Args[1])
	if err != nil {
		panic(err)
	}
	source, err := io.ReadAll(os.Stdin)
	if err != nil {
		panic(err)
	}
	g := &graph{bag: terncommode.MustBag(string(table)), slots: map[string]bool{}, services: map[string]*service{}}
	for _, slot := range g.bag.Slots() {
		g.slots[slot] = true
	}
	if line, err := g.run(source); err != nil {
		os.Exit(refuse(line, err))
	}
	var report bytes.Buffer
	if err := g.report(&report); err != nil {
		panic(err)
	}
	os.Stdout.Write(report.Bytes())
}
