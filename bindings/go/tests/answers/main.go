// Answers answers questions about the binding, a line each, as
// bindings/tests/README.md has them.
//
//	answers < QUESTIONS
package main

import (
	"bufio"
	"encoding/hex"
	"fmt"
	"io"
	"net/http"
	"os"
	"strconv"
	"strings"

	"terncommode"
)

// taken takes the words of a question from its front. The first that isn't right
// is the answer.
type taken struct {
	words []string
	err   error
}

func (t *taken) word() string {
	word := t.words[0]
	t.words = t.words[1:]
	return word
}

func bytesOf(word string) []byte {
	if word == "-" {
		return nil
	}
	data, err := hex.DecodeString(word)
	if err != nil {
		panic(err)
	}
	return data
}

func (t *taken) bytes() []byte { return bytesOf(t.word()) }

func (t *taken) form() terncommode.Form {
	n, _ := strconv.Atoi(t.word())
	return terncommode.Form(n)
}

func (t *taken) budget() uint64 {
	word := t.word()
	if word == "-" {
		return terncommode.NoBudget
	}
	budget, err := strconv.ParseUint(word, 10, 64)
	if err != nil {
		panic(err)
	}
	return budget
}

func (t *taken) context() terncommode.Context {
	c, err := terncommode.Parse(t.bytes())
	if t.err == nil {
		t.err = err
	}
	return c
}

func (t *taken) contexts() []terncommode.Context {
	var contexts []terncommode.Context
	for len(t.words) > 0 {
		contexts = append(contexts, t.context())
	}
	return contexts
}

func (t *taken) bag() terncommode.Bag {
	bag, err := terncommode.NewBag(string(t.bytes()))
	if t.err == nil {
		t.err = err
	}
	return bag
}

func digits(data []byte) string {
	if len(data) == 0 {
		return "-"
	}
	return hex.EncodeToString(data)
}

func shown(c terncommode.Context) string { return digits(c.Bytes()) }

// writes are the lines, one by one.
func (t *taken) writes() []terncommode.Write {
	text := string(t.bytes())
	if text == "" {
		return nil
	}
	var writes []terncommode.Write
	for _, line := range strings.Split(strings.TrimSuffix(text, "\n"), "\n") {
		path, text, _ := strings.Cut(line, " ")
		writes = append(writes, terncommode.Set(path, text))
	}
	return writes
}

// Each question takes its words, and then answers, unless one of them is wrong.
var questions = map[string]func(t *taken) func() (string, error){
	"parse": func(t *taken) func() (string, error) {
		c := t.context()
		return func() (string, error) { return shown(c), nil }
	},
	"bytes": func(t *taken) func() (string, error) {
		form, c := t.form(), t.context()
		return func() (string, error) { return digits(c.BytesIn(form)), nil }
	},
	"join": func(t *taken) func() (string, error) {
		contexts := t.contexts()
		return func() (string, error) { return shown(terncommode.Join(contexts...)), nil }
	},
	"cut": func(t *taken) func() (string, error) {
		form, budget, c := t.form(), t.budget(), t.context()
		return func() (string, error) { return shown(c.CutIn(form, budget)), nil }
	},
	"to_header": func(t *taken) func() (string, error) {
		c := t.context()
		return func() (string, error) { return terncommode.ToHeader(c), nil }
	},
	"from_header": func(t *taken) func() (string, error) {
		value := string(t.bytes())
		return func() (string, error) { return shown(terncommode.FromHeader(value)), nil }
	},
	"from_binary": func(t *taken) func() (string, error) {
		data := t.bytes()
		return func() (string, error) { return shown(terncommode.FromBinary(data)), nil }
	},
	"extract": func(t *taken) func() (string, error) {
		absent, headers := terncommode.Lost(), http.Header{}
		if t.word() == "empty" {
			absent = terncommode.Context{}
		}
		for len(t.words) > 0 {
			headers.Add("terncommode", string(t.bytes()))
		}
		return func() (string, error) { return shown(terncommode.Extract(headers, absent)), nil }
	},
	"only": func(t *taken) func() (string, error) {
		bag, paths := t.bag(), t.words
		return func() (string, error) {
			only, err := bag.Only(paths...)
			return digits([]byte(only.Table())), err
		}
	},
	"receive": func(t *taken) func() (string, error) {
		bag, data := t.bag(), t.bytes()
		return func() (string, error) {
			c, err := bag.Receive(data)
			return shown(c), err
		}
	},
	"quote": func(t *taken) func() (string, error) {
		text := string(t.bytes())
		return func() (string, error) { return digits([]byte(terncommode.Quote(text))), nil }
	},
	"update": func(t *taken) func() (string, error) {
		bag, form, budget, writes, contexts := t.bag(), t.form(), t.budget(), t.writes(), t.contexts()
		return func() (string, error) {
			c, err := bag.InForm(form).UpdateWithin(budget, contexts, writes...)
			return shown(c), err
		}
	},
	"keep": func(t *taken) func() (string, error) {
		bag, form, others := t.bag(), t.form(), terncommode.OthersUnsaid
		if t.word() == "cut" {
			others = terncommode.OthersCut
		}
		budget, contexts := t.budget(), t.contexts()
		return func() (string, error) { return shown(bag.InForm(form).Keep(others, budget, contexts...)), nil }
	},
	"text": func(t *taken) func() (string, error) {
		bag, path, c := t.bag(), t.word(), t.context()
		return func() (string, error) {
			text, exact, err := bag.Text(c, path)
			if exact {
				return "exact " + text, err
			}
			return "partial " + text, err
		}
	},
	"report": func(t *taken) func() (string, error) {
		bag, c := t.bag(), t.context()
		return func() (string, error) {
			text, err := bag.Report(c)
			return digits([]byte(text)), err
		}
	},
}

func answer(line string) string {
	call, rest, hasWords := strings.Cut(line, " ")
	t := &taken{}
	if hasWords {
		t.words = strings.Split(rest, " ")
	}
	ask, isKnown := questions[call]
	if !isKnown {
		return "! Unknown"
	}
	answered := ask(t)
	text, err := "", t.err
	if err == nil {
		text, err = answered()
	}
	switch err := err.(type) {
	case nil:
		return text
	case terncommode.Fault:
		return fmt.Sprintf("! Fault %d %v", err.Offset, err.Code)
	case terncommode.IllTyped:
		return fmt.Sprintf("! IllTyped %d %d", err.Input, err.Offset)
	case terncommode.BadTable:
		return fmt.Sprintf("! BadTable %d %v", err.Line, err.Code)
	case terncommode.NoField:
		return fmt.Sprintf("! NoField %d", err.Line)
	case terncommode.BadWrite:
		return fmt.Sprintf("! BadWrite %d", err.Line)
	}
	panic(err)
}

func main() {
	in, out := bufio.NewReader(os.Stdin), bufio.NewWriter(os.Stdout)
	defer out.Flush()
	for {
		line, err := in.ReadString('\n')
		if line = strings.TrimSuffix(line, "\n"); line != "" {
			fmt.Fprintln(out, answer(line))
		}
		if err == io.EOF {
			return
		}
	}
}
