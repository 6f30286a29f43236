package terncommode

import (
	"strings"
)

// Limits are those of what strangers may say. The zero value has the defaults.
type Limits struct {
	Length int    // letters of all values together; 8,192 where it is 0
	Parts  int    // contexts in them; 16 where it is 0
	Text   int    // letters of one write, as the key of a map and its value; 1,024 where it is 0
	Budget uint64 // bytes of the context that is made; RequestBudget where it is 0

	// DropPartial is that the request begins with what was read, as if that were
	// all that was said. Else the result is joined with Lost where something was
	// lost, cut, ill typed or longer than these limits.
	DropPartial bool
}

func (l Limits) orDefaults() Limits {
	for number, usual := range map[*int]int{&l.Length: 8192, &l.Parts: 16, &l.Text: 1024} {
		if *number == 0 {
			*number = usual
		}
	}
	if l.Budget == 0 {
		l.Budget = RequestBudget
	}
	return l
}

// Ingress is the context that strangers may say by the values of a header: the
// fields of the bag alone, read and written anew, so that nothing else is in it.
// Without values it is the empty one. It never has more than the limits allow,
// and nothing that isn't spelled as the type of its field says.
func Ingress(values []string, bag Bag, limits Limits) Context {
	if len(values) == 0 {
		return Context{}
	}
	limits = limits.orDefaults()
	c, isWhole := ingress(values, bag, limits)
	if !isWhole && !limits.DropPartial {
		c = Join(c, Lost())
	}
	return c.Cut(limits.Budget)
}

// ingress is the context, and whether it is all that was said of the bag.
func ingress(values []string, bag Bag, limits Limits) (Context, bool) {
	length := len(values) - 1
	for _, value := range values {
		length += len(value)
	}
	if length > limits.Length {
		return Context{}, false
	}
	parts := partsOf(values)
	if len(parts) > limits.Parts {
		return Context{}, false
	}
	came := fromParts(parts)
	paths, isWhole := spelled(came, bag)
	known, err := bag.Only(paths...)
	if err != nil {
		return Context{}, false
	}
	report, err := known.Report(came)
	if err != nil { // it is longer than TextLimit
		return Context{}, false
	}
	writes, isShort := writesOfReport(report, limits.Text)
	c, err := known.Update(nil, writes...)
	return c, err == nil && isWhole && isShort
}

// spelled are the slots of which something is said that is spelled as their
// types say, and whether all slots are exact.
func spelled(c Context, bag Bag) (paths []string, areExact bool) {
	areExact = true
	slots := bag.Slots()
	for k, place := range bag.Places(c) {
		areExact = areExact && place.State == Exact
		if place.State != Misspelled && place.Length > 0 {
			paths = append(paths, slots[k])
		}
	}
	return paths, areExact
}

// writesOfReport are the writes that say what a report does, and whether each of
// them is short enough to be among them.
func writesOfReport(report string, limit int) (writes []Write, areAll bool) {
	areAll = true
	for _, line := range strings.Split(strings.TrimSuffix(report, "\n"), "\n")[1:] {
		path, rest, _ := strings.Cut(line, " ")
		_, text, _ := strings.Cut(rest, " ")
		said := values{text: text}
		said.value("")
		areAll = areAll && !said.hasBare
		for _, each := range said.writes {
			if len(each) > limit {
				areAll = false
				continue
			}
			writes = append(writes, Set(path, each))
		}
	}
	return writes, areAll
}

// values takes the text of a field's value apart into writes.
type values struct {
	text    string // what is still to be taken
	writes  []string
	hasBare bool // a key stands there of which nothing is said, which no write says
}

// value takes a value whose writes begin with what stands before it.
func (v *values) value(before string) {
	switch first := v.text[:1]; {
	case first == "{":
		v.items("}", func() { v.element(before) })
	case first == "[":
		v.items("]", func() { v.field(before) })
	default:
		literal := v.literal()
		switch {
		case strings.HasPrefix(v.text, "{"): // the total of a counter
			v.items("}", func() { v.element(before) })
		case literal != "-" && literal != "off":
			v.writes = append(v.writes, before+literal)
		}
	}
}

// items takes what stands between brackets, with commas between.
func (v *values) items(end string, item func()) {
	v.text = v.text[1:]
	for !strings.HasPrefix(v.text, end) {
		item()
		v.text = strings.TrimPrefix(v.text, ",")
	}
	v.text = v.text[1:]
}

// element takes an element of a set, a writer and its count, or a key of a map
// and its value.
func (v *values) element(before string) {
	literal := v.literal()
	if !strings.HasPrefix(v.text, ":") {
		v.writes = append(v.writes, before+literal)
		return
	}
	v.text = v.text[1:]
	earlier := len(v.writes)
	v.value(before + literal + ":")
	v.hasBare = v.hasBare || len(v.writes) == earlier
}

// field takes a field of a bag and its value.
func (v *values) field(before string) {
	name, rest, _ := strings.Cut(v.text, "=")
	v.text = rest
	v.value(before + "." + name + "=")
}

// literal takes a word, a string or a struct.
func (v *values) literal() string {
	depth, isQuoted := 0, false
	for k := 0; k < len(v.text); k++ {
		switch letter := v.text[k]; {
		case isQuoted && letter == '\\':
			k++
		case letter == '"':
			isQuoted = !isQuoted
		case isQuoted:
		case letter == '(':
			depth++
		case letter == ')':
			depth--
		case depth == 0 && strings.IndexByte(",:{}]", letter) >= 0:
			return v.take(k)
		}
	}
	return v.take(len(v.text))
}

func (v *values) take(length int) string {
	taken := v.text[:length]
	v.text = v.text[length:]
	return taken
}
