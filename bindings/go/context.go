package terncommode

import (
	"encoding/hex"
	"encoding/json"
	"fmt"
	"math"
	"strings"
)

// A Context is what a request carries along. It is always valid and never
// changes, so a copy is a branch. The zero value is the empty context, with
// which a request begins. Two contexts are equal by == where they say the same
// in the same atoms, so a Context can be a key of a map.
type Context struct {
	b string // in form one, or in form two where an atom needs it

	// A reply is awaited that has begun, so this context is joined with Lost. It
	// is so only in a step of Change: what the step makes of it is held without
	// that marker once the reply is here.
	open bool
}

// A Form is one of the two forms of bytes. Form two begins with its own length.
type Form int

// The forms.
const (
	FormOne Form = 1
	FormTwo Form = 2
)

// String is the name of the form.
func (f Form) String() string {
	return nameOf("Form", int(f), []string{"", "form one", "form two"})
}

// NoBudget is the greatest budget. No context is cut to it.
const NoBudget uint64 = math.MaxUint64

const mark = "\xff\xff\xff\x02"

// Parse gives the context with these bytes, in either form. The error is a
// Fault.
func Parse(data []byte) (Context, error) {
	b, err := join(FormOne, inputsOf(string(data)), NoBudget)
	return Context{b: b}, err
}

// Lost is the context of one marker: anything may be missing from it, so no
// field is exact. It stands for a context that was promised and can't be read.
func Lost() Context {
	return Context{b: "\x00"}
}

// Join is the merge of contexts; the empty one where there is none.
func Join(contexts ...Context) Context {
	if len(contexts) == 1 {
		return contexts[0]
	}
	return Context{sure(join(FormOne, inputsOfOpen(contexts), NoBudget)), areOpen(contexts)}
}

func areOpen(contexts []Context) bool {
	for _, c := range contexts {
		if c.open {
			return true
		}
	}
	return false
}

// closed is the context with the marker that it is joined with while a reply is
// open. Join and Update hand the word on; all else looks at closed ones.
func (c Context) closed() Context {
	if !c.open {
		return c
	}
	c.open = false
	return Join(c, Lost())
}

// Cut is the context within so many bytes of form one. A longer one loses its
// last fields, and what it may have lost isn't exact from there on. A budget of
// 0 counts as 1.
func (c Context) Cut(budget uint64) Context {
	return c.CutIn(FormOne, budget)
}

// CutIn is the context within so many bytes of a form. A budget below 13 in
// form two counts as 13.
func (c Context) CutIn(form Form, budget uint64) Context {
	return Context{b: formOne(sure(join(form, inputsOf(c.closed().b), budget)))}
}

// Bytes are the bytes of the context in form one, or in form two where an atom
// is too long for that. They have no end of their own in form one: send them
// only where their length travels with them.
func (c Context) Bytes() []byte {
	return []byte(c.closed().b)
}

// BytesIn are the bytes of the context in a form.
func (c Context) BytesIn(form Form) []byte {
	if form == FormOne {
		return c.Bytes()
	}
	return []byte(sure(join(form, inputsOf(c.closed().b), NoBudget)))
}

// Len is how many bytes Bytes gives.
func (c Context) Len() int {
	return len(c.closed().b)
}

// String is for logs; ToHeader is for other services. It has the first 32 bytes
// in hexadecimal digits, so a log is as confidential as they are.
func (c Context) String() string {
	data := c.Bytes()
	digits := hex.EncodeToString(data)
	if len(digits) > 64 {
		digits = digits[:64] + ".."
	}
	return fmt.Sprintf("context of %d bytes %s", len(data), digits)
}

// MarshalText implements encoding.TextMarshaler, so that a Context can be a
// member of JSON or its key: it is ToHeader.
func (c Context) MarshalText() ([]byte, error) {
	return []byte(ToHeader(c)), nil
}

// UnmarshalText implements encoding.TextUnmarshaler. What can't be read is Lost,
// as that of a header, and no error.
func (c *Context) UnmarshalText(text []byte) error {
	*c = FromHeader(string(text))
	return nil
}

// UnmarshalJSON implements json.Unmarshaler: of a string it reads the text, and
// null is Lost. Anything else is an error. A member that isn't there leaves the
// Context as it was: set it to Lost() before, where one was promised.
func (c *Context) UnmarshalJSON(data []byte) error {
	var text *string
	if err := json.Unmarshal(data, &text); err != nil {
		return fmt.Errorf("terncommode: a context is a string in JSON: %w", err)
	}
	*c = Lost()
	if text != nil {
		*c = FromHeader(*text)
	}
	return nil
}

// MarshalBinary implements encoding.BinaryMarshaler: it is ToBinary.
func (c Context) MarshalBinary() ([]byte, error) {
	return ToBinary(c), nil
}

// UnmarshalBinary implements encoding.BinaryUnmarshaler. What can't be read is
// Lost, as FromBinary has it, and no error.
func (c *Context) UnmarshalBinary(data []byte) error {
	*c = FromBinary(data)
	return nil
}

// formOne is the bytes of a context in form one.
func formOne(b string) string {
	if strings.HasPrefix(b, mark) {
		return sure(join(FormOne, inputsOf(b), NoBudget))
	}
	return b
}

// sure is what a call gives that isn't refused: its inputs are contexts.
func sure(b string, err error) string {
	if err != nil {
		panic(fmt.Sprintf("terncommode: %v, of a valid context", err))
	}
	return b
}
