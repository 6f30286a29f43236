package terncommode

import (
	"encoding/hex"
	"fmt"
	"strings"
)

// A Bag is what a service knows: the table of a definition, or an excerpt of
// it. The zero value knows no field.
type Bag struct {
	table string // a table's text; "" for the one without fields
	slots int
	form  Form // 0 is FormOne
}

// A Write is a value for a field, as a text: `7`, `"spring"`, `on`,
// `"writer":3`.
type Write struct {
	Path, Text string
}

// Set is the write of a text to the field at a path.
func Set(path, text string) Write {
	return Write{Path: path, Text: text}
}

// Others is what Keep does about the fields that it drops.
type Others int

// The choices of Keep.
const (
	OthersCut    Others = 1 // they are marked as cut off: no field is read as exact that isn't, under any table
	OthersUnsaid Others = 2 // nothing is said of them: kept fields are exactly as exact as before, for readers with this table
)

// String is the name of the choice.
func (o Others) String() string {
	return nameOf("Others", int(o), []string{"", "cut", "unsaid"})
}

// A State is whether what is read of a field is all that was said of it.
type State int

// The states of a field.
const (
	Exact      State = 1 // nothing of it can have been cut off
	Partial    State = 2 // something may have been cut off
	Misspelled State = 3 // an atom of the field isn't spelled as its type says
)

// String is the name of the state: exact, partial or misspelled.
func (s State) String() string {
	return nameOf("State", int(s), []string{"", "exact", "partial", "misspelled"})
}

// A Place is where the atoms of a slot stand in the bytes of a context.
type Place struct {
	Offset int // how many bytes stand before them; of a misspelled slot, before its first bad atom
	Length int // how many bytes they have; 0 where the slot is absent or misspelled
	State  State
}

// A Field is what a context says of a field. Where it isn't exact, more may have
// been said.
type Field[T any] struct {
	Value T
	Exact bool
}

// NewBag gives the bag of a table: the text that `baggage table FILE BAG`
// prints. The error is a BadTable.
func NewBag(table string) (Bag, error) {
	slots, err := checkTable(table)
	if err != nil {
		return Bag{}, err
	}
	return Bag{table: table, slots: slots}, nil
}

// MustBag is NewBag for a table that is a constant of the program: it panics
// where the text isn't that of a table.
func MustBag(table string) Bag {
	bag, err := NewBag(table)
	if err != nil {
		panic(fmt.Sprintf("terncommode: %v", err))
	}
	return bag
}

// Table is the text of the table.
func (b Bag) Table() string {
	if b.table == "" {
		return head
	}
	return b.table
}

// String is for logs: the paths of the first fields.
func (b Bag) String() string {
	slots := b.Slots()
	if len(slots) > 16 {
		slots = append(slots[:16], fmt.Sprintf("and %d more", b.slots-16))
	}
	return "bag of " + strings.Join(slots, ", ")
}

// Slots are the name paths of the slots, in the order of the table.
func (b Bag) Slots() []string {
	slots := make([]string, 0, b.slots)
	_, rows := rowsOf(b.Table())
	for _, each := range rows {
		if each.isSlot {
			slots = append(slots, each.path)
		}
	}
	return slots
}

// Only gives the bag that knows the fields at these paths alone, each a slot or
// a bag with all that it has. The error is a NoField.
func (b Bag) Only(paths ...string) (Bag, error) {
	text, err := excerpt(b.Table(), paths)
	if err != nil {
		return Bag{}, err
	}
	other, err := NewBag(text)
	other.form = b.form
	return other, err
}

// InForm gives the same bag with the limits of a form: budgets count its bytes,
// and a written datum may have 65,534 bytes in form one and 1,048,575 in form
// two.
func (b Bag) InForm(form Form) Bag {
	b.form = form
	return b
}

func (b Bag) formOf() Form {
	if b.form == 0 {
		return FormOne
	}
	return b.form
}

// Update is one step of this service: the merge of the contexts and of what is
// written, in normal form. With one context and no write this is what a service
// does with a context that it received, with several what it does where branches
// meet. Data of fields that the bag doesn't have are left as they are.
//
// The error is an IllTyped where a context has an atom that isn't spelled as the
// type of its field says, and a NoField or a BadWrite where a write is no write;
// these two say which write it is, and the path of its field. After IllTyped a
// service does best to go on as one that doesn't know the field: with Join.
func (b Bag) Update(contexts []Context, writes ...Write) (Context, error) {
	return b.UpdateWithin(NoBudget, contexts, writes...)
}

// UpdateWithin is Update, cut to a budget.
func (b Bag) UpdateWithin(budget uint64, contexts []Context, writes ...Write) (Context, error) {
	lines := linesOf(writes)
	if budget == NoBudget && areOpen(contexts) {
		if c, err := b.update(inputsOfOpen(contexts), lines, budget); err == nil {
			c.open = true
			return c, nil
		}
	}
	c, err := b.update(inputsOfContexts(contexts), lines, budget)
	return c, b.withWrite(err, writes)
}

// withWrite is what an update says, with the write that is refused.
func (b Bag) withWrite(err error, writes []Write) error {
	switch refused := err.(type) {
	case NoField:
		refused.Path = writes[refused.Line-1].Path
		return refused
	case BadWrite:
		write := writes[refused.Line-1]
		refused.Path, refused.Text = write.Path, write.Text
		if field := slot(b.Table(), write.Path); field != nil {
			refused.Shape = field.shape
		}
		return refused
	}
	return err
}

// Receive is what this service makes of bytes that came, in either form: their
// context, in normal form. The error is a Fault or an IllTyped, both with an
// offset in these bytes.
func (b Bag) Receive(data []byte) (Context, error) {
	return b.InForm(FormOne).update(inputsOf(string(data)), "", NoBudget)
}

func (b Bag) update(in inputs, lines string, budget uint64) (Context, error) {
	updated, err := update(b.formOf(), b.Table(), in, lines, budget)
	if err != nil {
		return Context{}, err
	}
	return Context{b: formOne(updated)}, nil
}

// linesOf are the lines of writes. A write never becomes two: no slot has the
// empty path, and no text of a write is empty.
func linesOf(writes []Write) string {
	var lines strings.Builder
	for _, write := range writes {
		if !strings.ContainsAny(write.Path, " \n") {
			lines.WriteString(write.Path)
		}
		lines.WriteByte(' ')
		if !strings.Contains(write.Text, "\n") {
			lines.WriteString(write.Text)
		}
		lines.WriteByte('\n')
	}
	return lines.String()
}

// TextLimit is how long a text of what a context says may be, unless another
// limit is said: a short context can say a long text, where a map has many keys
// to bags of many fields.
const TextLimit = 1 << 20

// Text is what a context says of a field, as the text that `baggage decode`
// prints, and whether that is exact. The error is a NoField, a TooLong where the
// text has more than TextLimit bytes, or an IllTyped where an atom of any field
// of this bag isn't spelled as its type says: the bag with this field alone
// looks at no other. A text is shown to people by Escape.
func (b Bag) Text(c Context, path string) (text string, exact bool, err error) {
	return b.TextWithin(TextLimit, c, path)
}

// TextWithin is Text with another limit.
func (b Bag) TextWithin(limit int, c Context, path string) (text string, exact bool, err error) {
	text, exact, err = readField(limit, b.Table(), c.closed().b, path)
	if _, isUnknown := err.(NoField); isUnknown {
		err = NoField{Path: path}
	}
	return text, exact, err
}

// Report is what a context says of all fields, as `baggage decode` prints it of
// the bytes in form one. The error is an IllTyped, or a TooLong where the text
// has more than TextLimit bytes. It is shown to people by Escape.
func (b Bag) Report(c Context) (string, error) {
	return b.ReportWithin(TextLimit, c)
}

// ReportWithin is Report with another limit.
func (b Bag) ReportWithin(limit int, c Context) (string, error) {
	return report(limit, b.Table(), c.closed().b)
}

// Places are where the atoms of all slots stand in c.Bytes(), in the order of
// the table. The readers that tools/accessors makes stand over it.
func (b Bag) Places(c Context) []Place {
	found, err := places(b.Table(), b.slots, c.closed().b)
	if err != nil {
		panic(fmt.Sprintf("terncommode: %v, of a valid context and table", err))
	}
	return found
}

// Keep is what may leave a trust boundary: of the merge of the contexts only
// what stands below the slots of this bag, cut to the budget.
func (b Bag) Keep(others Others, budget uint64, contexts ...Context) Context {
	return Context{b: formOne(sure(keep(b.formOf(), others, b.Table(), inputsOfContexts(contexts), budget)))}
}

// Quote is the literal that writes a string, or begins the write of a counter or
// a map. A string that isn't UTF-8 gives a text that is no write.
func Quote(s string) string {
	const digits = "0123456789abcdef"
	quoted := make([]byte, 0, len(s)+2)
	quoted = append(quoted, '"')
	for k := 0; k < len(s); k++ {
		switch letter := s[k]; {
		case letter == '"' || letter == '\\':
			quoted = append(quoted, '\\', letter)
		case letter < 0x20 || letter == 0x7f:
			quoted = append(quoted, '\\', 'x', digits[letter>>4], digits[letter&15])
		default:
			quoted = append(quoted, letter)
		}
	}
	return string(append(quoted, '"'))
}

// Hex is the literal that writes bytes.
func Hex(b []byte) string {
	return "0x" + hex.EncodeToString(b)
}
