package terncommode

import (
	"fmt"
	"strings"
)

// A Code says what is wrong where bytes cease to be those of a context.
type Code int

// The codes of faults.
const (
	CutLength   Code = iota + 1 // the input ends inside the head or a length
	BadCount                    // the number in the head isn't that of the bytes after it
	AtomTooLong                 // a length is above the form's limit
	LongForm                    // a length has more bytes than it needs
	CutBody                     // fewer bytes follow than a length says
	BadPrefix                   // no kind of atom begins with this byte
	BadIndex                    // after the first byte of an indexed header stands anything but one varint
	LevelJump                   // a header is more than one level below the one before it
	OutOfOrder                  // an atom doesn't come after the one before it
)

var codes = []string{"", "CutLength", "BadCount", "AtomTooLong", "LongForm", "CutBody", "BadPrefix", "BadIndex", "LevelJump", "OutOfOrder"}

// String is the name of the code, as the program prints it.
func (c Code) String() string {
	return nameOf("Code", int(c), codes)
}

// nameOf is the name of a number of a type; the first of the names isn't one.
func nameOf(kind string, number int, names []string) string {
	if number > 0 && number < len(names) {
		return names[number]
	}
	return fmt.Sprintf("%s(%d)", kind, number)
}

// A TableCode says what is wrong with a line of a table's text.
type TableCode int

// The codes of tables.
const (
	TableHead           TableCode = iota + 1 // the first line isn't `baggage table 1`
	TableForm                                // the line hasn't the form of a field's, or its line feed is missing
	TableDepth                               // the field stands deeper than the lines before it let it
	TableOrder                               // its number isn't greater than that of the field before it in the same bag
	TableDuplicateField                      // an earlier field of the same bag has the name
	TableTooDeep                             // its headers would need more levels than there are
	TableTooManySlots                        // as many fields as a table may have stand before it
)

var tableCodes = []string{"", "Head", "Form", "Depth", "Order", "DuplicateField", "TooDeep", "TooManySlots"}

// String is the name of the code, as the program prints it.
func (c TableCode) String() string {
	return nameOf("TableCode", int(c), tableCodes)
}

// A Fault is that bytes aren't those of a context.
type Fault struct {
	Input  int // which input it is, from 0 on
	Offset int // how many of its bytes stand before the fault
	Code   Code
}

func (f Fault) Error() string {
	return fmt.Sprintf("context %d: %v at byte %d", f.Input, f.Code, f.Offset)
}

// IllTyped is that an atom isn't spelled as the type of its field says.
type IllTyped struct {
	Input  int // which context it stands in, from 0 on
	Offset int // how many bytes of it stand before the atom
}

func (t IllTyped) Error() string {
	return fmt.Sprintf("context %d: ill typed at byte %d", t.Input, t.Offset)
}

// NoField is that no slot of the bag has a name path.
type NoField struct {
	Line int    // the number of the write, from 1 on; 0 outside writes
	Path string // the path
}

func (n NoField) Error() string {
	if n.Line > 0 {
		return fmt.Sprintf("write %d: no field %q", n.Line, n.Path)
	}
	return fmt.Sprintf("no field %q", n.Path)
}

// BadWrite is that a text is no write to its field, or that it writes more bytes
// than the form of the bag allows.
type BadWrite struct {
	Line  int    // the number of the write, from 1 on
	Path  string // the path of the field
	Text  string // what was to be written
	Shape string // the shape of the field, as the table has it
}

func (b BadWrite) Error() string {
	text := b.Text
	if len(text) > 64 {
		text = strings.ToValidUTF8(text[:64], "") + ".."
	}
	return fmt.Sprintf("write %d: no write to %q, a %s: %q", b.Line, b.Path, b.Shape, text)
}

// TooLong is that a text of what a context says is longer than was allowed.
type TooLong struct {
	Size  int // how many bytes it has
	Limit int // how many it may have
}

func (t TooLong) Error() string {
	return fmt.Sprintf("the text has %d bytes, and %d are allowed", t.Size, t.Limit)
}

// BadTable is that a text isn't that of a table.
type BadTable struct {
	Line int // its first bad line, from 1 on
	Code TableCode
}

func (b BadTable) Error() string {
	return fmt.Sprintf("table line %d: %v", b.Line, b.Code)
}
