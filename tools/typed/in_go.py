"""Typed accessors in Go."""
from model import Names, bags, camel, named_writes, refuse_taken, text_parts

KEYWORDS = set("""break case chan const continue default defer else fallthrough for func go goto if import interface map package range return select
struct switch type var""".split())

TYPES = {"bool": "bool", "int32": "int32", "int64": "int64", "sint32": "int32", "sint64": "int64", "uint32": "uint32", "uint64": "uint64", "fixed32": "uint32",
         "fixed64": "uint64", "sfixed32": "int32", "sfixed64": "int64", "string": "string", "bytes": "[]byte"}
KINDS = {"sint32": "Int32", "sint64": "Int64"}
SURFACE = {"Table", "Bag", "Read", "Reader", "Writes"}


def literal(text):
    """The literal of an ASCII text, a line each."""
    lines = text.split("\n")[:-1]
    return " +\n\t".join('"' + line.replace("\\", "\\\\").replace('"', '\\"') + '\\n"' for line in lines)


def aligned(rows):
    """Lines of columns, as gofmt lines them up."""
    widths = [max((len(row[column]) for row in rows), default=0) for column in range(len(rows[0]) - 1 if rows else 0)]
    return ["".join(cell.ljust(width + 1) for cell, width in zip(row, widths)) + row[-1] for row in rows]


def quoted(text):
    return '"' + text + '"'


def word_literal(word, value):
    if word in ("string", "bytes"):
        return f"terncommode.{'Quote' if word == 'string' else 'Hex'}({value})"
    return f"strconv.{'FormatBool' if word == 'bool' else 'FormatInt' if TYPES[word].startswith('int') else 'FormatUint'}" + \
        (f"({value})" if word == "bool" else f"({'int64' if TYPES[word].startswith('int') else 'uint64'}({value}), 10)")


class Go:
    """The code of one table."""

    def __init__(self, name, table):
        self.package, self.table = name.lower(), table
        refuse_taken(self.package, self.package in KEYWORDS | {"main"}, "package that is imported")
        self.names = Names(SURFACE)
        self.bag_types, self.struct_types, self.structs = {}, {}, []
        self.field_names, self.reader_names, self.writer_names = {}, {}, {}

    def struct_type(self, kind, field):
        """The type of the structs of a kind, which is declared where it is first needed."""
        if kind not in self.struct_types:
            name = self.struct_types[kind] = self.names.take(camel(field.names) + "Struct", f"the struct {field.path}")
            declared = "".join(f"\t{line}\n" for line in aligned([(f"F{place}", TYPES[word]) for place, word in enumerate(kind.words)]))
            taken = ", ".join(f"parts.{KINDS.get(word, word.capitalize())}(rest, true)" for word in kind.words)
            text = ' + "," + '.join(word_literal(word, f"s.F{place}") for place, word in enumerate(kind.words))
            self.structs.append(f"// {name} is a value of the struct {kind.text}, whose fields have no names in a table.\ntype {name} struct {{\n{declared}}}\n\n"
                                f"func take{name}(rest *parts.Text, _ bool) {name} {{\n\treturn {name}{{{taken}}}\n}}\n\n"
                                f'func (s {name}) literal() string {{\n\treturn "(" + {text} + ")"\n}}\n\n')
        return self.struct_types[kind]

    def kind_type(self, kind, field):
        return self.struct_type(kind, field) if kind.is_struct else TYPES[kind.word]

    def key_type(self, kind):
        return "string" if kind.word == "bytes" else TYPES[kind.word]

    def kind_value(self, kind, field, is_key=False):
        """The function that takes a value off a spelling."""
        if kind.is_struct:
            return f"take{self.struct_type(kind, field)}"
        word = "string" if is_key and kind.word == "bytes" else kind.word
        return f"parts.{KINDS.get(word, word.capitalize())}"

    def type_of(self, shape, field):
        """The type of a value."""
        if shape.word in ("scalar", "greatest"):
            return "*" + self.kind_type(shape.kind, field)
        if shape.word == "set":
            return "[]" + self.kind_type(shape.kind, field)
        if shape.word == "map":
            return f"map[{self.key_type(shape.key)}]{self.type_of(shape.value, field)}"
        return {"taint": "bool", "counter": "parts.Counts", "bag": self.bag_types.get(shape)}[shape.word]

    def tell(self, shape, field):
        """The function that reads a value from a part."""
        if shape.word == "map":
            return f"parts.Map({self.kind_value(shape.key, field, True)}, {self.tell(shape.value, field)})"
        if shape.word == "bag":
            return f"tell{self.bag_types[shape]}"
        name = {"scalar": "Least"}.get(shape.word, shape.word.capitalize())
        return f"parts.{name}" + (f"({self.kind_value(shape.kind, field)})" if shape.kind else "")

    def bag(self, field, shape):
        """The struct of a bag inside a map."""
        self.bag_types[shape] = name = self.names.take(camel(field.names), field.path)
        names = Names(set())
        for inner in shape.fields:
            self.field_names[inner] = names.take(camel([inner.name]), inner.path)
        fields = [(self.field_names[inner], inner) for inner in shape.fields]
        rows = [(each, self.type_of(inner.shape, inner), f"// {inner.name}: {inner.shape.text}") for each, inner in fields]
        declared = "".join(f"\t{line}\n" for line in aligned(rows))
        rows = [(f"{each}:", f"{self.tell(inner.shape, inner)}(p.Field({inner.number})),") for each, inner in fields]
        made = "".join(f"\t\t{line}\n" for line in aligned(rows))
        members = f" {{\n{declared}}}" if fields else "{}"
        return (f"// {name} is what is said of a bag inside {field.path}.\ntype {name} struct{members}\n\n"
                f"func tell{name}(p parts.Part) {name} {{\n\treturn {name}{{{made and chr(10) + made + chr(9)}}}\n}}\n\n")

    def readers(self):
        names = Names(set())
        for place, slot in enumerate(self.table.slots):
            name = self.reader_names[slot] = names.take(camel(slot.names), slot.path)
            yield (f"// {name} reads {slot.path}: {slot.shape.text}. The error is a terncommode.IllTyped.\n"
                   f"func (r Reader) {name}() (terncommode.Field[{self.type_of(slot.shape, slot)}], error) {{\n"
                   f"\treturn parts.Read(r.slots, {place}, {len(slot.names)}, {self.tell(slot.shape, slot)})\n}}\n\n")

    def writers(self):
        for write, name in named_writes(self.table, Names({"List"}), camel):
            self.writer_names[write.names] = name
            yield self.writer(name, write)

    def writer(self, name, write):
        keys = [f"key{place or ''}" for place in range(len(write.keys))]
        arguments = [f"{key} {TYPES[kind.word]}" for key, kind in zip(keys, write.keys)]
        pieces = [quoted(part) if isinstance(part, str) else word_literal(write.keys[part[1]].word, keys[part[1]]) for part in text_parts(write)]
        if write.shape.word == "counter":
            arguments += ["writer []byte", "count uint64"]
            pieces += ["terncommode.Hex(writer)", '":"', "strconv.FormatUint(count, 10)"]
        elif write.shape.word == "taint":
            pieces.append('"on"')
        else:
            arguments.append(f"value {self.kind_type(write.shape.kind, write.slot)}")
            pieces.append("value.literal()" if write.shape.kind.is_struct else word_literal(write.shape.kind.word, "value"))
        return (f"// {name} writes to {write.slot.path}: {write.slot.shape.text}.\nfunc (w *Writes) {name}({', '.join(arguments)}) *Writes {{\n"
                f"\treturn w.add(\"{write.slot.path}\", {'+'.join(pieces)})\n}}\n\n")

    def excerpts(self):
        for slot in self.table.slots:
            name = self.names.take("Only" + camel(slot.names), slot.path)
            yield f"// {name} is the excerpt with {slot.path} alone.\nconst {name} = {literal(self.table.excerpt(slot))}\n\n"

    def code(self):
        """The text of the package's file."""
        excerpts = "".join(self.excerpts())
        bag_structs = "".join(self.bag(field, shape) for slot in self.table.slots for field, shape in bags(slot))
        readers, writers = "".join(self.readers()), "".join(self.writers())
        strconv = '\t"strconv"\n\n' if "strconv." in "".join(self.structs) + writers else ""
        return f"""// Code generated by tools/accessors go {self.package}. DO NOT EDIT.

// Package {self.package} has the fields of a bag, each with its type.
package {self.package}

import (
{strconv}	"terncommode"
	"terncommode/parts"
)

// Table is the text of the table.
const Table = {literal(self.table.text)}

var bag = terncommode.MustBag(Table)

// Bag is the bag of the table.
func Bag() terncommode.Bag {{
	return bag
}}

{excerpts}{"".join(self.structs)}{bag_structs}// A Reader has what a context says of each field.
type Reader struct {{
	slots parts.Slots
}}

// Read finds all fields by one pass over a context.
func Read(c terncommode.Context) Reader {{
	return Reader{{parts.Of(bag, c)}}
}}

{readers}// Writes are what a service writes. The zero value is no write.
type Writes struct {{
	list []terncommode.Write
}}

// List is the writes, as an update takes them.
func (w *Writes) List() []terncommode.Write {{
	return w.list
}}

func (w *Writes) add(path, text string) *Writes {{
	w.list = append(w.list, terncommode.Set(path, text))
	return w
}}

{writers}""".rstrip("\n") + "\n"


def code(name, table):
    """The text of a package's only file."""
    return Go(name, table).code()
