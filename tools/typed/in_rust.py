"""Typed accessors in Rust."""
from model import Names, Refused, bags, camel, joined, named_writes, refuse_taken, text_parts

KEYWORDS = set("""as async await break const continue dyn else enum extern false fn for if impl in let loop match mod move mut pub ref return static
struct trait true type unsafe use where while abstract become box do final gen macro override priv try typeof unsized virtual yield""".split())
NEVER_RAW = {"self", "super", "crate", "Self", "_"}
# The types and traits that the code names, or whose methods it calls.
USED = set("BTreeMap BTreeSet Context Default Error Field Option Result Self String ToString Vec Writes".split())
TYPES = {"bool": "bool", "int32": "i32", "int64": "i64", "sint32": "i32", "sint64": "i64", "uint32": "u32", "uint64": "u64", "fixed32": "u32", "fixed64": "u64",
         "sfixed32": "i32", "sfixed64": "i64", "string": "String", "bytes": "Vec<u8>"}
KINDS = {"sint32": "Int32", "sint64": "Int64", "string": "Text", "bytes": "Octets"}
ARITY = 12
# Before each item, and not once for all, so that the code can be included in a module of any crate.
ALLOW = "#[allow(clippy::all, clippy::pedantic, dead_code, non_snake_case, non_camel_case_types, non_upper_case_globals)]\n"


def raw(name):
    """The name, where it is a word of the language as it may stand as a name."""
    return f"r#{name}" if name in KEYWORDS else name


def literal(text):
    """The literal of an ASCII text, a line each."""
    return '"' + text.replace("\\", "\\\\").replace('"', '\\"').replace("\n", "\\n\\\n     ").removesuffix("\\\n     ") + '"'


def kind_type(kind):
    if not kind.is_struct:
        return TYPES[kind.word]
    return "(" + ", ".join(TYPES[word] for word in kind.words) + ("," if len(kind.words) == 1 else "") + ")"


def kind_marker(kind):
    markers = [f"parts::{KINDS.get(word, word.capitalize())}" for word in kind.words]
    if len(markers) > ARITY:
        raise Refused(f"a struct of {len(markers)} fields: tuples of Rust have at most {ARITY} in this code")
    return "(" + ", ".join(markers) + ("," if len(markers) == 1 else "") + ")" if kind.is_struct else markers[0]


def kind_argument(kind):
    """The type of an argument that is written."""
    if kind.is_struct:
        return "&" + kind_type(kind)
    return {"string": "&str", "bytes": "&[u8]"}.get(kind.word, TYPES[kind.word])


def kind_literal(kind, value):
    """The expression of a value's literal."""
    if kind.is_struct:
        fields = ", ".join(word_literal(word, f"{value}.{place}") for place, word in enumerate(kind.words))
        return f'format!("({",".join(["{}"] * len(kind.words))})", {fields})'
    return word_literal(kind.word, value)


def word_literal(word, value):
    return {"string": f"quote({'&' if '.' in value else ''}{value})", "bytes": f"parts::hex({'&' if '.' in value else ''}{value})"}.get(word, f"{value}.to_string()")


class Rust:
    """The code of one table."""

    def __init__(self, name, table):
        self.name, self.table = camel([name]), table
        refuse_taken(self.name, self.name in USED, "struct")
        self.types = Names(USED | {self.name, self.name + "Writes"})
        self.bag_types = {}
        self.field_names, self.reader_names, self.writer_names = {}, {}, {}

    def type_of(self, shape):
        """The type of a value."""
        if shape.word in ("scalar", "greatest"):
            return f"Option<{kind_type(shape.kind)}>"
        if shape.word == "set":
            return f"BTreeSet<{kind_type(shape.kind)}>"
        if shape.word == "map":
            return f"BTreeMap<{kind_type(shape.key)}, {self.type_of(shape.value)}>"
        return {"taint": "bool", "counter": "BTreeMap<Vec<u8>, u64>", "bag": self.bag_types.get(shape)}[shape.word]

    def tell(self, shape):
        """The function that reads a value from a part."""
        if shape.word == "map":
            return f"|part| parts::map::<{kind_marker(shape.key)}, _>(part, {self.tell(shape.value)})"
        if shape.word == "bag":
            return f"{self.bag_types[shape]}::tell"
        name = {"scalar": "least"}.get(shape.word, shape.word)
        return f"parts::{name}" + (f"::<{kind_marker(shape.kind)}>" if shape.kind else "")

    def told(self, shape, part):
        """The expression of the value that a part says."""
        tell = self.tell(shape)
        return tell.removeprefix("|part| ").replace("(part, ", f"({part}, ", 1) if tell.startswith("|part| ") else f"{tell}({part})"

    def bag(self, field, shape):
        """The struct of a bag inside a map."""
        self.bag_types[shape] = name = self.types.take(camel([self.name, *field.names]), field.path)
        names = Names(NEVER_RAW | {"tell"})
        for inner in shape.fields:
            self.field_names[inner] = raw(names.take(inner.name, inner.path))
        fields = [(self.field_names[inner], inner) for inner in shape.fields]
        declared = "".join(f"    /// `{inner.name}`: {inner.shape.text}.\n    pub {each}: {self.type_of(inner.shape)},\n" for each, inner in fields)
        made = "".join(f"            {each}: {self.told(inner.shape, f'part.field({inner.number})')}?,\n" for each, inner in fields)
        part = "part" if fields else "_part"
        return (f"/// What is said of a bag inside `{field.path}`.\n{ALLOW}#[derive(Clone, Debug, PartialEq, Eq)]\npub struct {name} {{\n{declared}}}\n\n"
                f"{ALLOW}impl {name} {{\n    fn tell({part}: parts::Part) -> Option<Self> {{\n        Some({name} {{\n{made}        }})\n    }}\n}}\n\n")

    def readers(self):
        names = Names(NEVER_RAW | {"of"})
        for place, slot in enumerate(self.table.slots):
            name = self.reader_names[slot] = raw(names.take(joined(slot.names), slot.path))
            yield (f"    /// `{slot.path}`: {slot.shape.text}.\n    ///\n    /// # Errors\n    ///\n    /// [`Error::IllTyped`] where an atom of it isn't spelled so.\n"
                   f"    pub fn {name}(&self) -> Result<Field<{self.type_of(slot.shape)}>, Error> {{\n"
                   f"        self.slots.read({place}, {len(slot.names)}, {self.tell(slot.shape)})\n    }}\n")

    def writers(self):
        for write, name in named_writes(self.table, Names({"new", "writes"}), joined):
            self.writer_names[write.names] = name
            yield self.writer(name, write)

    def writer(self, name, write):
        keys = [f"key{place or ''}" for place in range(len(write.keys))]
        arguments = [f"{key}: {kind_argument(kind)}" for key, kind in zip(keys, write.keys)]
        pieces = [f'"{part}"' if isinstance(part, str) else kind_literal(write.keys[part[1]], keys[part[1]]) for part in text_parts(write)]
        if write.shape.word == "counter":
            arguments += ["writer: &[u8]", "count: u64"]
            pieces += ["parts::hex(writer)", '":"', "count.to_string()"]
        elif write.shape.word == "taint":
            pieces.append('"on"')
        else:
            arguments.append(f"value: {kind_argument(write.shape.kind)}")
            pieces.append(kind_literal(write.shape.kind, "value"))
        text = pieces[0] if len(pieces) == 1 else f'[{", ".join(piece if piece.startswith(chr(34)) else "&" + piece for piece in pieces)}].concat()'
        signature = ", ".join(["self", *arguments])
        return (f"    /// A write to `{write.slot.path}`: {write.slot.shape.text}.\n    #[must_use]\n    pub fn {name}({signature}) -> Self {{\n"
                f"        {self.name}Writes(self.0.set(\"{write.slot.path}\", {text}))\n    }}\n")

    def excerpts(self):
        names = Names(NEVER_RAW)
        for slot in self.table.slots:
            name = raw(names.take(joined(slot.names), slot.path))
            yield f"    /// `{slot.path}` alone.\n    pub const {name}: &str = {literal(self.table.excerpt(slot))};\n"

    def code(self):
        """The text of the module."""
        structs = "".join(self.bag(field, shape) for slot in self.table.slots for field, shape in bags(slot))
        name = self.name
        return f"""// The fields of the bag {name}, each with its type: made from its table by `tools/accessors rust {name}`. Don't change it, make it again.

#[allow(unused_imports)]
use std::collections::{{BTreeMap, BTreeSet}};
#[allow(unused_imports)]
use terncommode::{{parts, quote, Context, Error, Field, Writes}};

/// The text of the table.
{ALLOW}pub const TABLE: &str = {literal(self.table.text)};

/// Excerpts of the table with one slot each, for who isn't to be refused for what stands in others.
{ALLOW}pub mod only {{
{"".join(self.excerpts())}}}

{structs}/// What a context says of each field.
{ALLOW}#[derive(Clone, Debug)]
pub struct {name}<'a> {{
    slots: parts::Slots<'a>,
}}

{ALLOW}impl<'a> {name}<'a> {{
    /// Finds all fields by one pass over the context.
    #[must_use]
    pub fn of(context: &'a Context) -> Self {{
        {name} {{ slots: parts::Slots::of(TABLE, {len(self.table.slots)}, context) }}
    }}

{chr(10).join(self.readers())}}}

/// What a service writes.
{ALLOW}#[derive(Clone, Debug, Default, PartialEq, Eq)]
pub struct {name}Writes(Writes);

{ALLOW}impl {name}Writes {{
    /// No write.
    #[must_use]
    pub fn new() -> Self {{
        Self::default()
    }}

    /// The writes, as an update takes them.
    #[must_use]
    pub fn writes(&self) -> &Writes {{
        &self.0
    }}

{chr(10).join(self.writers())}}}
"""


def code(name, table):
    """The text of a module."""
    return Rust(name, table).code()
