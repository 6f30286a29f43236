"""Typed accessors in C++."""
from model import NAMES_OF_C, Names, bags, is_of_library, joined, named_writes, parts, refuse_taken, text_parts

KEYWORDS = set("""alignas alignof and and_eq asm auto bitand bitor bool break case catch char char8_t char16_t char32_t class compl concept const
consteval constexpr constinit const_cast continue co_await co_return co_yield decltype default delete do double dynamic_cast else enum explicit export
extern false float for friend goto if inline int long mutable namespace new noexcept not not_eq nullptr operator or or_eq private protected public
register reinterpret_cast requires return short signed sizeof static static_assert static_cast struct switch template this thread_local throw true
try typedef typeid typename typeof union unsigned using virtual void volatile wchar_t while xor xor_eq""".split())
# What compilers and the headers define as macros.
MACROS = set("EOF NULL alloca assert errno linux offsetof unix".split())
KEPT = KEYWORDS | MACROS | {"std", "terncommode"}
TYPES = {"bool": "bool", "int32": "std::int32_t", "int64": "std::int64_t", "sint32": "std::int32_t", "sint64": "std::int64_t", "uint32": "std::uint32_t",
         "uint64": "std::uint64_t", "fixed32": "std::uint32_t", "fixed64": "std::uint64_t", "sfixed32": "std::int32_t", "sfixed64": "std::int64_t",
         "string": "std::string", "bytes": "terncommode::parts::octets"}
KINDS = {"bool": "boolean", "sint32": "int32", "sint64": "int64", "string": "text"}
P = "terncommode::parts::"


def literal(text):
    """The literal of an ASCII text, a line each."""
    lines = text.split("\n")[:-1]
    return "\n    ".join('"' + line.replace("\\", "\\\\").replace('"', '\\"') + '\\n"' for line in lines)


def kind_type(kind):
    return f"std::tuple<{', '.join(TYPES[word] for word in kind.words)}>" if kind.is_struct else TYPES[kind.word]


def kind_name(kind):
    names = [P + KINDS.get(word, word) for word in kind.words]
    return f"{P}structure<{', '.join(names)}>" if kind.is_struct else names[0]


def argument(kind):
    if kind.is_struct or kind.word == "bytes":
        return f"const {kind_type(kind)} &"
    return "std::string_view " if kind.word == "string" else TYPES[kind.word] + " "


class Cpp:
    """The code of one table."""

    def __init__(self, name, table):
        refuse_taken(name, name in KEPT | NAMES_OF_C or is_of_library(name), "namespace")
        self.name, self.table = name, table
        self.types = Names(KEPT | {"table", "only", "reader", "writer", "tell", "type"})
        self.bag_types = {}
        self.field_names, self.reader_names, self.writer_names = {}, {}, {}

    def type_of(self, shape):
        """The type of a value."""
        if shape.word in ("scalar", "greatest"):
            return f"std::optional<{kind_type(shape.kind)}>"
        if shape.word == "set":
            return f"std::set<{kind_type(shape.kind)}>"
        if shape.word == "map":
            return f"std::map<{kind_type(shape.key)}, {self.type_of(shape.value)}>"
        return {"taint": "bool", "counter": "std::map<std::string, std::uint64_t>", "bag": self.bag_type(shape)}[shape.word]

    def bag_type(self, shape):
        """The type of a bag inside a map, from outside, so that no field hides it."""
        return f"::{self.name}::{self.bag_types.get(shape)}"

    def shape_name(self, shape):
        """The type that tells a value."""
        if shape.word == "map":
            return f"{P}map<{kind_name(shape.key)}, {self.shape_name(shape.value)}>"
        if shape.word == "bag":
            return self.bag_type(shape)
        return P + shape.word + (f"<{kind_name(shape.kind)}>" if shape.kind else "")

    def bag(self, field, shape):
        """The struct of a bag inside a map, which is a shape of its own."""
        self.bag_types[shape] = name = self.types.take(joined(field.names), field.path)
        names = Names(KEPT | {"type", "tell", name})
        for inner in shape.fields:
            self.field_names[inner] = names.take(inner.name, inner.path)
        fields = [(self.field_names[inner], inner) for inner in shape.fields]
        declared = "".join(f"    {self.type_of(inner.shape)} {each}{{}}; ///< `{inner.name}`: {inner.shape.text}\n" for each, inner in fields)
        told = "".join(f"        value_.{each} = {self.shape_name(inner.shape)}::tell(part_.field({inner.number}));\n" for each, inner in fields)
        part = "part_" if fields else ""
        return (f"/// What is said of a bag inside `{field.path}`.\nstruct {name} {{\n{declared}\n    using type = {name};\n"
                f"    static type tell(const {P}part &{part}) {{\n        type value_;\n{told}        return value_;\n    }}\n}};\n\n")

    def readers(self):
        names = Names(KEPT | {"reader", "slots_"})
        for place, slot in enumerate(self.table.slots):
            name = self.reader_names[slot] = names.take(joined(slot.names), slot.path)
            yield (f"    /// `{slot.path}`: {slot.shape.text}.\n"
                   f"    [[nodiscard]] terncommode::result<terncommode::field<{self.type_of(slot.shape)}>, terncommode::refusal> {name}() const {{\n"
                   f"        return slots_.read<{self.shape_name(slot.shape)}>({place}, {len(slot.names)});\n    }}\n")

    def writers(self):
        for write, name in named_writes(self.table, Names({"writes_", "writes"}), joined):
            self.writer_names[write.names] = name
            yield self.writer(name, write)

    def writer(self, name, write):
        keys = [f"key{place or ''}" for place in range(len(write.keys))]
        arguments = [argument(kind) + key for key, kind in zip(keys, write.keys)]
        pieces = [f'"{part}"' if isinstance(part, str) else f"{P}literal({keys[part[1]]})" for part in text_parts(write)]
        if write.shape.word == "counter":
            arguments += ["std::string_view from", "std::uint64_t count"]
            pieces += [f"{P}writer_literal(from)", '":"', f"{P}literal(count)"]
        elif write.shape.word == "taint":
            pieces.append('"on"')
        else:
            arguments.append(argument(write.shape.kind) + "value")
            pieces.append(f"{P}literal(value)")
        text = pieces[0] if len(pieces) == 1 else " + ".join(["std::string()", *pieces])
        return (f"    /// Writes to `{write.slot.path}`: {write.slot.shape.text}.\n    writer &{name}({', '.join(arguments)}) {{\n"
                f'        writes_.set("{write.slot.path}", {text});\n        return *this;\n    }}\n')

    def excerpts(self):
        names = Names(KEPT)
        for slot in self.table.slots:
            name = names.take(joined(slot.names), slot.path)
            yield f"/// `{slot.path}` alone.\ninline constexpr std::string_view {name} =\n    {literal(self.table.excerpt(slot))};\n"

    def code(self):
        """The text of the header."""
        structs = "".join(self.bag(field, shape) for slot in self.table.slots for field, shape in bags(slot))
        name, guard = self.name, f"TERNCOMMODE_ACCESSORS_{self.name}_HPP"
        return f"""// The fields of the bag {name}, each with its type: made from its table by `tools/accessors cpp {name}`. Don't change it, make it again.
#ifndef {guard}
#define {guard}

#include "baggage.hpp"

{parts("parts.hpp")}
namespace {name} {{

/// The text of the table.
inline constexpr std::string_view table =
    {literal(self.table.text)};

/// Excerpts of the table with one slot each, for who isn't to be refused for what stands in others.
namespace only {{

{"".join(self.excerpts())}
}} // namespace only

{structs}/// What a context says of each field. The context has to stay as it is while it is read.
class reader {{
public:
    /// Finds all fields by one pass over a context.
    explicit reader(const terncommode::context &context) : slots_(::{name}::table, {len(self.table.slots)}, context.view()) {{}}
    explicit reader(terncommode::context &&) = delete;

{chr(10).join(self.readers())}
private:
    terncommode::parts::slots slots_;
}};

/// What a service writes.
class writer {{
public:
    /// The writes, as an update takes them.
    [[nodiscard]] const terncommode::writes &writes() const noexcept {{ return writes_; }}

{chr(10).join(self.writers())}
private:
    terncommode::writes writes_;
}};

}} // namespace {name}

#endif
"""


def code(name, table):
    """The text of a header."""
    return Cpp(name, table).code()
