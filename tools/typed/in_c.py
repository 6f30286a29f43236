"""Typed accessors in C."""
from model import NAMES_OF_C, Names, is_of_library, joined, parts, refuse_taken, text_parts, writes

KEYWORDS = set("""alignas alignof asm auto bool break case char const constexpr continue default do double else enum extern false float for goto if inline
int long nullptr register restrict return short signed sizeof static static_assert struct switch thread_local true typedef typeof typeof_unqual union
unsigned void volatile while""".split())
TYPES = {"bool": "int", "int32": "int32_t", "int64": "int64_t", "sint32": "int32_t", "sint64": "int64_t", "uint32": "uint32_t", "uint64": "uint64_t",
         "fixed32": "uint32_t", "fixed64": "uint64_t", "sfixed32": "int32_t", "sfixed64": "int64_t", "string": "baggage_text", "bytes": "baggage_text"}
TAKES = {"sint32": "int32", "sint64": "int64", "string": "bytes"}


def literal(text):
    """The literal of an ASCII text, a line each."""
    lines = text.split("\n")[:-1]
    return "\n    ".join('"' + line.replace("\\", "\\\\").replace('"', '\\"') + '\\n"' for line in lines)


def put(word, value):
    """The statement that writes a literal."""
    name = word if word in ("bool", "string", "bytes") else "signed" if TYPES[word].startswith("int") else "unsigned"
    return f"baggage_put_{name}(lines, {value});"


def value_names(names, shape):
    """The names of the values of a map, of which those of a bag have the map's own."""
    return names if shape.value.word == "bag" else names[:-1] + (names[-1] + "_value",)


class C:
    """The code of one table."""

    def __init__(self, name, table):
        refuse_taken(name, name in KEYWORDS | NAMES_OF_C or is_of_library(name), "type")
        self.name, self.table = name, table
        self.names = Names({f"{name}_table", f"{name}_find"})
        self.struct_types, self.functions = {}, []

    def function(self, about, signature, *statements):
        body = "".join(f"    {statement}\n" for statement in statements)
        self.functions.append(f"/* {about} */\nstatic inline {signature} {{\n{body}}}\n\n")

    def named(self, verb, names, what):
        return self.names.take(f"{self.name}_{verb}_{joined(names)}", what)

    def struct_type(self, kind, names):
        """The type of the structs of a kind, which is declared where it is first needed."""
        if kind.text not in self.struct_types:
            path = ".".join(names)
            name = self.struct_types[kind.text] = self.named("struct", names, f"the struct {path}")
            members = "".join(f"    {TYPES[word]} f{place};\n" for place, word in enumerate(kind.words))
            self.functions.append(f"/* A value of the struct {kind.text}, whose fields have no names in a table. */\ntypedef struct {name} {{\n{members}}} {name};\n\n")
            take = self.names.take(f"{name}_take", f"what takes the struct {path} off its spelling")
            self.function("Takes such a value off its spelling.", f"{name} {take}(baggage_text *rest)", f"{name} value;",
                          *(f"value.f{place} = baggage_take_{TAKES.get(word, word)}(rest, 1);" for place, word in enumerate(kind.words)), "return value;")
        return self.struct_types[kind.text]

    def kind_type(self, kind, names):
        return self.struct_type(kind, names) if kind.is_struct else TYPES[kind.word]

    def taken(self, kind, names):
        """The expression that takes a value off the payload."""
        if kind.is_struct:
            return f"{self.struct_type(kind, names)}_take(&payload)"
        return f"baggage_take_{TAKES.get(kind.word, kind.word)}(&payload, 0)"

    def readers(self, names, shape, what):
        """The functions that read the part of a shape, which is described."""
        about = f"{what}, {shape.text}"
        if shape.word == "taint":
            self.function(f"{about}: whether it is on.", f"int {self.named('is', names, what)}(baggage_part part)", "return baggage_is_on(part);")
        elif shape.word in ("scalar", "greatest"):
            least = "least" if shape.word == "scalar" else "greatest"
            kind, taken = self.kind_type(shape.kind, names), self.taken(shape.kind, names)
            self.function(f"{about}: 0 where it is absent, and then `value` stays as it was.",
                          f"int {self.named('get', names, what)}(baggage_part part, {kind} *value)", "baggage_text payload;",
                          f"if (!baggage_{least}_of(part, &payload))", "    return 0;", f"*value = {taken};", "return 1;")
        elif shape.word == "set":
            kind, taken = self.kind_type(shape.kind, names), self.taken(shape.kind, names)
            self.function(f"{about}: the next element, which is taken off; 0 where there is none.",
                          f"int {self.named('next', names, what)}(baggage_part *rest, {kind} *element)", "baggage_text payload;",
                          "if (!baggage_next_datum(rest, &payload))", "    return 0;", f"*element = {taken};", "return 1;")
        elif shape.word == "counter":
            self.function(f"{about}: the next writer and its count, which are taken off; 0 where there is none.",
                          f"int {self.named('next', names, what)}(baggage_part *rest, baggage_text *writer, uint64_t *count)",
                          "return baggage_next_count(rest, writer, count);")
            self.function(f"{about}: the sum of all counts.", f"baggage_total {self.named('total', names, what)}(baggage_part part)", "return baggage_total_of(part);")
        elif shape.word == "map":
            self.function(f"{about}: the next key and the part of its value, which are taken off; 0 where there is none.",
                          f"int {self.named('next', names, what)}(baggage_part *rest, {TYPES[shape.key.word]} *key, baggage_part *value)", "baggage_text payload;",
                          "if (!baggage_next_key(rest, &payload, value))", "    return 0;", f"*key = {self.taken(shape.key, names)};", "return 1;")
            self.readers(value_names(names, shape), shape.value, f"a value of {what}")
        else:
            for field in shape.fields:
                inner = names + (field.name,)
                self.function(f"The part of `{field.name}`, {field.shape.text}, in that of {what}.",
                              f"baggage_part {self.named('at', inner, field.path)}(baggage_part value)", f"return baggage_field_of(value, {field.number});")
                self.readers(inner, field.shape, f"`{field.path}`")

    def slot(self, place, slot):
        path, what = f"`{slot.path}`, {slot.shape.text}", slot.path
        self.function(f"{path}: the part of it that a context has, empty where it is absent or ill typed.",
                      f"baggage_part {self.named('at', slot.names, what)}(const {self.name} *found)",
                      f"return baggage_part_at(found->context, found->form, &found->places[{place}], {len(slot.names)});")
        self.function(f"{path}: whether what is read of it is all that was said, or whether it is ill typed.",
                      f"enum baggage_state {self.named('state', slot.names, what)}(const {self.name} *found)",
                      f"return (enum baggage_state)found->places[{place}].state;")
        self.readers(slot.names, slot.shape, f"`{slot.path}`")

    def writer(self, write):
        keys = [f"key{place or ''}" for place in range(len(write.keys))]
        arguments = ["baggage_lines *lines"] + [f"{TYPES[kind.word]} {key}" for key, kind in zip(keys, write.keys)]
        pieces = [part if isinstance(part, str) else put(write.keys[part[1]].word, keys[part[1]]) for part in [f"{write.slot.path} "] + text_parts(write)]
        statements = [piece if piece.startswith("baggage_put") and piece.endswith(";") else f'baggage_put_text(lines, "{piece}");' for piece in pieces]
        if write.shape.word == "counter":
            arguments += ["baggage_text writer", "uint64_t count"]
            statements += ["baggage_put_bytes(lines, writer);", 'baggage_put_text(lines, ":");', "baggage_put_unsigned(lines, count);"]
        elif write.shape.word == "taint":
            statements.append('baggage_put_text(lines, "on");')
        else:
            arguments.append(f"{self.kind_type(write.shape.kind, write.names)} value")
            statements += self.value_puts(write.shape.kind)
        name = self.named(write.verb, write.names, ".".join(write.names))
        self.function(f"Adds the line of a write to `{write.slot.path}`, {write.slot.shape.text}.", f"void {name}({', '.join(arguments)})", *statements,
                      'baggage_put_text(lines, "\\n");')

    @staticmethod
    def value_puts(kind):
        if not kind.is_struct:
            return [put(kind.word, "value")]
        statements = []
        for place, word in enumerate(kind.words):
            statements += [f'baggage_put_text(lines, "{"," if place else "("}");', put(word, f"value.f{place}")]
        return statements + ['baggage_put_text(lines, ")");']

    def excerpts(self):
        for slot in self.table.slots:
            name = self.named("only", slot.names, slot.path)
            yield f"/* The excerpt with `{slot.path}` alone. */\nstatic const char {name}[] =\n    {literal(self.table.excerpt(slot))};\n\n"

    def code(self):
        """The text of the header."""
        excerpts, slots, name = "".join(self.excerpts()), len(self.table.slots), self.name
        for place, slot in enumerate(self.table.slots):
            self.slot(place, slot)
        for slot in self.table.slots:
            for write in writes(slot):
                self.writer(write)
        guard = f"BAGGAGE_ACCESSORS_{name}_H"
        return f"""/* The fields of the bag {name}, each with its type: made from its table by `tools/accessors c {name}`. Don't change it, make it again.
 *
 * {name}_find finds all slots in a context by one pass; {name}_state_.. says whether a slot is exact, {name}_at_.. where its atoms are, and the
 * functions named {name}_get_.., {name}_is_.. and {name}_next_.. read them. {name}_set_.., {name}_add_.., {name}_count_.. and {name}_mark_.. add lines for
 * baggage_update. Strings and bytes that are read stand in the context itself. */
#ifndef {guard}
#define {guard}

#include "baggage.h"

{parts("parts.h")}
/* The text of the table, of which the null byte at its end is no part. */
static const char {name}_table[] =
    {literal(self.table.text)};

{excerpts}/* Where the slots of the table stand in a context. */
typedef struct {name} {{
    const uint8_t *context;
    uint32_t form;
    baggage_place places[{max(slots, 1)}];
}} {name};

/* Finds all slots in a context, which has to stay as it is while they are read. */
BAGGAGE_NODISCARD static inline baggage_answer {name}_find({name} *found, const uint8_t *context, size_t context_len) {{
    baggage_answer answer = baggage_places({name}_table, sizeof {name}_table - 1, context, context_len, found->places, {slots});
    found->context = context;
    found->form = answer.code;
    return answer;
}}

{"".join(self.functions)}#endif
"""


def code(name, table):
    """The text of a header."""
    return C(name, table).code()
