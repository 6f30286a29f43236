"""What the text of a table says, for the writers of code in this folder: fields, shapes, and the names that they get."""
import os
import re

HERE = os.path.dirname(os.path.abspath(__file__))
WORDS = "bool int32 int64 sint32 sint64 uint32 uint64 fixed32 fixed64 sfixed32 sfixed64 string bytes".split()
RESERVED = set(WORDS) | set("float double taint counter import bag struct set greatest map".split())
HEAD = "baggage table 1"
NUMBER_MAX, MAPS_MAX, LEVELS, FIELDS_MAX = 65_535, 32, 16, 16_384
# The faults of a line, in the words of docs/FORMATS.md.
FAULTS = {"Head": f"the first line has to be `{HEAD}`", "Form": "no line of a field has this form, or its line feed is missing",
          "Depth": "the lines before it leave no such depth",
          "Order": "the number isn't greater than that of the field before in the same bag", "DuplicateField": "an earlier field of the same bag has the name",
          "TooDeep": f"it needs more than {LEVELS} levels of headers", "TooManySlots": f"{FIELDS_MAX} fields come before it"}
# What the headers of C declare that generated code includes, or that compilers define.
NAMES_OF_C = set("""EOF FILE NULL abort abs alloca assert atexit atof atoi atol bsearch calloc clock ctime difftime div errno exit fclose fflush fopen fread
free fseek ftell fwrite getc getchar getenv gets gmtime index labs ldiv linux localtime main malloc memchr memcmp memcpy memmove memset mktime offsetof
perror printf putc putchar puts qsort raise rand random realloc remove rename rewind rindex scanf select setbuf size_t sprintf srand sscanf stderr stdin
stdout strcat strchr strcmp strcoll strcpy strcspn strerror strftime strlen strncat strncmp strncpy strpbrk strrchr strspn strstr strtod strtok strtol
strtoul strxfrm system time tmpfile tmpnam ungetc unix wchar_t ptrdiff_t max_align_t intmax_t uintmax_t intptr_t uintptr_t""".split())
NAMES_OF_C |= {f"{sign}int{speed}{size}_t" for sign in ("", "u") for speed in ("", "_least", "_fast") for size in (8, 16, 32, 64)}
_NAME = r"[A-Za-z_][A-Za-z0-9_]*"
_NUMBER = r"0|[1-9][0-9]*"
_LINE = re.compile(rf"({_NUMBER}) ({_NUMBER}) ({_NAME}) (.+)")
SHOWN_MAX = 200
_DIGITS = 9  # of a number, with which it is above all limits
_KIND = re.compile(rf"(?:{'|'.join(WORDS)})|\((?:{'|'.join(WORDS)})(?:,(?:{'|'.join(WORDS)}))*\)")


class Refused(Exception):
    """Why no code is written."""


def refuse_taken(name, is_taken, what):
    """Refuses the name of a thing where something else has it."""
    if is_taken:
        raise Refused(f"no {what} can have the name {name}")


def is_of_library(name):
    """Whether the name may be one of baggage.h and of the code in parts.h."""
    return name == "baggage" or name.startswith("baggage_")


class Kind:
    """What a scalar is: one word, or the words of a struct."""

    def __init__(self, text):
        self.text = text
        self.words = text.strip("()").split(",")
        self.is_struct = text.startswith("(")
        self.word = None if self.is_struct else text


class Shape:
    """What a field holds. `word` is one of taint, scalar, greatest, set, counter, map and bag."""

    def __init__(self, word, kind=None, key=None, value=None):
        self.word, self.kind, self.key, self.value = word, kind, key, value
        self.fields = []

    @property
    def text(self):
        """The words of the table's line."""
        if self.word == "map":
            return f"map {self.key.text} {self.value.text}"
        return f"{self.word} {self.kind.text}" if self.kind else self.word

    @property
    def innermost(self):
        """What is left when maps are taken off."""
        return self.value.innermost if self.word == "map" else self

    @property
    def maps(self):
        """How many maps are taken off."""
        return 1 + self.value.maps if self.word == "map" else 0


class Field:
    """A field: its number, its names from the outermost bag on, its shape, and the numbers of its line and of those of the bags around it."""

    def __init__(self, number, names, shape, line, way):
        self.number, self.names, self.shape, self.line, self.way = number, names, shape, line, way
        self.last = line

    @property
    def path(self):
        return ".".join(self.names)

    @property
    def name(self):
        return self.names[-1]


class OpenBag:
    """A bag whose fields are read: its shape, the names to it, the lines of the bags around its fields, the slot that it is in, if it is in a map, and
    the level of its fields' headers."""

    def __init__(self, shape, names, way, slot, level):
        self.shape, self.names, self.way, self.slot, self.level = shape, names, way, slot, level
        self.taken = set()

    def add(self, line, number, name, shape):
        """The next field of the bag."""
        field = Field(number, self.names + (name,), shape, line, self.way)
        self.shape.fields.append(field)
        self.taken.add(name)
        if self.slot:
            self.slot.last = line
        return field

    def below(self, field):
        """The bag that a field is, or has in its maps."""
        slot = self.slot or (field if field.shape.word == "map" else None)
        return OpenBag(field.shape.innermost, field.names, self.way + (field.line,), slot, self.level + 1 + field.shape.maps)

    def fault(self, number, name, shape):
        """The code of what keeps a field from being the next one."""
        if self.shape.fields and number <= self.shape.fields[-1].number:
            return "Order"
        if name in self.taken:
            return "DuplicateField"
        return "TooDeep" if self.level + 1 + shape.maps + (shape.innermost.word == "counter") > LEVELS else None


class Table:
    """The lines of a table and its slots, in its order. A text that is none is refused with the first bad line and its code, as the program does."""

    def __init__(self, text):
        *self.lines, unended = text.split("\n")
        self.slots = []
        lines = self.lines + [unended] * bool(unended or not self.lines)
        self._hold(0, lines[0], "Head" if lines[0] != HEAD else None if self.lines else "Form")
        open_bags = [OpenBag(Shape("bag"), (), (), None, 0)]
        for number, line in enumerate(lines[1:], 1):
            self._read(number, line, open_bags)

    @staticmethod
    def _hold(number, line, code):
        """Refuses the text for a line, where there is a code."""
        if code:
            raise Refused(f"line {number + 1} of the table, {code}: {FAULTS[code]}: {line if len(line) <= SHOWN_MAX else line[:SHOWN_MAX] + '..'}")

    def _read(self, number, line, open_bags):
        """Reads the line of a field into the open bags."""
        found = _LINE.fullmatch(line)
        shape = found and found[3] not in RESERVED and _shape(found[4].split(" "))
        is_form = shape and int(found[2][:_DIGITS]) <= NUMBER_MAX and number < len(self.lines)
        self._hold(number, line, None if is_form else "Form")
        depth = int(found[1][:_DIGITS])
        self._hold(number, line, "Depth" if depth >= len(open_bags) else None)
        del open_bags[depth + 1:]
        bag = open_bags[-1]
        self._hold(number, line, bag.fault(int(found[2]), found[3], shape) or ("TooManySlots" if number > FIELDS_MAX else None))
        field = bag.add(number, int(found[2]), found[3], shape)
        if not bag.slot and shape.word != "bag":
            self.slots.append(field)
        if shape.innermost.word == "bag":
            open_bags.append(bag.below(field))

    def excerpt(self, slot):
        """The text of the table with one slot alone."""
        kept = [0, *slot.way, *range(slot.line, slot.last + 1)]
        return "".join(self.lines[number] + "\n" for number in kept)

    def only(self, paths):
        """The table of the slots at some paths, or below them where a path is that of a bag."""
        kept = {0}
        for path in paths:
            found = [slot for slot in self.slots if slot.path == path or slot.path.startswith(path + ".")]
            if not found:
                raise Refused(f"no field has the path {path}")
            for slot in found:
                kept.update([*slot.way, *range(slot.line, slot.last + 1)])
        return Table("".join(self.lines[number] + "\n" for number in sorted(kept)))

    @property
    def text(self):
        return "".join(line + "\n" for line in self.lines)


def _kind(text):
    return Kind(text) if _KIND.fullmatch(text) else None


def _shape(words):
    if words.count("map") > MAPS_MAX:
        return None
    if words[0] == "map" and len(words) > 2 and words[1] in WORDS:
        value = _shape(words[2:])
        return value and Shape("map", key=Kind(words[1]), value=value)
    if words in (["taint"], ["counter"], ["bag"]):
        return Shape(words[0])
    if len(words) == 2 and words[0] in ("scalar", "greatest", "set"):
        kind = _kind(words[1])
        return kind and Shape(words[0], kind)
    return None


class Names:
    """The names that code gets in one place, each for one thing: what would have the name of another is refused.

    A word that the language or the code around keeps for itself gets an underscore."""

    def __init__(self, reserved):
        self.reserved, self.taken = reserved, {}

    def take(self, name, what):
        """Gives the name to a thing, which is described."""
        name = name + "_" if name in self.reserved else name
        if name in self.taken:
            raise Refused(f"{self.taken[name]} and {what} would both have the name {name}")
        self.taken[name] = what
        return name


def joined(names):
    """The name of a path in languages that write words_with_lines_between."""
    return "_".join(names)


def camel(names):
    """The name of a path in languages that write WordsWithCapitals."""
    text = "".join(word[:1].upper() + word[1:] for name in names for word in name.split("_"))
    return text if text[:1].isalpha() else "X" + text


def bags(field):
    """The bags inside the maps of a field, each with the names to it and its shape, inner ones first."""
    shape = field.shape.innermost
    if shape.word == "bag":
        for inner in shape.fields:
            yield from bags(inner)
        yield field, shape


class Write:
    """One kind of write of a slot: its verb, the names to it, the kinds of the keys on the way, and what is written at the end.

    `parts` are the pieces of the text before the value: ("key", N) for the literal of a key, and texts."""

    def __init__(self, slot, names, keys, parts, shape):
        self.slot, self.names, self.keys, self.parts, self.shape = slot, names, keys, parts, shape

    @property
    def verb(self):
        return {"taint": "mark", "set": "add", "counter": "count"}.get(self.shape.word, "set")


def writes(slot):
    """All kinds of writes of a slot."""
    yield from _writes(slot, slot.names, slot.shape, [], [])


def _writes(slot, names, shape, keys, parts):
    if shape.word == "map":
        yield from _writes(slot, names, shape.value, keys + [shape.key], parts + [("key", len(keys)), ":"])
    elif shape.word == "bag":
        for field in shape.fields:
            yield from _writes(slot, names + (field.name,), field.shape, keys, parts + [f".{field.name}="])
    else:
        yield Write(slot, names, keys, parts, shape)


def text_parts(write):
    """The pieces of a write's text before its value, with texts that stand beside one another joined."""
    joined_parts = []
    for part in write.parts:
        if isinstance(part, str) and joined_parts and isinstance(joined_parts[-1], str):
            joined_parts[-1] += part
        else:
            joined_parts.append(part)
    return joined_parts


def named_writes(table, names, name_of):
    """All kinds of writes of a table's slots, each with the name that it takes among these; name_of makes it of words."""
    for slot in table.slots:
        for write in writes(slot):
            yield write, names.take(name_of([write.verb, *write.names]), ".".join(write.names))


def parts(name):
    """The code of a file in this folder, which stands beside that of the fields."""
    with open(os.path.join(HERE, name), encoding="utf-8") as file:
        return file.read()
