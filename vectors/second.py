#!/usr/bin/env python3
"""A second implementation of docs/FORMATS.md, written from that page, in plain and slow Python.

usage: second.py COMMAND ..        does what the program baggage does with the same arguments
       second.py --rows FILE ..    runs the rows of row files (vectors/README.md) and says which differ
       second.py --expected FILE   says what a definition has to have where it goes on with no module, and what it has

A merge is a union of sets of paths here, a reading a search among paths, a run a recursion over definitions: nothing is done as the
program does it, so where both agree, the page says enough.
"""
import base64
import json
import os
import re
import signal
import sys
import zlib

LENGTH_MAX, ATOM_MAX, LINE_MAX, INPUT_MAX, FILE_MAX = 65_535, 1_048_576, 2_097_152, 16_777_216, 1_048_576
MARK = bytes.fromhex("ffffff02")
WORDS = ("bool int32 int64 sint32 sint64 uint32 uint64 fixed32 fixed64 sfixed32 sfixed64 string bytes").split()
RESERVED = set(WORDS) | set("float double taint counter import bag struct set greatest map".split())
NAME = r"[A-Za-z_][A-Za-z0-9_]*"
PATH = rf"{NAME}(?:\.{NAME})*"
NUMBER = r"(?:0|[1-9][0-9]{0,9})"


class Refused(Exception):
    """What ends a command: its status and its line."""

    def __init__(self, status, line):
        super().__init__(status, line)
        self.status, self.line = status, line


class BytesFault(Exception):
    """What is wrong with bytes, and at which of them."""

    def __init__(self, offset, code):
        super().__init__(offset, code)
        self.offset, self.code = offset, code


class Code(Exception):
    """The code of a rule that is broken."""


# Bytes of a list

def unsigned(data, at=0):
    """The unsigned varint there and the place after it; None where it is cut, and the code LongForm raised where it isn't shortest."""
    if at >= len(data):
        return None
    follow = len(f"{data[at]:08b}".split("0")[0])
    if at + 1 + follow > len(data):
        return None
    value = int.from_bytes(bytes([data[at] & (0x7F >> follow)]) + data[at + 1:at + 1 + follow], "big")
    if follow and value < 1 << (7 * follow):
        raise Code("LongForm")
    return value, at + 1 + follow


def put_unsigned(value):
    follow = next(k for k in range(9) if value < 1 << (7 * (k + 1) if k < 8 else 64))
    ones = (0xFF00 >> follow) & 0xFF
    return (ones << 8 * follow | value).to_bytes(follow + 1, "big")


def signed(data):
    """The number that these bytes spell as a signed varint, or None."""
    if not data or len(data) > 9:
        return None
    if data[0] < 0x80:
        other = signed(bytes(255 - byte for byte in data))
        return None if other is None else -1 - other
    value = int.from_bytes(data, "big") & ((1 << (63 if len(data) == 9 else 7 * len(data) - 1)) - 1)
    return value if put_signed(value) == data else None


def put_signed(value):
    if value < 0:
        return bytes(255 - byte for byte in put_signed(-1 - value))
    if value >= 1 << 48:
        return b"\xff" + value.to_bytes(8, "big")
    follow = next(k for k in range(7) if value < 1 << (6 + 7 * k))
    bits = 8 * (follow + 1)
    return ((1 << bits) - (1 << (bits - follow - 1)) | value).to_bytes(follow + 1, "big")


def form_of(data):
    return 2 if data[:4] == MARK else 1


def length_at(form, data, at):
    """The length of the atom there, and where its bytes begin."""
    if form == 2:
        found = unsigned(data, at)
        if found is None:
            raise Code("CutLength")
        if found[0] > ATOM_MAX:
            raise Code("AtomTooLong")
        return found
    spelled = data[at:at + 3]
    count = next((k + 1 for k, byte in enumerate(spelled) if byte < 0x80), None)
    if count is None and len(spelled) < 3:
        raise Code("CutLength")
    value = sum((byte & 0x7F) << 7 * k for k, byte in enumerate(spelled[:count]))
    if count is None or value > LENGTH_MAX:
        raise Code("AtomTooLong")
    if count > 1 and spelled[count - 1] == 0:
        raise Code("LongForm")
    return value, at + count


def check_head(data):
    if form_of(data) == 2:
        if len(data) < 12:
            raise BytesFault(4, "CutLength")
        if int.from_bytes(data[4:12], "big") != len(data) - 12:
            raise BytesFault(4, "BadCount")
        return 12
    return 0


def read_list(data, check=lambda atoms, atom: None):
    """The atoms of bytes, or their first fault; check says what is wrong with an atom after those before it."""
    at, atoms = check_head(data), []
    while at < len(data):
        try:
            length, body = length_at(form_of(data), data, at)
            if body + length > len(data):
                raise Code("CutBody")
            check(atoms, data[body:body + length])
        except Code as code:
            raise BytesFault(at, str(code)) from None
        atoms.append(data[body:body + length])
        at = body + length
    return atoms


def write_list(form, atoms):
    if form == 1 and all(len(atom) <= LENGTH_MAX for atom in atoms):
        return b"".join(length_one(len(atom)) + atom for atom in atoms)
    rest = b"".join(put_unsigned(len(atom)) + atom for atom in atoms)
    return MARK + len(rest).to_bytes(8, "big") + rest


def length_one(length):
    groups = [length & 0x7F]
    while length := length >> 7:
        groups[-1] |= 0x80
        groups.append(length & 0x7F)
    return bytes(groups)


def offset_of(form, atoms, place):
    wide = form == 2 or any(len(atom) > LENGTH_MAX for atom in atoms)
    lengths = put_unsigned if wide else length_one
    return (12 if wide else 0) + sum(len(lengths(len(atom))) + len(atom) for atom in atoms[:place])


def size_of(form, atoms):
    return len(write_list(form, atoms))


def trim(form, atoms, budget):
    if size_of(form, atoms) <= budget:
        return atoms
    sizes, narrow, wide, is_wide = [], 0, 12, form == 2
    for place in range(len(atoms) + 1):
        sizes.append((wide if is_wide else narrow) + 1)
        if place < len(atoms):
            length = len(atoms[place])
            narrow += len(length_one(length)) + length
            wide += len(put_unsigned(length)) + length
            is_wide = is_wide or length > LENGTH_MAX
    return atoms[:max(place for place, size in enumerate(sizes) if size <= budget)] + [b""]


# Atoms of a context

def kind_of(atom):
    """What an atom is: its kind and, of a header, its level and its number or key."""
    if not atom:
        return ("marker",)
    if atom[0] == 0:
        return ("datum", atom[1:])
    if atom[0] < 0x80 or atom[0] % 8 > 1:
        raise Code("BadPrefix")
    if atom[0] % 8 == 1:
        return ("key", (0xF9 - atom[0]) // 8, atom[1:])
    try:
        number = unsigned(atom, 1)
    except Code:
        number = None
    if number is None or number[1] != len(atom):
        raise Code("BadIndex")
    return ("field", (0xF8 - atom[0]) // 8, number[0])


class Paths:
    """The path of each atom, one after another; the faults of atoms that aren't a context's."""

    def __init__(self):
        self.headers, self.last = (), ()

    def after(self, atom):
        kind = kind_of(atom)
        if kind[0] == "marker":
            path = self.last + (atom,)
        elif kind[0] == "datum":
            path = self.headers + (atom,)
        else:
            if kind[1] > len(self.headers):
                raise Code("LevelJump")
            path = self.headers[:kind[1]] + (atom,)
        if not path > self.last:
            raise Code("OutOfOrder")
        if kind[0] in ("field", "key"):
            self.headers = path
        self.last = path
        return path


def read_context(data):
    paths = Paths()
    return read_list(data, lambda atoms, atom: paths.after(atom) and None)


def paths_of(atoms):
    paths = Paths()
    return [paths.after(atom) for atom in atoms]


def merge(lists):
    return [path[-1] for path in sorted({path for atoms in lists for path in paths_of(atoms)})]


# Types: a kind is a word or a tuple of words; a shape is ("taint",), ("scalar", kind), ("greatest", kind), ("set", kind), ("counter",),
# ("map", word, shape) or ("bag", fields); a field is (number, name, shape).

RANGES = {"int32": (-2**31, 2**31), "int64": (-2**63, 2**63), "uint32": (0, 2**32), "uint64": (0, 2**64), "fixed32": (0, 2**32),
          "fixed64": (0, 2**64), "sfixed32": (-2**31, 2**31), "sfixed64": (-2**63, 2**63)}
RANGES.update(sint32=RANGES["int32"], sint64=RANGES["int64"])


def spell(word, value):
    if word == "bool":
        return bytes([value])
    if word in ("string", "bytes"):
        return value
    if word.startswith("sfixed"):
        return (value - RANGES[word][0]).to_bytes(int(word[-2:]) // 8, "big")
    if word.startswith("fixed"):
        return value.to_bytes(int(word[-2:]) // 8, "big")
    return put_unsigned(value) if word.startswith("uint") else put_signed(value)


def unspell(word, data):
    """The value that these bytes spell, or None."""
    if word == "bool":
        return {b"\0": False, b"\1": True}.get(data)
    if word == "bytes":
        return data
    if word == "string":
        return data if is_utf8(data) else None
    if "fixed" in word:
        return int.from_bytes(data, "big") + RANGES[word][0] if len(data) == int(word[-2:]) // 8 else None
    value = signed(data) if not word.startswith("uint") else whole_unsigned(data)
    return value if value is not None and RANGES[word][0] <= value < RANGES[word][1] else None


def whole_unsigned(data):
    try:
        found = unsigned(data)
    except Code:
        return None
    return found[0] if found and found[1] == len(data) else None


def is_utf8(data):
    try:
        data.decode()
        return True
    except UnicodeDecodeError:
        return False


def spell_kind(kind, values):
    if isinstance(kind, str):
        return spell(kind, values)
    return b"".join(spell(word, value) if word not in ("string", "bytes") else value.replace(b"\0", b"\0\xff") + b"\0\1"
                    for word, value in zip(kind, values))


def unspell_kind(kind, data):
    if isinstance(kind, str):
        return unspell(kind, data)
    values = []
    for word in kind:
        if word in ("string", "bytes"):
            found = re.match(rb"((?:[^\x00]|\x00\xff)*)\x00\x01", data, re.S)
            value, data = (found[1].replace(b"\0\xff", b"\0"), data[found.end():]) if found else (None, b"")
            value = None if value is None else unspell(word, value)
        else:
            length = spelled_length(word, data)
            value, data = unspell(word, data[:length]), data[length:]
        if value is None:
            return None
        values.append(value)
    return None if data else tuple(values)


def spelled_length(word, data):
    if word == "bool":
        return 1
    if "fixed" in word:
        return int(word[-2:]) // 8
    if not data:
        return 1
    ones = len(f"{data[0] if data[0] >= 0x80 or word.startswith('uint') else 255 - data[0]:08b}".split("0")[0])
    return ones + 1 if word.startswith("uint") else 9 if ones == 8 else max(ones, 1)


def header(level, number):
    return bytes([0xF8 - 8 * level]) + put_unsigned(number)


def keyed(level, key):
    return bytes([0xF9 - 8 * level]) + key


def slots_of(fields, names=(), path=()):
    """The slots of a bag: name path, header path and shape."""
    for number, name, shape in sorted(fields):
        below = path + (header(len(path), number),)
        if shape[0] == "bag":
            yield from slots_of(shape[1], names + (name,), below)
        else:
            yield ".".join(names + (name,)), below, shape


def misspells(fields, path):
    """Whether the last atom of a path is a datum or a key that is read and isn't spelled as its type says."""
    shape, at = ("bag", fields), 0
    for level, atom in enumerate(path):
        kind, is_last = kind_of(atom), level == len(path) - 1
        if kind[0] == "marker":
            return False
        if kind[0] == "datum":
            return is_misspelled_datum(shape, kind[1])
        if shape[0] == "bag" and kind[0] == "field":
            shape = next((field[2] for field in shape[1] if field[0] == kind[2]), None)
        elif shape[0] == "map" and kind[0] == "key":
            if unspell(shape[1], kind[2]) is None:
                return is_last
            shape = shape[2]
        elif shape[0] == "counter" and kind[0] == "key":
            shape = ("count",)
        else:
            return False
        if shape is None:
            return False
    return False


def is_misspelled_datum(shape, payload):
    if shape[0] == "taint":
        return payload != b""
    if shape[0] == "count":
        return whole_unsigned(payload) is None
    return shape[0] in ("scalar", "greatest", "set") and unspell_kind(shape[1], payload) is None


def first_ill_typed(fields, atoms):
    return next((place for place, path in enumerate(paths_of(atoms)) if misspells(fields, path)), None)


def read_slot(paths, at, shape):
    """What the paths say of the field whose header path is at."""
    below = [path for path in paths if path[:len(at)] == at and len(path) > len(at)]
    data = [kind_of(path[-1])[1] for path in below if len(path) == len(at) + 1 and path[-1][:1] == b"\0"]
    keys = [path for path in below if len(path) == len(at) + 1 and path[-1][:1] == bytes([0xF9 - 8 * len(at)])]
    if shape[0] == "taint":
        return bool(data)
    if shape[0] in ("scalar", "greatest", "set"):
        spelled = [payload for payload in data if unspell_kind(shape[1], payload) is not None]
        if shape[0] == "set":
            return frozenset(spelled)
        return (min if shape[0] == "scalar" else max)(spelled, default=None)
    if shape[0] == "counter":
        counts = {key[-1][1:]: [whole_unsigned(kind_of(path[-1])[1]) for path in below if path[:-1] == key and path[-1][:1] == b"\0"] for key in keys}
        return {writer: max((count for count in found if count is not None), default=0) for writer, found in counts.items()}
    if shape[0] == "map":
        return {key[-1][1:]: read_slot(below, key, shape[2]) for key in keys if unspell(shape[1], key[-1][1:]) is not None}
    return tuple(read_slot(below, at + (header(len(at), number),), inner) for number, _, inner in sorted(shape[1]))


def join(shape, a, b):
    if shape[0] == "taint":
        return a or b
    if shape[0] in ("scalar", "greatest"):
        return (min if shape[0] == "scalar" else max)([value for value in (a, b) if value is not None], default=None)
    if shape[0] == "set":
        return a | b
    if shape[0] == "counter":
        return {writer: max(a.get(writer, 0), b.get(writer, 0)) for writer in {**a, **b}}
    if shape[0] == "map":
        return {key: join(shape[2], a[key], b[key]) if key in a and key in b else {**a, **b}[key] for key in {**a, **b}}
    return tuple(join(inner, x, y) for (_, _, inner), x, y in zip(sorted(shape[1]), a, b))


def bottom(shape):
    return {"taint": False, "scalar": None, "greatest": None, "set": frozenset(), "counter": {}, "map": {}}.get(
        shape[0], tuple(bottom(inner) for _, _, inner in sorted(shape[1])) if shape[0] == "bag" else None)


def lay_out(shape, at, value):
    """The paths that hold a value below a header path."""
    if shape[0] == "bag":
        return [path for (number, _, inner), part in zip(sorted(shape[1]), value)
                for path in lay_out_field(inner, at + (header(len(at), number),), part)]
    if shape[0] == "taint":
        return [at + (b"\0",)] if value else []
    if shape[0] in ("scalar", "greatest"):
        return [] if value is None else [at + (b"\0" + value,)]
    if shape[0] == "set":
        return [at + (b"\0" + element,) for element in value]
    paths = []
    for key, inner in value.items():
        below = at + (keyed(len(at), key),)
        paths.append(below)
        paths += [below + (b"\0" + put_unsigned(inner),)] if shape[0] == "counter" else lay_out(shape[2], below, inner)
    return paths


def lay_out_field(shape, at, value):
    below = lay_out(shape, at, value)
    return [at] + below if below else []


def normal(slots, atoms):
    """The atoms that stay for a service that knows these slots."""
    paths = paths_of(atoms)
    kept = set(paths)
    for _, at, shape in slots:
        drop_superseded(paths, at, shape, kept)
    return [path[-1] for path in paths if path in kept]


def drop_superseded(paths, at, shape, kept):
    below = [path for path in paths if path[:len(at)] == at]
    data = [path for path in below if len(path) == len(at) + 1 and path[-1][:1] == b"\0"]
    keys = [path for path in below if len(path) == len(at) + 1 and path[-1][:1] == bytes([0xF9 - 8 * len(at)])]
    if shape[0] == "scalar":
        kept -= set(data[1:])
    elif shape[0] in ("greatest", "count"):
        kept -= set(data[:-1])
    elif shape[0] == "counter":
        for key in keys:
            drop_superseded(below, key, ("count",), kept)
    elif shape[0] == "map":
        for key in keys:
            if unspell(shape[1], key[-1][1:]) is not None:
                drop_superseded(below, key, shape[2], kept)
    elif shape[0] == "bag":
        for number, _, inner in shape[1]:
            drop_superseded(below, at + (header(len(at), number),), inner, kept)


def is_ended(paths, at):
    first = next((place for place, path in enumerate(paths) if path[-1] == b""), None)
    return first is None or any(path > at and path[:len(at)] != at for path in paths[:first])


# Texts of values

def scalar_text(word, value):
    if word == "bool":
        return b"true" if value else b"false"
    if word == "bytes":
        return b"0x" + value.hex().encode()
    if word == "string":
        return b'"' + re.sub(rb'["\\\x00-\x1f\x7f]', lambda found: b"\\" + found[0] if found[0] in b'"\\' else b"\\x%02x" % found[0][0], value) + b'"'
    return str(value).encode()


def kind_text(kind, spelled):
    values = unspell_kind(kind, spelled)
    if isinstance(kind, str):
        return scalar_text(kind, values)
    return b"(" + b",".join(map(scalar_text, kind, values)) + b")"


def value_text(shape, value):
    if shape[0] == "taint":
        return b"on" if value else b"off"
    if shape[0] in ("scalar", "greatest"):
        return b"-" if value is None else kind_text(shape[1], value)
    if shape[0] == "set":
        return b"{" + b",".join(kind_text(shape[1], element) for element in sorted(value)) + b"}"
    if shape[0] == "counter":
        return b"%d{" % sum(value.values()) + b",".join(b"0x%s:%d" % (writer.hex().encode(), value[writer]) for writer in sorted(value)) + b"}"
    if shape[0] == "map":
        return b"{" + b",".join(scalar_text(shape[1], unspell(shape[1], key)) + b":" + value_text(shape[2], value[key]) for key in sorted(value)) + b"}"
    return b"[" + b",".join(name.encode() + b"=" + value_text(inner, part) for (_, name, inner), part in zip(sorted(shape[1]), value)) + b"]"


def block_lines(fields, form, atoms):
    paths = paths_of(atoms)
    yield b"bytes " + (write_list(form, atoms).hex().encode() or b"-")
    for name, at, shape in slots_of(fields):
        yield b"%s %s %s" % (name.encode(), b"exact" if is_ended(paths, at) else b"partial", value_text(shape, read_slot(paths, at, shape)))


# Writes

class Text:
    """A text that is taken from its front."""

    def __init__(self, text):
        self.text = text

    def take(self, pattern):
        found = re.match(pattern, self.text, re.S)
        if not found:
            raise Code("BadValue")
        self.text = self.text[found.end():]
        return found


def take_literal(text, word):
    if word == "bool":
        return text.take(rb"true|false")[0] == b"true"
    if word == "bytes":
        return bytes.fromhex(text.take(rb"0x((?:[0-9a-fA-F]{2})*)")[1].decode())
    if word == "string":
        body = text.take(rb'"((?:[^"\\\x00-\x1f]|\\["\\]|\\x[0-7][0-9a-fA-F])*)"')[1]
        return re.sub(rb'\\(?:x(..)|(.))', lambda found: bytes.fromhex(found[1].decode()) if found[1] else found[2], body)
    digits = text.take(rb"-?(?:0|[1-9][0-9]*)")[0]
    low, high = RANGES[word]
    if digits == b"-0" or (digits[:1] == b"-" and low == 0) or len(digits) > 20 or not low <= int(digits) < high:
        raise Code("BadValue")
    return int(digits)


def take_kind(text, kind):
    if isinstance(kind, str):
        return spell(kind, take_literal(text, kind))
    values = []
    for place, word in enumerate(kind):
        text.take(rb"," if place else rb"\(")
        values.append(take_literal(text, word))
    text.take(rb"\)")
    return spell_kind(kind, tuple(values))


def take_write(text, shape, longest):
    def fits(spelled):
        if len(spelled) > longest:
            raise Code("BadValue")
        return spelled

    if shape[0] == "taint":
        text.take(rb"on")
        return True
    if shape[0] in ("scalar", "greatest"):
        return fits(take_kind(text, shape[1]))
    if shape[0] == "set":
        return frozenset([fits(take_kind(text, shape[1]))])
    if shape[0] == "counter":
        writer = fits(take_literal(text, "string" if text.text[:1] == b'"' else "bytes"))
        text.take(rb":")
        return {writer: take_literal(text, "uint64")}
    if shape[0] == "map":
        key = fits(spell(shape[1], take_literal(text, shape[1])))
        text.take(rb":")
        return {key: take_write(text, shape[2], longest)}
    name = text.take(rb"\.([A-Za-z_][A-Za-z0-9_]*)=")[1].decode()
    if name not in [field[1] for field in shape[1]]:
        raise Code("BadValue")
    return tuple(take_write(text, inner, longest) if field == name else bottom(inner) for _, field, inner in sorted(shape[1]))


def read_write(shape, text, form):
    text = Text(text)
    value = take_write(text, shape, 65_534 if form == 1 else 1_048_575)
    if text.text:
        raise Code("BadValue")
    return value


# The definition language

def place_of(source, at):
    return source.count(b"\n", 0, at) + 1, at - (source.rfind(b"\n", 0, at) + 1) + 1


def tokens_of(source):
    """The tokens of a source as (kind, text, place), or its first fault."""
    try:
        source.decode()
    except UnicodeDecodeError as error:
        raise Code("NotUtf8", place_of(source, error.start)) from None
    at, tokens = 0, []
    while at < len(source):
        found = re.compile(rb'(?P<blank>[ \t\r\n]+|//[^\n]*)|(?P<word>[A-Za-z_][A-Za-z0-9_]*)|(?P<number>[0-9]+)|(?P<text>"[^"\n]*")|(?P<sign>[{}<>,;=])').match(source, at)
        if source.startswith(b"/*", at):
            end = source.find(b"*/", at + 2)
            if end < 0:
                raise Code("OpenComment", place_of(source, at))
            at = end + 2
            continue
        if not found:
            raise Code("OpenString" if source[at] == 34 else "BadByte", place_of(source, at))
        if found.lastgroup == "number" and len(found[0].lstrip(b"0")) > 5 or found.lastgroup == "number" and int(found[0]) > 65_535:
            raise Code("NumberRange", place_of(source, at))
        if found.lastgroup != "blank":
            tokens.append((found.lastgroup, found[0].decode(), place_of(source, at)))
        at = found.end()
    return tokens


class Parser:
    """A module: its imports as (name, place), its bags and structs as (kind, name, place, fields); a field is (type, name, place,
    number, number's place), a type (head, place, inner types)."""

    def __init__(self, tokens):
        self.tokens, self.at = tokens, 0

    def fail(self, wanted, code="Expected"):
        last = self.tokens[min(self.at, len(self.tokens) - 1)][2] if self.tokens else (1, 1)
        raise Code(code, last, f"expected {wanted}, " + (f"and not `{self.peek()[1]}`" if self.peek()[0] else "and not the end of the file"))

    def peek(self):
        return self.tokens[self.at][:2] if self.at < len(self.tokens) else (None, None)

    def take(self, kind, text=None):
        found = self.peek()
        if found[0] != kind or text is not None and found[1] != text or kind == "word" and text is None and found[1] in RESERVED:
            self.fail(f"`{text}`" if text else {"word": "a name that isn't reserved", "text": "the name of a file between double quotes"}.get(kind, f"a {kind}"))
        self.at += 1
        return self.tokens[self.at - 1]

    def module(self):
        imports, declarations = [], []
        while self.peek() == ("word", "import"):
            self.at += 1
            _, text, place = self.take("text")
            imports.append((text[1:-1], place))
            self.take("sign", ";")
        while self.at < len(self.tokens):
            if self.peek() not in (("word", "bag"), ("word", "struct")):
                self.fail("`bag` or `struct`" if declarations else "`import`, `bag` or `struct`")
            declarations.append(self.declaration(self.peek()[1]))
        return imports, declarations

    def declaration(self, kind):
        self.at += 1
        _, name, place = self.take("word")
        self.take("sign", "{")
        fields = []
        while self.peek() != ("sign", "}"):
            kind_of_field = self.type(0, "a type or `}`")
            _, field, field_place = self.take("word")
            number = number_place = None
            if kind == "bag":
                self.take("sign", "=")
                _, number, number_place = self.take("number")
            self.take("sign", ";")
            fields.append((kind_of_field, field, field_place, number and int(number), number_place))
        self.at += 1
        return kind, name, place, fields

    def type(self, depth, wanted="a type"):
        kind, text = self.peek()
        if kind != "word" or text in ("import", "bag", "struct"):
            self.fail(wanted)
        if depth >= 32:
            self.fail(wanted, "TypeNesting")
        place = self.tokens[self.at][2]
        self.at += 1
        if text not in ("set", "greatest", "map"):
            return text, place, []
        self.take("sign", "<")
        inner = [self.type(depth + 1)]
        if text == "map":
            self.take("sign", ",")
            inner.append(self.type(depth + 1))
        self.take("sign", ">")
        return text, place, inner


class Definition:
    """A definition: its files in the order of fetching, or its first fault as a refusal."""

    def __init__(self, files, root):
        self.files, self.modules, self.open = files, {}, []
        if root not in files:
            self.refuse(root, (1, 1), "NoFile")
        self.load(root)
        self.declarations = [(file, *declaration) for file in self.modules for declaration in self.modules[file][1]]
        self.check()

    def refuse(self, file, place, code):
        raise Refused(1, f"definition {file} {place[0]}:{place[1]} {code}")

    def load(self, file):
        if len(self.files[file]) > FILE_MAX:
            self.refuse(file, (1, 1), "DefTooLong")
        try:
            self.modules[file] = Parser(tokens_of(self.files[file])).module()
        except Code as code:
            self.refuse(file, code.args[1], code.args[0])
        self.open.append(file)
        for name, place in self.modules[file][0]:
            if name in self.open:
                self.refuse(file, place, "ImportCycle")
            if name in self.modules:
                continue
            if len(self.modules) >= 64:
                self.refuse(file, place, "TooManyFiles")
            if name not in self.files:
                self.refuse(file, place, "ImportMissing")
            self.load(name)
        self.open.pop()

    def check(self):
        self.named = {}
        for file, kind, name, place, fields in self.declarations:
            if name in self.named:
                self.refuse(file, place, "DuplicateName")
            self.named[name] = kind, fields, file, place
        for file, kind, name, place, fields in self.declarations:
            self.check_declaration(file, kind, place, fields)
        names = {name: set(self.names_in(fields)) for name, (kind, fields, _, _) in self.named.items()}
        for file, kind, name, place, _ in self.declarations:
            seen, more = set(), set(names[name])
            while more - seen:
                seen |= more
                more = {inner for other in more for inner in names.get(other, ())}
            if name in seen:
                self.refuse(file, place, "Recursive")

    def names_in(self, fields):
        def below(node):
            yield node[0]
            for inner in node[2]:
                yield from below(inner)
        return (name for field in fields for name in below(field[0]) if name in self.named)

    def check_declaration(self, file, kind, place, fields):
        if kind == "struct" and not fields:
            self.refuse(file, place, "EmptyStruct")
        numbers, names = set(), set()
        for node, name, name_place, number, number_place in fields:
            self.check_type(file, node, "struct" if kind == "struct" else "any")
            if kind == "bag" and number in numbers:
                self.refuse(file, number_place, "DuplicateNumber")
            if name in names:
                self.refuse(file, name_place, "DuplicateField")
            numbers.add(number)
            names.add(name)

    def check_type(self, file, node, role):
        head, place, inner = node
        if head in ("float", "double"):
            self.refuse(file, place, "FloatingType")
        if head not in RESERVED and head not in self.named:
            self.refuse(file, place, "UnknownName")
        is_struct = head in self.named and self.named[head][0] == "struct"
        if role == "element" and head not in WORDS and not is_struct or role == "key" and head not in WORDS:
            self.refuse(file, place, "BadKeyType")
        if role == "struct" and head not in WORDS:
            self.refuse(file, place, "BadStructField")
        if head == "map":
            self.check_type(file, inner[0], "key")
            self.check_type(file, inner[1], "any")
        elif inner:
            self.check_type(file, inner[0], "element")

    def kind(self, head):
        return head if head in WORDS else tuple(field[0][0] for field in self.named[head][1])

    def measure(self, name, memo):
        """The levels and the fields of a bag."""
        if name not in memo:
            parts = [self.measure_type(field[0], memo) for field in self.named[name][1]]
            memo[name] = max((1 + levels for levels, _ in parts), default=0), sum(1 + fields for _, fields in parts)
        return memo[name]

    def measure_type(self, node, memo):
        if node[0] == "counter":
            return 1, 0
        if node[0] == "map":
            levels, fields = self.measure_type(node[2][1], memo)
            return 1 + levels, fields
        if node[0] in self.named and self.named[node[0]][0] == "bag":
            return self.measure(node[0], memo)
        return 0, 0

    def shape(self, node):
        head, _, inner = node
        if head in ("taint", "counter"):
            return (head,)
        if head in ("set", "greatest"):
            return head, self.kind(inner[0][0])
        if head == "map":
            return "map", inner[0][0], self.shape(inner[1])
        if head in WORDS or self.named[head][0] == "struct":
            return "scalar", self.kind(head)
        return "bag", self.fields(head)

    def fields(self, name):
        return tuple(sorted((number, field, self.shape(node)) for node, field, _, number, _ in self.named[name][1]))

    def table(self, root, bag):
        if self.named.get(bag, ("",))[0] != "bag":
            self.refuse(root, (1, 1), "NoSuchBag")
        levels, fields = self.measure(bag, {})
        if levels > 16:
            self.refuse(self.named[bag][2], self.named[bag][3], "TooDeep")
        if fields > 16_384:
            self.refuse(self.named[bag][2], self.named[bag][3], "TooManySlots")
        return self.fields(bag)


def compile_bag(files, root, bag):
    return Definition(files, root).table(root, bag)


# The text of a table

def print_kind(kind):
    return kind if isinstance(kind, str) else "(" + ",".join(kind) + ")"


def print_shape(shape):
    if shape[0] == "map":
        return f"map {shape[1]} {print_shape(shape[2])}"
    return shape[0] if shape[0] in ("taint", "counter", "bag") else f"{shape[0]} {print_kind(shape[1])}"


def print_table(fields):
    def lines(fields, depth):
        for number, name, shape in sorted(fields):
            yield f"{depth} {number} {name} {print_shape(shape)}"
            while shape[0] == "map":
                shape = shape[2]
            if shape[0] == "bag":
                yield from lines(shape[1], depth + 1)
    return "".join(line + "\n" for line in ["baggage table 1", *lines(fields, 0)])


def parse_shape(words):
    """The shape that words say, a bag without its fields, or None; more than 32 maps are none."""
    maps = []
    while words[:1] == ["map"] and len(words) > 2 and words[1] in WORDS:
        maps.append(words[1])
        words = words[2:]
    kinds = "|".join(WORDS)
    if len(maps) > 32:
        return None
    if words in (["taint"], ["counter"]):
        shape = (words[0],)
    elif words == ["bag"]:
        shape = ("bag", [])
    elif len(words) == 2 and words[0] in ("scalar", "greatest", "set") and re.fullmatch(rf"(?:{kinds})|\((?:{kinds})(?:,(?:{kinds}))*\)", words[1]):
        shape = (words[0], words[1] if words[1] in WORDS else tuple(words[1][1:-1].split(",")))
    else:
        return None
    for key in reversed(maps):
        shape = ("map", key, shape)
    return shape


def read_table(name, text):
    """The fields that a printed table says."""
    def refuse(line, code):
        raise Refused(1, f"definition {name} {line}:1 {code}")

    if len(text) > FILE_MAX:
        refuse(1, "DefTooLong")
    lines = text.split(b"\n")
    if lines[0] != b"baggage table 1":
        refuse(1, "Head")
    if len(lines) < 2:
        refuse(1, "Form")
    top, count = [], 0
    open_bags = [(top, 0, set())]
    opens = False
    for at, line in enumerate(lines[1:], 2):
        if at == len(lines) and not line:
            break
        found = re.fullmatch(rf"(0|[1-9][0-9]*) (0|[1-9][0-9]*) ({NAME}) (.*)", line.decode("latin-1"))
        shape = parse_shape(found[4].split(" ")) if found and found[3] not in RESERVED else None
        if shape is None or int(found[2]) > 65_535 or at == len(lines):
            refuse(at, "Form")
        depth, number, field = int(found[1]), int(found[2]), found[3]
        if depth > len(open_bags) - 1 or depth > last_depth(open_bags, opens):
            refuse(at, "Depth")
        del open_bags[depth + 1:]
        bag, level, names = open_bags[depth]
        if bag and number <= bag[-1][0]:
            refuse(at, "Order")
        if field in names:
            refuse(at, "DuplicateField")
        below, inner = level + 1, shape
        while inner[0] == "map":
            below, inner = below + 1, inner[2]
        if below + (inner[0] == "counter") > 16:
            refuse(at, "TooDeep")
        if count >= 16_384:
            refuse(at, "TooManySlots")
        bag.append((number, field, shape))
        names.add(field)
        count += 1
        opens = inner[0] == "bag"
        if opens:
            open_bags.append((inner[1], below, set()))
    return freeze(top)


def last_depth(open_bags, opens):
    return len(open_bags) - 1


def freeze(fields):
    def shape(value):
        return ("map", value[1], shape(value[2])) if value[0] == "map" else ("bag", freeze(value[1])) if value[0] == "bag" else value
    return tuple((number, name, shape(value)) for number, name, value in fields)


# Verdicts on a new definition

WIDER = {"int32": ("sint32", "int64", "sint64"), "sint32": ("int32", "int64", "sint64"), "int64": ("sint64",), "sint64": ("int64",), "uint32": ("uint64",)}


def is_wider(old, new):
    if isinstance(old, str) or isinstance(new, str):
        return old == new or isinstance(old, str) and new in WIDER.get(old, ())
    return len(old) == len(new) and all(map(is_wider, old, new))


def breaks(old, new, way=()):
    """The breaks of two bags, in order."""
    later = {number: shape for number, _, shape in new}
    for number, _, shape in sorted(old):
        if number in later:
            yield from shape_breaks(shape, later[number], way + (str(number),))


def shape_breaks(old, new, way):
    if old[0] != new[0]:
        yield way, "Shape"
    elif old[0] == "map":
        if not is_wider(old[1], new[1]):
            yield way, "Key"
        yield from shape_breaks(old[2], new[2], way + ("*",))
    elif old[0] == "bag":
        yield from breaks(old[1], new[1], way)
    elif old[0] not in ("taint", "counter") and not is_wider(old[1], new[1]):
        yield way, "Kind"


def evolve(old, new):
    first = next(breaks(old, new), None)
    if first:
        return f"breaks {'.'.join(first[0])} {first[1]}"
    paths = [{at for _, at, _ in slots_of(fields)} for fields in (old, new)]
    return f"ok {len(paths[0] & paths[1])}"


# Lines of inputs

def lines_of(source):
    """The lines that count, with their numbers."""
    if len(source) > INPUT_MAX:
        raise Refused(2, "input line 0 TooLong")
    pieces = source.split(b"\n")
    lines = [piece[:-1] if piece[-1:] == b"\r" else piece for piece in pieces[:-1]] + pieces[-1:]
    return [(number, line) for number, line in enumerate(lines, 1) if line and line[:1] != b"#"]


def digits_of(line):
    """The bytes that a line of digits says."""
    if len(line) > LINE_MAX:
        raise Code("HexTooLong")
    if line == b"-":
        return b""
    if not re.fullmatch(rb"(?:[0-9a-fA-F]{2})+", line):
        raise Code("BadHex")
    return bytes.fromhex(line.decode())


def on_line(number, action, *arguments):
    """What comes of a line, or its refusal."""
    try:
        return action(*arguments)
    except Code as code:
        raise Refused(2, f"input line {number} {code}") from None
    except BytesFault as fault:
        raise Refused(3, f"context line {number} offset {fault.offset} {fault.code}") from None


def only_line(source, action):
    lines = lines_of(source)
    if not lines:
        raise Refused(2, "input line 0 NoLine")
    answer = on_line(lines[0][0], action, lines[0][1])
    if len(lines) > 1:
        raise Refused(2, f"input line {lines[1][0]} Form")
    return answer


def hex_line(data):
    return (data.hex() or "-").encode() + b"\n"


# Lines of pieces

def carry(data, width):
    pieces = [data[at:at + width] for at in range(0, len(data), width)] or [b""]
    return b"".join(b"p %d %d %s\n" % (at, len(pieces), base64.b64encode(piece) or b"-") for at, piece in enumerate(pieces))


def collect(source):
    pieces, count = {}, None

    def add(line):
        nonlocal count
        found = re.fullmatch(rb"p (0|[1-9][0-9]{0,6}) (0|[1-9][0-9]{0,6}) ([^ ]+)", line, re.S)
        if not found:
            raise Code("Form")
        at, total, data = int(found[1]), int(found[2]), found[3]
        if not 0 < total <= 262_144 or at >= total:
            raise Code("PieceRange")
        try:
            piece = b"" if data == b"-" else base64.b64decode(data, validate=True)
        except ValueError:
            raise Code("BadBase64") from None
        if data != (base64.b64encode(piece) or b"-"):
            raise Code("BadBase64")
        if count not in (None, total):
            raise Code("OtherCount")
        if pieces.get(at, data) != data:
            raise Code("Clash")
        count, pieces[at] = total, data

    for number, line in lines_of(source):
        on_line(number, add, line)
    if count is None:
        raise Refused(2, "input line 0 NoLine")
    missing = next((at for at in range(count) if at not in pieces), None)
    if missing is not None:
        raise Refused(2, f"input line 0 Missing {missing}")
    data = b"".join(b"" if pieces[at] == b"-" else base64.b64decode(pieces[at]) for at in range(count))
    if len(data) > ATOM_MAX:
        raise Refused(2, "input line 0 TooManyBytes")
    on_line(0, read_context, data)
    return hex_line(data)


# Recorded graphs

class Graph:
    """The steps of a graph's text as (act, service, parents, more), its services as (form, slots) and the steps to be shown."""

    FORMS = [rf"(service2?) ({NAME}) (all|none|only(?: {PATH})+)", rf"(start) ({NUMBER}) ({NAME})", rf"(recv) ({NUMBER}) ({NAME}) ([^ ]+)",
             rf"(set) ({NUMBER}) ({NUMBER}) ({PATH}) (.+)", rf"(branch) ({NUMBER}) ({NUMBER})", rf"(forward) ({NUMBER}) ({NUMBER}) ({NAME})",
             rf"(trim) ({NUMBER}) ({NUMBER}) ({NUMBER})", rf"(join) ({NUMBER}) ({NUMBER}(?: {NUMBER})*)", rf"(show) ({NUMBER})"]

    def __init__(self, fields, source):
        self.fields, self.slots = fields, list(slots_of(fields))
        self.services, self.steps, self.shown = {}, [], []
        for number, line in lines_of(source):
            on_line(number, self.add, line)

    def add(self, line):
        text = line.decode() if is_utf8(line) else ""
        found = next((match for match in (re.fullmatch(form, text, re.S) for form in self.FORMS) if match), None)
        if not found:
            raise Code("Form")
        act = found[1]
        if act.startswith("service"):
            return self.add_service(found)
        if act == "show":
            self.known_steps([int(found[2])])
            return self.shown.append(int(found[2]))
        return self.add_step(act, found)

    def known_steps(self, parents):
        if any(parent >= len(self.steps) for parent in parents):
            raise Code("NoSuchStep")

    def add_service(self, found):
        if found[2] in self.services:
            raise Code("DuplicateService")
        words = found[3].split(" ")
        known = {"all": self.slots, "none": [], "only": []}[words[0]]
        for path in words[1:]:
            below = [slot for slot in self.slots if slot[0] == path or slot[0].startswith(path + ".")]
            if not below and not self.is_bag(path):
                raise Code("NoSuchPath")
            known = known + below
        self.services[found[2]] = 2 if found[1] == "service2" else 1, known

    def is_bag(self, path):
        fields = self.fields
        for name in path.split("."):
            shape = next((shape for _, field, shape in fields if field == name), ("none",))
            if shape[0] != "bag":
                return False
            fields = shape[1]
        return True

    def add_step(self, act, found):
        if int(found[2]) != len(self.steps):
            raise Code("StepNumber")
        parents = [] if act in ("start", "recv") else [int(word) for word in found[3].split(" ")]
        self.known_steps(parents)
        service = {"start": found[3], "recv": found[3], "forward": found[4] if act == "forward" else None}.get(act)
        if service is not None and service not in self.services:
            raise Code("NoSuchService")
        at = {self.steps[parent][1] for parent in parents} if service is None else {service}
        if len(at) > 1:
            raise Code("WrongService")
        service, more = at.pop(), None
        form, known = self.services[service]
        if act == "set":
            slot = next((slot for slot in self.slots if slot[0] == found[4]), None)
            if slot is None:
                raise Code("NoSuchPath")
            if slot not in known:
                raise Code("NotKnown")
            more = slot, read_write(slot[2], found[5].encode(), form)
        if act == "trim":
            more = int(found[4])
            if not (1 if form == 1 else 13) <= more <= 4_294_967_295:
                raise Code("BudgetRange")
        if len(self.steps) >= 100_000:
            raise Code("TooManySteps")
        if len(parents) > 4_096:
            raise Code("TooManyParents")
        if act == "recv":
            more = read_typed(self.fields, digits_of(found[4].encode()))
        self.steps.append((act, service, parents, more))

    def lists(self):
        """The list of each step."""
        lists = []
        for act, service, parents, more in self.steps:
            form, known = self.services[service]
            before = [lists[parent] for parent in parents]
            if act == "start":
                atoms = []
            elif act == "branch":
                atoms = before[0]
            elif act == "trim":
                atoms = trim(form, before[0], more)
            elif act == "set":
                (_, at, shape), value = more
                atoms = normal(known, merge([before[0], encoding(shape, at, value)]))
            else:
                atoms = normal(known, more if act == "recv" else merge(before))
            lists.append(atoms)
        return lists

    def form_at(self, step):
        return self.services[self.steps[step][1]][0]

    def contributes(self, step, slot):
        """What a step adds to a slot."""
        act, _, _, more = self.steps[step]
        if act == "set" and more[0][1] == slot[1]:
            return more[1]
        return read_slot(paths_of(more), slot[1], slot[2]) if act == "recv" else bottom(slot[2])

    def reaching(self, step):
        seen, more = set(), [step]
        while more:
            at = more.pop()
            if at not in seen:
                seen.add(at)
                more += self.steps[at][2]
        return seen


def encoding(shape, at, value):
    paths = lay_out_field(shape, at, value)
    return [path[-1] for path in sorted({path[:k] for path in paths for k in range(1, len(path) + 1)})]


def read_typed(fields, data):
    atoms = read_context(data)
    place = first_ill_typed(fields, atoms)
    if place is not None:
        raise BytesFault(offset_of(form_of(data), atoms, place), "IllTyped")
    return atoms


def report(graph):
    lists = graph.lists()
    return b"".join(b"step %d\n" % step + b"".join(line + b"\n" for line in block_lines(graph.fields, graph.form_at(step), lists[step])) for step in graph.shown)


def report_json(graph):
    lists, objects = graph.lists(), []
    for step in graph.shown:
        lines = [line.decode() for line in block_lines(graph.fields, graph.form_at(step), lists[step])]
        fields = [dict(zip(("path", "state", "text"), line.split(" ", 2))) for line in lines[1:]]
        objects.append({"bytes": lines[0][6:], "fields": fields, "step": step})
    return json.dumps(objects, separators=(",", ":"), ensure_ascii=False).encode() + b"\n"


def load_text(rounds):
    lines = ["service a all", "service b none", "start 0 a"]
    for turn in range(rounds):
        first = 42 * turn
        for lane in range(8):
            k = first + 5 * lane
            lines += [f"branch {k + 1} {first}", f"set {k + 2} {k + 1} least {1_000_000 - 8 * turn - lane}", f'set {k + 3} {k + 2} hits "w{lane}":{turn + 1}',
                      f"set {k + 4} {k + 3} seen {(8 * turn + lane) % 256}", f"forward {k + 5} {k + 4} b"]
        lines += [f"join {first + 41} " + " ".join(str(first + 5 * lane) for lane in range(1, 9)), f"forward {first + 42} {first + 41} a"]
    return ("\n".join([*lines, f"show {42 * rounds}"]) + "\n").encode()


LOAD = ((0, "least", ("scalar", "fixed32")), (1, "hits", ("counter",)), (2, "seen", ("set", "uint32")))


# Certificates

def why(graph, step, path):
    if step >= len(graph.steps):
        raise Refused(2, "input line 0 StepRange")
    slot = next((slot for slot in graph.slots if slot[0] == path), None)
    if slot is None:
        raise Refused(2, "input line 0 NoSuchPath")
    if not is_ended(paths_of(graph.lists()[step]), slot[1]):
        raise Refused(2, "input line 0 Partial")
    reaching, value, used = sorted(graph.reaching(step)), bottom(slot[2]), []
    for at in reaching:
        joined = join(slot[2], value, graph.contributes(at, slot))
        if joined != value:
            value = joined
            used.append(at)
    child = {at: min(other for other in reaching if at in graph.steps[other][2]) for at in reaching if at != step}
    return b"why %d %s\nvalue %s\n" % (step, path.encode(), value_text(slot[2], value)) + b"".join(b"reach %d %d\n" % pair for pair in sorted(child.items())) \
        + b"".join(b"uses %d\n" % at for at in used)


def verify(graph, certificate):
    """The verdict, as the number of a line and a code, or None for yes."""
    pieces = certificate.split(b"\n")
    lines = [(piece, True) for piece in pieces[:-1]] + ([(pieces[-1], False)] if pieces[-1] else [])
    said, last = [], {"reach": -1, "uses": -1}
    for number in range(1, max(len(lines), 2) + 1):
        line, is_fed = lines[number - 1] if number <= len(lines) else (b"", False)
        form = {1: rb"(why) (%s) (%s)", 2: rb"(value) (.*)"}.get(number, rb"(reach|uses) (%s)(?: (%s))?")
        form = form.replace(b"%s", NUMBER.encode(), 2 if number > 2 else 1).replace(b"%s", PATH.encode())
        found = re.fullmatch(form, line, re.S)
        if not found or not is_fed or number > 2 and ((found[1] == b"reach") != (found[3] is not None) or found[1] == b"reach" and last["uses"] >= 0):
            return number, "Form"
        if number == 1:
            step, slot = int(found[2]), next((slot for slot in graph.slots if slot[0].encode() == found[3]), None)
            if step >= len(graph.steps):
                return 1, "StepRange"
            if slot is None:
                return 1, "NoSuchPath"
        elif number == 2:
            text = found[2]
        else:
            kind, at = found[1].decode(), int(found[2])
            if at <= last[kind] or at > step or kind == "reach" and at == step:
                return number, "Order"
            if kind == "reach" and (int(found[3]) >= len(graph.steps) or at not in graph.steps[int(found[3])][2]):
                return number, "NotParent"
            if kind == "uses" and graph.steps[at][0] not in ("set", "recv"):
                return number, "NotWrite"
            last[kind] = at
            said.append((number, kind, at, int(found[3] or 0)))
    listed = {step} | {at for _, kind, at, _ in said if kind == "reach"}
    for number, kind, at, child in said:
        if (child if kind == "reach" else at) not in listed:
            return number, "NotListed"
    on_way = [(1, step)] + [(number, at) for number, kind, at, _ in said if kind == "reach"]
    for number, at in on_way:
        if any(parent not in listed - {step} for parent in graph.steps[at][2]):
            return number, "Missing"
    value = bottom(slot[2])
    for _, kind, at, _ in said:
        if kind == "uses":
            value = join(slot[2], value, graph.contributes(at, slot))
    if text != value_text(slot[2], value):
        return 2, "Value"
    for number, at in on_way:
        if join(slot[2], value, graph.contributes(at, slot)) != value:
            return number, "TooMuch"
    return None


# The program

def number_in(word, low, high):
    return re.fullmatch(r"[1-9][0-9]{0,9}", word) and low <= int(word) <= high


def is_command(words):
    counts = {"trim": 1, "merge": 0, "carry": 1, "collect": 0, "check": 2, "decode": 2, "run": 2, "runjson": 2, "table": 2, "runtable": 1, "evolve": 3, "why": 4,
              "verify": 3, "load": 1}
    if not words or counts.get(words[0]) != len(words) - 1:
        return False
    if words[0] in ("trim", "carry", "load"):
        return bool(number_in(words[1], *{"trim": (1, 4_294_967_295), "carry": (4, 300), "load": (1, 1_000)}[words[0]]))
    return words[0] != "why" or bool(re.fullmatch(NUMBER, words[3]))


def merge_lines(source):
    lists, form = [], 1
    for count, (number, line) in enumerate(lines_of(source), 1):
        if count > 4_096:
            raise Refused(2, f"input line {number} TooManyLines")
        data = on_line(number, digits_of, line)
        lists.append(on_line(number, read_context, data))
        form = max(form, form_of(data))
    return hex_line(write_list(form, merge(lists)))


def trim_line(budget, line):
    data = digits_of(line)
    if form_of(data) == 2 and budget < 13:
        raise Code("BudgetRange")
    return hex_line(write_list(form_of(data), trim(form_of(data), read_list(data), budget)))


def carried(line, width):
    data = digits_of(line)
    read_context(data)
    return carry(data, width)


def decoded(fields, line):
    data = digits_of(line)
    return b"".join(row + b"\n" for row in block_lines(fields, form_of(data), read_typed(fields, data)))


def file_of(files, name):
    if name not in files:
        raise Refused(1, f"definition {name} 1:1 NoFile")
    if len(files[name]) > FILE_MAX:
        raise Refused(1, f"definition {name} 1:1 DefTooLong")
    return files[name]


def answer(words, files, source):
    """What a command writes; files is a mapping of names, source a function that gives the input."""
    if not is_command(words):
        raise Refused(7, "words refused")
    command, names = words[0], words[1:]
    if command == "trim":
        return only_line(source(), lambda line: trim_line(int(names[0]), line))
    if command == "merge":
        return merge_lines(source())
    if command == "carry":
        return only_line(source(), lambda line: carried(line, int(names[0])))
    if command == "collect":
        return collect(source())
    if command == "load":
        graph = Graph(LOAD, load_text(int(names[0])))
        return b"load %s\nsteps %d\n" % (names[0].encode(), len(graph.steps)) + report(graph)
    if command == "runtable":
        return report(Graph(read_table(names[0], file_of(files, names[0])), source()))
    if command == "evolve":
        old = compile_bag(files, names[0], names[2])
        return evolve(old, compile_bag(files, names[1], names[2])).encode() + b"\n"
    fields = compile_bag(files, names[0], names[1])
    if command == "check":
        return b"ok %d\n" % len(list(slots_of(fields)))
    if command == "table":
        return print_table(fields).encode()
    if command == "decode":
        return only_line(source(), lambda line: decoded(fields, line))
    if command == "why":
        return why(Graph(fields, source()), int(names[2]), names[3])
    if command == "verify":
        certificate = file_of(files, names[2])
        verdict = verify(Graph(fields, source()), certificate)
        return b"yes\n" if verdict is None else b"no %d %s\n" % (verdict[0], verdict[1].encode())
    return {"run": report, "runjson": report_json}[command](Graph(fields, source()))


# Rows

ESCAPES = {"\\": b"\\", "n": b"\n", "t": b"\t", "r": b"\r"}
ELSEWHERE = {"fail", "read_size", "out_room", "errs_room", "other_kind"}


def text_of(text, copy=None):
    """What a text with escapes stands for; in a copy with this number there are two more."""
    out = bytearray()
    for found in re.finditer(r"\\x([0-9a-f]{2})|\\(.)|([^\\]+)", text, re.S):
        if found[1]:
            out += bytes.fromhex(found[1])
        elif found[2]:
            out += str(copy).encode() if found[2] == "@" else str(copy + 1).encode() if found[2] == "+" else ESCAPES[found[2]]
        else:
            out += found[3].encode("utf-8", "surrogateescape")
    return bytes(out)


def rows_of(text):
    """The rows of a text: for each its line and its fields, as (name, label, value)."""
    shared, at = [], 1
    for block in text.split("\n\n"):
        fields, first = [], None
        for number, line in enumerate(block.split("\n"), at):
            sign, _, rest = line.partition(" ")
            if not line or line.startswith("#"):
                continue
            first = first or number
            if sign == "|":
                fields[-1][2] += text_of(rest) + b"\n"
            elif sign == "+":
                fields[-1][2] += text_of(rest)
            elif sign == "x":
                count, _, rest = rest.partition(" ")
                copies = re.search(r"\\[@+]", rest)
                fields[-1][2] += b"".join(text_of(rest, k) for k in range(1, int(count) + 1)) if copies else text_of(rest) * int(count)
            else:
                fields.append([sign, text_of(rest), bytearray(text_of(rest) if sign != "file" else b"")])
        at += block.count("\n") + 2
        if fields and fields[0][0] == "every":
            shared = fields[1:]
        elif fields:
            yield first, shared + fields


class Row:
    """The fields of a row: the last of a name counts."""

    def __init__(self, fields):
        self.all = fields
        self.fields = {name: bytes(value) for name, _, value in fields}
        self.files = {label.decode(): bytes(value) for name, label, value in fields if name == "file"}

    def __contains__(self, name):
        return name in self.fields

    def bytes(self, name):
        return self.fields.get(name, b"")

    def text(self, name):
        return self.bytes(name).decode()

    def number(self, name):
        return int(self.fields[name])

    def digits(self, name):
        return digits_of_any(self.bytes(name))

    def atoms(self, name):
        return [digits_of_any(word) for word in self.bytes(name).split()]

    def form(self):
        return {"one": 1, "two": 2}[self.text("form")]


def digits_of_any(line):
    return b"" if line == b"-" else bytes.fromhex(line.decode())


def digits_text(data):
    return data.hex() or "-"


def atoms_text(atoms):
    return " ".join(map(digits_text, atoms))


def fault_or(action, name, show):
    """What a call answers, as a field, or its fault."""
    try:
        return {name: show(action())}
    except BytesFault as fault:
        return {"fault": f"{fault.offset} {fault.code}"}


class Unfetched(Exception):
    """A file that a library fails to fetch."""


class Library(dict):
    """Files that keep the names that they were asked for, and fail at the fetches of these numbers."""

    def __init__(self, files, failing=()):
        super().__init__(files)
        self.asked, self.failing = [], failing

    def __contains__(self, name):
        self.asked.append(name)
        if len(self.asked) - 1 in self.failing:
            raise Unfetched
        return super().__contains__(name)


def run_words(words, files, source):
    library, taken = Library(files), []
    try:
        out, errs, status = answer(words, library, lambda: taken.append(1) or source), b"", 0
    except Refused as refused:
        out, errs, status = b"", refused.line.encode() + b"\n", refused.status
    left = source[INPUT_MAX + 1:] if taken else source
    return {"status": str(status), "out": out, "errs": errs, "left": left, "asked": " ".join(library.asked)}


def run_program(row):
    words = [bytes(value).decode() for name, _, value in row.all if name == "word"] or row.text("words").split(" ")
    words = [] if words == [""] else words
    found = run_words(words, row.files, row.bytes("input"))
    if "out_begins" in row or "out_ends" in row:
        out = found.pop("out")
        found["out_begins"], found["out_ends"] = out[:len(row.bytes("out_begins"))], out[len(out) - len(row.bytes("out_ends")):]
    if "asked" not in row:
        found.pop("asked")
    return found


def run_tabled(row):
    file, bag = row.text("bag").split(" ")
    run = run_words(["run", file, bag], row.files, row.bytes("input"))
    table = run_words(["table", file, bag], row.files, b"")
    again = run_words(["runtable", "t"], {"t": table["out"]}, row.bytes("input"))
    return {"out": run["out"] if run["out"] == again["out"] else b"the table's report is another one"}


def run_write(row):
    form, atoms = row.form(), row.atoms("atoms")
    data = write_list(form, atoms)
    found = {"bytes": digits_text(data), "written": ("", "one", "two")[form_of(data)], "size": str(size_of(form, atoms))}
    if "offsets" in row:
        found["offsets"] = " ".join(str(offset_of(form, atoms, place)) for place in range(len(atoms)))
    return found


def run_check(row):
    paths, atoms = Paths(), row.atoms("list")
    for place, atom in enumerate(atoms):
        try:
            paths.after(atom)
        except Code as code:
            return {"fault": f"{place} {code}"}
    return {"atoms": atoms_text(atoms)}


def run_ended(row):
    paths, at = paths_of(row.atoms("atoms")), ()
    for number in map(int, row.text("numbers").split()):
        at += (header(len(at), number),)
    before = next((place for place, path in enumerate(paths) if path[-1] == b""), len(paths))
    return {"ended": "yes" if is_ended(paths, at) else "no", "before_marker": str(before)}


def run_around(row):
    """The headers around an atom: the places of those on its path but for the atom itself; around a marker those that are open."""
    atoms, open_headers = row.atoms("atoms"), []
    for place, atom in enumerate(atoms[:row.number("place") + 1]):
        kind = kind_of(atom)
        if kind[0] in ("field", "key"):
            del open_headers[kind[1]:]
        last = list(open_headers)
        if kind[0] in ("field", "key"):
            open_headers.append(place)
    return {"headers": " ".join(map(str, last))}


def run_trim(row):
    form, atoms = row.form(), row.atoms("atoms")
    if "before" in row:
        atoms = trim(form, atoms, row.number("before"))
    left = trim(form, atoms, row.number("budget"))
    found = {"left": atoms_text(left)}
    if "keep" in row:
        found["keep"] = str(len(left) - (left != atoms))
    if "bytes" in row:
        found["bytes"] = digits_text(write_list(form, left))
    return found


def run_forward(row):
    def sent():
        merged = merge([read_context(row.digits("first")), read_context(row.digits("second"))])
        return write_list(row.form(), trim(row.form(), merged, row.number("budget")))
    return fault_or(sent, "sent", digits_text)


def run_cut(row):
    atoms = row.atoms("atoms")
    return {"left": atoms_text(atoms[:row.number("keep")] + [b""])}


def run_drop(row):
    gone = (row.number("first"), row.number("second"))
    return {"left": atoms_text([atom for place, atom in enumerate(row.atoms("atoms")) if place not in gone])}


def greedy(lists):
    """The merge of any two lists: the lesser first atom is taken, and an equal one once."""
    one, other, merged = list(lists[0]), list(lists[1]), []
    while one or other:
        least = min(rest[0] for rest in (one, other) if rest)
        merged.append(least)
        for rest in (one, other):
            if rest and rest[0] == least:
                del rest[0]
    return merged


def run_collect(row):
    try:
        return {"bytes": collect_bytes(row.bytes("lines"))}
    except Refused as refused:
        return {"fault": refused.line.removeprefix("input line ")}


def collect_bytes(lines):
    try:
        return collect(lines).decode().strip()
    except Refused as refused:
        if refused.status == 2:
            raise
        pieces = [base64.b64decode(line.split()[3]) for line in sorted(set(lines.split(b"\n")), key=lambda line: int(line.split()[1]) if line else -1)
                  if line and line.split()[3] != b"-"]
        return digits_text(b"".join(pieces))


def number_row(read, put):
    """Runs a row of a number that bytes begin with; its code is the shortest prefix of them that says it."""
    def run(row):
        data = row.digits("bytes")
        try:
            number, size = read(data)
        except Code as code:
            return {"fault": str(code)}
        assert put(number) == data[:size]
        return {"number": str(number), "size": str(size)}
    return run


def first_unsigned(data):
    found = unsigned(data)
    if found is None:
        raise Code("Cut")
    return found


def first_signed(data):
    """The signed number that bytes begin with, and the size of its code; of a negative one each bit is turned."""
    if not data:
        raise Code("Cut")
    turned = data if data[0] >= 0x80 else bytes(255 - byte for byte in data)
    size = 9 if turned[0] == 255 else len(f"{turned[0]:08b}".split("0")[0])
    if len(data) < size:
        raise Code("Cut")
    number = signed(data[:size])
    if number is None:
        raise Code("OutOfRange" if size == 9 and turned[1] >= 0x80 else "LongForm")
    return number, size


def run_kind(row):
    try:
        kind = kind_of(row.digits("atom"))
    except Code as code:
        return {"fault": str(code)}
    return {"kind": " ".join(map(str, kind[:{"field": 3, "key": 2}.get(kind[0], 1)]))}


def run_parts(row):
    atom = row.digits("atom")
    return {"level": str((0xFF - atom[0]) // 8) if atom[:1] >= b"\x80" else "", "rest": digits_text(atom[1:])}


def run_order(row):
    one, other = row.digits("first"), row.digits("second")
    return {"order": "less" if one < other else "greater" if one > other else "equal"}


def decimal(text, bound=1 << 64):
    return text.decode() if re.fullmatch(rb"0|[1-9][0-9]*", text) and int(text) < bound else ""


def run_take_number(row):
    word, blank, rest = row.bytes("text").partition(b" ")
    number = decimal(word, row.number("bound")) if blank else ""
    return {"number": number, "rest": rest if number else b""}


def run_cut_word(row):
    word, blank, rest = row.bytes("text").partition(b" ")
    return {"word": word, "rest": rest} if blank else {"word": b"", "rest": b""}


def run_word(row):
    text = row.bytes("text")
    return {"one_word": "yes" if text and b" " not in text else "no", "letters": "yes" if re.fullmatch(NAME.encode(), text) else "no"}


def run_digits(row):
    try:
        data = digits_of(row.bytes("text"))
    except Code as code:
        return {"fault": str(code)}
    return {"bytes": data, "line": hex_line(data)}


# Rows of the library's calls

class CallRefused(Exception):
    """Why a call of the library writes nothing, as its refusal is printed."""


def inputs_of(row):
    return [digits_of_any(bytes(value)) for name, _, value in row.all if name == "input"]


def table_of(row, name="table", told="line"):
    try:
        return read_table("t", row.bytes(name))
    except Refused as refused:
        place, code = refused.line.split(" ")[2:]
        raise CallRefused(f"{told} {place.split(':')[0]} {code}") from None


def contexts_of(inputs, read=read_context, told="context {} "):
    lists = []
    for place, data in enumerate(inputs):
        try:
            lists.append(read(data))
        except BytesFault as fault:
            raise CallRefused(f"{told.format(place)}offset {fault.offset} {fault.code}") from None
    return lists


def one_context(row, read=read_context):
    return contexts_of(inputs_of(row)[:1], read, "")[0]


def written(row, atoms):
    form = row.form() if "form" in row else 1
    return {"bytes": digits_text(write_list(form, trim(form, atoms, row.number("budget") if "budget" in row else 1 << 64)))}


def write_of(slots, path, text, form):
    """The encoding of a write to the field with this name path."""
    try:
        name, at, shape = next(slot for slot in slots if slot[0].encode() == path)
    except StopIteration:
        raise CallRefused("NoField") from None
    try:
        if text is None:
            raise Code("BadValue")
        return encoding(shape, at, read_write(shape, text, form))
    except (Code, ValueError):
        raise CallRefused("NoWrite") from None


def call_join(row):
    return written(row, merge(contexts_of(inputs_of(row))))


def call_update(row):
    fields = table_of(row, told="table line")
    slots, form, lists = list(slots_of(fields)), row.form() if "form" in row else 1, []
    lines = row.bytes("writes").split(b"\n")
    for number, line in enumerate(lines[:-1] + ([lines[-1]] if lines[-1] else []), 1):
        path, blank, text = line.partition(b" ")
        try:
            lists.append(write_of(slots, path, text if blank and number < len(lines) else None, form))
        except CallRefused as refused:
            raise CallRefused(f"write line {number} {refused}") from None
    lists += contexts_of(inputs_of(row), lambda data: read_typed(fields, data))
    return written(row, normal(slots, merge(lists)))


def kept(slots, cut, atoms):
    """What of a list stands below the slots: each path goes to itself, to the mark of its gap, or to nothing."""
    ways, found = [at for _, at, _ in slots], set()
    for path in paths_of(atoms):
        if any(path[:len(at)] == at for at in ways):
            to = path
        elif path[-1] == b"" or cut and not any(at[:len(path)] == path for at in ways):
            before = [at for at in ways if at < path]
            to = (max(before)[:-1] + (header(len(max(before)) - 1, kind_of(max(before)[-1])[2] + 1),) if before else ()) + (b"",)
        else:
            continue
        found |= {to[:k] for k in range(1, len(to) + 1)}
    return [path[-1] for path in sorted(found)]


def call_keep(row):
    slots = list(slots_of(table_of(row)))
    return written(row, kept(slots, row.text("others") == "cut", merge(contexts_of(inputs_of(row)))))


def place_of_slot(fields, form, atoms, at, shape):
    """Where the atoms of a slot stand: how many bytes before them, how many they have, and the state."""
    paths = paths_of(atoms)
    wrong = next((k for k, path in enumerate(paths) if path[:len(at)] == at and misspells(fields, path)), None)
    if wrong is not None:
        return f"{offset_of(form, atoms, wrong)} 0 ill_typed"
    below = [k for k, path in enumerate(paths) if path[:len(at)] == at]
    stop = below[-1] + 1 if below else next((k for k, path in enumerate(paths) if path > at), len(paths))
    start = below[0] + 1 if below else stop
    offset = offset_of(form, atoms, start)
    return f"{offset} {offset_of(form, atoms, stop) - offset} {'exact' if is_ended(paths, at) else 'partial'}"


def call_places(row):
    fields = table_of(row)
    data, atoms = inputs_of(row)[0], one_context(row)
    lines = [place_of_slot(fields, form_of(data), atoms, at, shape) + "\n" for _, at, shape in slots_of(fields)]
    return {"form": ("", "one", "two")[form_of(data)], "places": "".join(lines)}


def call_chosen(row):
    fields = table_of(row)
    chosen, slots = [int(value) for name, _, value in row.all if name == "slot"], list(slots_of(fields))
    for which, number in enumerate(chosen):
        if number >= len(slots):
            raise CallRefused(f"slot {which} NoSlot")
    data, atoms = inputs_of(row)[0], one_context(row)
    lines = [place_of_slot(fields, form_of(data), atoms, *slots[number][1:]) + "\n" for number in chosen]
    return {"form": ("", "one", "two")[form_of(data)], "places": "".join(lines)}


def call_report(row):
    fields = table_of(row, told="table 0 line")
    form, atoms = form_of(inputs_of(row)[0]), one_context(row, lambda data: read_typed(fields, data))
    lines = list(block_lines(fields, form, atoms))
    if row.text("as") == "text":
        return {"out": b"".join(line + b"\n" for line in lines)}
    slots = [dict(zip(("path", "state", "text"), line.decode().split(" ", 2))) for line in lines[1:]]
    return {"out": json.dumps({"bytes": lines[0].decode()[6:], "fields": slots}, separators=(",", ":"))}


def call_read(row):
    fields = table_of(row)
    found = [slot for slot in slots_of(fields) if slot[0].encode() == row.bytes("name")]
    if not found:
        raise CallRefused("NoField")
    paths = paths_of(one_context(row, lambda data: read_typed(fields, data)))
    _, at, shape = found[0]
    return {"out": value_text(shape, read_slot(paths, at, shape)), "told": "exact" if is_ended(paths, at) else "partial"}


def call_write(row):
    slots = list(slots_of(table_of(row)))
    return written(row, write_of(slots, row.bytes("name"), row.bytes("text"), row.form() if "form" in row else 1))


def call_evolve(row):
    line = evolve(table_of(row, told="table 0 line"), table_of(row, "next", "table 1 line"))
    return {"out": line + "\n", "told": "fits" if line.startswith("ok") else line.split(" ")[2].lower()}


def call_carry(row):
    if not 4 <= row.number("width") <= 300:
        raise CallRefused("Width")
    one_context(row)
    return {"out": carry(inputs_of(row)[0], row.number("width"))}


def call_quote(row):
    if row.text("literal") not in ("string", "bytes"):
        raise CallRefused("Choice")
    return {"out": scalar_text(row.text("literal"), row.bytes("quoted"))}


def call_collect(row):
    try:
        return {"bytes": collect(row.bytes("lines")).decode().strip()}
    except Refused as refused:
        raise CallRefused(re.sub(r"^(input line 0 |context line 0 |input )", "", refused.line)) from None


def letters_of(data):
    return base64.urlsafe_b64encode(data).rstrip(b"=")


def header_text(data):
    return letters_of(data) + b"." + letters_of(zlib.crc32(data).to_bytes(4, "big"))


def read_part(part):
    """The atoms of the context that a part of a header's value carries, or None."""
    try:
        data = base64.b64decode(part[:-7] + b"=" * (-len(part[:-7]) % 4), b"-_", validate=True)
        return read_context(data) if header_text(data) == part else None
    except (ValueError, BytesFault):
        return None


def call_to_header(row):
    contexts_of(inputs_of(row)[:1])
    return {"out": header_text(inputs_of(row)[0])}


def call_extract(row):
    found = [read_part(part.strip(b" \t")) for value in inputs_of(row) for part in value.split(b",")]
    parts = len(found)
    if not found and row.text("absent") == "lost":
        found = [None]
    answer = written(row, merge([[b""] if atoms is None else atoms for atoms in found]))
    state = "partial" if b"" in read_context(digits_of_any(answer["bytes"].encode())) else "exact"
    return {**answer, "told": f"{state} parts {parts} lost {found.count(None)}"}


LIBRARY_CALLS = {
    "baggage_check": lambda row: {"atoms": str(len(one_context(row)))}, "baggage_join": call_join, "baggage_update": call_update, "baggage_keep": call_keep,
    "baggage_places": call_places, "baggage_chosen_places": call_chosen, "baggage_report": call_report, "baggage_read_field": call_read,
    "baggage_write_field": call_write, "baggage_check_table": lambda row: {"slots": str(len(list(slots_of(table_of(row)))))},
    "baggage_evolve": call_evolve, "baggage_carry": call_carry, "baggage_collect": call_collect, "baggage_quote": call_quote,
    "baggage_to_header": call_to_header, "baggage_extract": call_extract,
}


def run_library(row):
    """What a call of the library answers, or its refusal."""
    try:
        return {"refused": "", **LIBRARY_CALLS[row.text("call")](row)}
    except CallRefused as refused:
        return {"refused": str(refused)}


# The calls for definitions and graphs

def placed(place):
    return f"{place[0]}:{place[1]}"


def code_at(code):
    return {"fault": f"{placed(code.args[1])} {code.args[0]}"}


def token_class(kind, text):
    return f"Number({int(text)})" if kind == "number" else f"Sign({ord(text)})" if kind == "sign" else kind.capitalize()


def run_tokens(row):
    source = row.bytes("source")
    starts = [0] + [found.end() for found in re.finditer(b"\n", source)]
    try:
        found = tokens_of(source)
    except Code as code:
        return code_at(code)
    return {"tokens": "".join(f"{token_class(kind, text)} {starts[place[0] - 1] + place[1] - 1}+{len(text.encode())} {placed(place)}\n" for kind, text, place in found)}


def type_text(node):
    head, place, inner = node
    word = {"string": "Str"}.get(head, head.capitalize() if head in (*WORDS, "float", "double", "taint", "counter") else head)
    return f"{placed(place)} {word}" + (f"<{', '.join(map(type_text, inner))}>" if inner else "")


def module_lines(imports, declarations):
    for name, place in imports:
        yield f'import "{name}" {placed(place)}'
    for kind, name, place, fields in declarations:
        yield f"{kind} {name} {placed(place)}"
        for node, field, field_place, number, number_place in fields:
            yield f"  {type_text(node)} {field} {placed(field_place)}" + (f" = {number} {placed(number_place)}" if kind == "bag" else "")


def run_parse(row):
    try:
        parser = Parser(tokens_of(row.bytes("source")))
    except Code as code:
        return code_at(code)
    try:
        return {"module": "".join(line + "\n" for line in module_lines(*parser.module()))}
    except Code as code:
        return {"fault": f"token {parser.at} {code.args[0]}"}


def reaches_itself(edges, node):
    seen, more = set(), list(edges[node])
    while more and node not in seen:
        at = more.pop()
        if at not in seen:
            seen.add(at)
            more += edges[at]
    return node in seen


def run_topological_order(row):
    edges = [[int(word) for word in line.split()] for line in row.text("edges").splitlines()]
    before, waiting = [[] for _ in edges], [len(row) for row in edges]
    for node, others in enumerate(edges):
        for other in others:
            before[other].append(node)
    done = [node for node, count in enumerate(waiting) if not count]
    for node in done:
        for other in before[node]:
            waiting[other] -= 1
            if not waiting[other]:
                done.append(other)
    first = next((node for node, count in enumerate(waiting) if count and reaches_itself(edges, node)), None)
    return {"has": "order" if first is None else f"cycle {first}"}


class Loading(Definition):
    """The files of a definition alone."""

    def check(self):
        pass


def definition_or(row, action):
    """What a definition gives, or its first fault, and the names that were asked for, where the row has them."""
    library = Library(row.files, [int(bytes(value)) for name, _, value in row.all if name == "fail"])
    for _ in range(row.number("before") + 1 if "before" in row else 1):
        try:
            found = action(library, row.text("root"))
        except Unfetched:
            found = {"fault": "failed"}
        except Refused as refused:
            found = {"fault": refused.line.removeprefix("definition ")}
    return {**found, "asked": " ".join(library.asked)} if "asked" in row else found


def run_load(row):
    return definition_or(row, lambda library, root: {"loaded": " ".join(Loading(library, root).modules)})


def quoted(text):
    return '"' + text.replace("\\", "\\\\").replace('"', '\\"').replace("\t", "\\t") + '"'


def listed(texts):
    return "[" + ", ".join(texts) + "]"


def act_said(found):
    act = found[1]
    said = {"start": lambda: f"service: {quoted(found[3])}", "recv": lambda: f"service: {quoted(found[3])}, hex: {quoted(found[4])}",
            "set": lambda: f"parent: {found[3]}, path: {quoted(found[4])}, write: {quoted(found[5])}", "branch": lambda: f"parent: {found[3]}",
            "forward": lambda: f"parent: {found[3]}, service: {quoted(found[4])}", "trim": lambda: f"parent: {found[3]}, budget: {found[4]}",
            "join": lambda: f"parents: {listed(found[3].split(' '))}"}[act]()
    return f"{act.capitalize()} {{ {said} }}"


def run_statement(row):
    line = row.bytes("line")
    text = line.decode() if is_utf8(line) else ""
    found = next((match for match in (re.fullmatch(form, text, re.S) for form in Graph.FORMS) if match), None)
    if not found:
        return {"fault": "Form"}
    if found[1].startswith("service"):
        paths = found[3].split(" ")[1:]
        view = {"all": "All", "none": "Nothing"}.get(found[3], f"Only({listed(map(quoted, paths))})")
        return {"says": f"Service {{ form: {'Two' if found[1] == 'service2' else 'One'}, name: {quoted(found[2])}, view: {view} }}"}
    if found[1] == "show":
        return {"says": f"Show {{ step: {found[2]} }}"}
    return {"says": f"Step {{ number: {found[2]}, act: {act_said(found)} }}"}


# Rows of definitions and tables

def struct_len(shape):
    """How many fields the struct has that a shape holds, and none without a struct."""
    if shape[0] == "map":
        return struct_len(shape[2])
    return len(shape[1]) if shape[0] in ("scalar", "greatest", "set") and not isinstance(shape[1], str) else 0


def run_compile(row):
    return definition_or(row, lambda library, root: sizes_of(row, compile_bag(library, root, row.text("bag"))))


def sizes_of(row, fields):
    """How many slots a table has, and what else the row has of it."""
    shapes = [shape for _, _, shape in slots_of(fields)]
    found = {"fault": "", "slots": str(len(shapes))}
    if "fields" in row:
        found["fields"] = str(min(map(struct_len, shapes)))
    if "table" in row:
        found["table"] = print_table(fields)
    return found


def run_evolve(row):
    old, new = (compile_bag({"f": row.bytes(name)}, "f", row.text("bag")) for name in ("old", "new"))
    lines = [f"{'.'.join(way)} {change} {side_text(old, way)} to {side_text(new, way)}\n" for way, change in breaks(old, new)]
    return {"verdict": evolve(old, new), "breaks": "".join(lines)}


def side_text(fields, way):
    """The names on a way and the type at its end."""
    names, shape = [], ("bag", fields)
    for part in way:
        name, shape = ("*", shape[2]) if part == "*" else next(field[1:] for field in shape[1] if str(field[0]) == part)
        names.append(name)
    return f"{'.'.join(names)}: {type_words(shape)}"


def type_words(shape):
    kind = shape[1] if len(shape) > 1 and isinstance(shape[1], str) else "struct " + " ".join(shape[1]) if shape[0] in ("scalar", "greatest", "set") else ""
    return {"scalar": kind, "map": f"map<{kind}, {type_words(shape[2]) if shape[0] == 'map' else ''}>"}.get(shape[0], f"{shape[0]}<{kind}>" if kind else shape[0])


def run_read_table(row):
    try:
        return {"printed" if "printed" in row else "text": print_table(read_table("t", row.bytes("text"))), "fault": ""}
    except Refused as refused:
        place, code = refused.line.split(" ")[2:]
        return {"fault": f"{place.split(':')[0]} {code}"}


def numbers_of(path):
    return ".".join(str(kind_of(atom)[2]) for atom in path)


def run_accessors(row):
    slots = list(slots_of(read_table("t", row.bytes("table"))))
    others = [name for name in row.text("others").split(" ") if name not in [slot[0] for slot in slots]]
    names = "".join(f"{place} {name} {numbers_of(path)}\n" for place, (name, path, _) in enumerate(slots))
    return {"names": names, **({"others": " ".join(others)} if "others" in row else {})}


def slot_named(row):
    fields = read_table("t", row.bytes("table"))
    return fields, next(slot for slot in slots_of(fields) if slot[0] == row.text("name"))


def run_read_slot(row):
    fields, (_, at, shape) = slot_named(row)
    paths = paths_of(read_typed(fields, row.digits("context")))
    return {"state": "exact" if is_ended(paths, at) else "partial", "value": value_text(shape, read_slot(paths, at, shape))}


def run_write_slot(row):
    _, (_, at, shape) = slot_named(row)
    return {"context": digits_text(write_list(row.form(), encoding(shape, at, read_write(shape, row.bytes("text"), row.form()))))}


# Rows of the kinds of scalars

def sort_of(word):
    """What kind of values a word has."""
    if word in RANGES:
        return "signed" if RANGES[word][0] < 0 else "unsigned"
    return word


def is_of(kind, of, value):
    """Whether a value of one kind is one of another."""
    if isinstance(kind, str) and isinstance(of, str):
        return sort_of(kind) == sort_of(of) and (kind not in RANGES or RANGES[kind][0] <= value < RANGES[kind][1])
    if isinstance(kind, str) or isinstance(of, str):
        return False
    return len(kind) == len(of) and all(map(is_of, kind, of, value))


def kind_named(row, name):
    return parse_shape(["scalar", row.text(name)])[1]


def spelled_by(kind, text):
    return read_write(("scalar", kind), text, 2)


def run_spell(row):
    kind = kind_named(row, "kind")
    if "text" in row:
        return {"bytes": digits_text(spelled_by(kind, row.bytes("text")))}
    return {"text": "" if unspell_kind(kind, row.digits("bytes")) is None else "a value"}


def run_fits(row):
    of = kind_named(row, "of")
    value = unspell_kind(of, spelled_by(of, row.bytes("text")))
    return {"fits": "yes" if is_of(kind_named(row, "kind"), of, value) else "no"}


def run_compare(row):
    one, other = (spelled_by(kind_named(row, "kind"), row.bytes(name)) for name in ("text", "other"))
    return {"order": "less" if one < other else "greater" if one > other else "equal"}


# Rows of bags

def bag_of(row):
    """The fields of the row's bag."""
    file, bag = row.text("bag").split(" ")
    return compile_bag(row.files, file, bag)


def read_bag(fields, atoms):
    return read_slot(paths_of(atoms), (), ("bag", fields))


def said(shapes, values):
    """A line for each value."""
    return b"".join(value_text(shape, value) + b"\n" for shape, value in zip(shapes, values))


def said_fields(fields, value):
    return said([shape for _, _, shape in sorted(fields)], value)


def run_decode(row):
    fields, atoms = bag_of(row), row.atoms("atoms")
    place = first_ill_typed(fields, atoms)
    if place is not None:
        return {"ill_typed": str(place)}
    value, paths, slots = read_bag(fields, atoms), paths_of(atoms), list(slots_of(fields))
    found = {"ill_typed": "", "fields": said_fields(fields, value)}
    by_slot = said([shape for _, _, shape in slots], [read_slot(paths, at, shape) for _, at, shape in slots])
    if "slots" in row or by_slot != found["fields"]:
        found["slots"] = by_slot
    return {**found, "encoded" if "encoded" in row else "atoms": atoms_text(encoding(("bag", fields), (), value))}


def run_bottom(row):
    fields = bag_of(row)
    value = bottom(("bag", fields))
    return {"fields": said_fields(fields, value), "atoms": atoms_text(encoding(("bag", fields), (), value))}


def run_join(row):
    fields, one, other = bag_of(row), row.atoms("one"), row.atoms("other")
    joined = join(("bag", fields), read_bag(fields, one), read_bag(fields, other))
    merged = read_bag(fields, merge([one, other]))
    return {"fields": said_fields(fields, joined) if joined == merged else "the merge says something else"}


def holding(shape, word):
    """The value of a field that has this word, or None."""
    if shape[0] == "counter":
        return {word: 1}
    if shape[0] == "map" and shape[1] == "string" and shape[2][0] == "scalar":
        return {word: None}
    return word if shape == ("scalar", "string") else None


def run_encode(row):
    fields = bag_of(row)
    values = tuple(holding(shape, row.bytes("word")) for _, _, shape in sorted(fields))
    atoms = [] if None in values else encoding(("bag", fields), (), values)
    return {"atoms": "" if any(len(atom) > ATOM_MAX for atom in atoms) else atoms_text(atoms)}


def known_slots(row, slots):
    known = row.text("known") if "known" in row else "all"
    if known in ("all", "none"):
        return slots if known == "all" else []
    first, end = map(int, known.split(" "))
    return slots[first:end]


def run_normal(row):
    fields, atoms = bag_of(row), row.atoms("atoms")
    left, place = normal(known_slots(row, list(slots_of(fields))), atoms), first_ill_typed(fields, atoms)
    if place is not None:
        return {"ill_typed": str(place), "left": atoms_text(left)}
    read, kept = read_bag(fields, atoms), read_bag(fields, left)
    return {"ill_typed": "", "left": atoms_text(left), "fields": said_fields(fields, read) if read == kept else "the normal form says something else"}


def run_states(row):
    slots, atoms = list(slots_of(bag_of(row))), row.atoms("atoms")
    ended = [[is_ended(paths_of(each), at) for _, at, _ in slots] for each in (atoms, normal(known_slots(row, slots), atoms))]
    words = " ".join("exact" if is_exact else "partial" for is_exact in ended[0])
    return {"states": words if ended[0] == ended[1] else "the normal form has others"}


def shape_said(shape):
    """A shape as Rust prints it."""
    inside = [f"One({'Str' if word == 'string' else word.capitalize()})" if isinstance(word, str) else shape_said(word) for word in shape[1:]]
    return shape[0].capitalize() + (f"({', '.join(inside)})" if inside else "")


def run_slots(row):
    return {"slots": "".join(" ".join([name, *(str(kind_of(atom)[2]) for atom in at), shape_said(shape)]) + "\n" for name, at, shape in slots_of(bag_of(row)))}


def slots_before(fields, number):
    return len(list(slots_of([field for field in fields if field[0] < number])))


def range_of(fields, path):
    """The slots of the field with a name path: the first, and the number after the last."""
    name, dot, rest = path.partition(".")
    field = next((field for field in fields if field[1] == name), None)
    if field is None or dot and field[2][0] != "bag":
        return None
    before = slots_before(fields, field[0])
    if not dot:
        return before, before + len(list(slots_of([field])))
    inner = range_of(field[2][1], rest)
    return inner and (before + inner[0], before + inner[1])


def run_find(row):
    fields, name = bag_of(row), row.text("name")
    slot = next((str(place) for place, (own, _, _) in enumerate(slots_of(fields)) if own == name), "")
    return {"slot": slot, "range": " ".join(map(str, range_of(fields, name) or ()))}


def run_field_number(row):
    fields, number = bag_of(row), row.number("number")
    name = next((own for other, own, _ in fields if other == number), None)
    return {"name": name or "", "before": "" if name is None else str(slots_before(fields, number))}


CALLS = {
    "program": run_program, "tabled": run_tabled, "write": run_write, "check": run_check, "ended": run_ended, "around": run_around, "trim": run_trim,
    "forward": run_forward, "cut": run_cut, "drop": run_drop, "collect": run_collect,
    "unsigned": number_row(first_unsigned, put_unsigned), "signed": number_row(first_signed, put_signed), "kind": run_kind, "parts": run_parts, "order": run_order,
    "decimal": lambda row: {"number": decimal(row.bytes("text"))}, "number_below": lambda row: {"number": decimal(row.bytes("text"), row.number("bound"))},
    "take_number": run_take_number, "cut_word": run_cut_word, "word": run_word, "digits": run_digits,
    "lines": lambda row: {"lines": b"".join(b"%d %s\n" % line for line in lines_of(row.bytes("text")))},
    "read": lambda row: fault_or(lambda: read_list(row.digits("bytes")), "atoms", atoms_text),
    "context": lambda row: fault_or(lambda: read_context(row.digits("bytes")), "atoms", atoms_text),
    "merge": lambda row: {"merged": atoms_text(merge([[digits_of_any(word) for word in bytes(value).split()] for name, _, value in row.all if name == "context"]))},
    "merge_lists": lambda row: {"merged": atoms_text(greedy([[digits_of_any(word) for word in bytes(value).split()] for name, _, value in row.all if name == "list"]))},
    "carry": lambda row: {"lines": carry(row.digits("bytes"), row.number("width"))},
    "tokens": run_tokens, "parse": run_parse, "topological_order": run_topological_order, "load": run_load, "statement": run_statement,
    "compile": run_compile, "evolve": run_evolve, "read_table": run_read_table, "accessors": run_accessors, "read_slot": run_read_slot, "write_slot": run_write_slot,
    "scalar_word": lambda row: {"word": row.text("text") if row.text("text") in WORDS else ""},
    "spell": run_spell, "fits": run_fits, "compare": run_compare,
    "decode": run_decode, "bottom": run_bottom, "join": run_join, "encode": run_encode, "normal": run_normal, "states": run_states, "slots": run_slots,
    "find": run_find, "field_number": run_field_number,
    **{name: run_library for name in LIBRARY_CALLS},
}


def is_elsewhere(row):
    """Whether a row needs objects that fail, other than a library of definitions, or is of two kinds."""
    call = row.text("call")
    return call not in CALLS or bool(ELSEWHERE - ({"fail"} if call in ("load", "compile") else set()) & row.fields.keys())


def run_rows(names):
    """Runs the rows of files, prints what differs, and counts; calls that need failing objects are passed over."""
    rows = differing = passed = 0
    for name in names:
        with open(name, encoding="utf-8", errors="surrogateescape", newline="") as file:
            for line, fields in rows_of(file.read()):
                row = Row(fields)
                if is_elsewhere(row):
                    passed += 1
                    continue
                rows += 1
                found = {key: value.encode() if isinstance(value, str) else value for key, value in CALLS[row.text("call")](row).items()}
                wrong = [key for key, value in found.items() if value != row.bytes(key)]
                differing += bool(wrong)
                for key in wrong:
                    print(f"{name}:{line}: {key} is {found[key][:200]!r}, not {row.bytes(key)[:200]!r}")
    print(f"{rows} rows, {differing} differ, {passed} passed over")
    return differing


class Disk(dict):
    """The files of the folder in which it runs."""

    def __contains__(self, name):
        try:
            self[name] = open(name, "rb").read(FILE_MAX + 1)
        except (FileNotFoundError, NotADirectoryError):
            return False
        except OSError:
            raise Refused(4, "library failed") from None
        return True


def read_input():
    try:
        with open(0, "rb", closefd=False) as source:
            return source.read(INPUT_MAX + 1)
    except OSError:
        raise Refused(4, "source failed") from None


def say(stream, data):
    """Writes it all to a stream, by its number."""
    try:
        with open(stream, "wb", closefd=False) as sink:
            sink.write(data)
    except OSError:
        raise Refused(5, "sink failed") from None


def end(refused):
    """Writes the line of a refusal, and ends with its status."""
    try:
        say(2, refused.line.encode("utf-8", "surrogateescape") + b"\n")
    except Refused as sink:
        refused = sink
    os._exit(refused.status)


def expected(name):
    """What the parser would have gone on with in this file, where it is no module."""
    try:
        with open(name, "rb") as file:
            Parser(tokens_of(file.read())).module()
    except Code as code:
        if len(code.args) == 3:
            print(code.args[2])


def main():
    words = sys.argv[1:]
    if words[:1] == ["--rows"]:
        sys.exit(1 if run_rows(words[1:]) else 0)
    if words[:1] == ["--expected"] and len(words) == 2:
        return expected(words[1])
    signal.signal(signal.SIGINT, signal.SIG_DFL)
    try:
        if any("\ud800" <= letter <= "\udfff" for word in words for letter in word):
            raise Refused(7, "words refused")
        say(1, answer(words, Disk(), read_input))
    except MemoryError:
        end(Refused(6, "memory"))
    except Refused as refused:
        if refused.status == 7 and sys.stderr.isatty():
            print(__doc__.strip(), file=sys.stderr)
        end(refused)


if __name__ == "__main__":
    main()
