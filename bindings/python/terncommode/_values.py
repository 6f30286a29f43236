"""Values and their texts: what a table's text says of a field, read and written as Python's own types.

===================  ======================================================================================
shape                value
===================  ======================================================================================
taint                ``bool``
scalar, greatest     ``bool``, ``int``, ``str`` or ``bytes``, a struct as a ``tuple`` of these; ``None`` where absent
set                  ``frozenset`` of these
counter              ``dict`` of counts by writer, a writer as ``bytes``; the total is ``sum(value.values())``
map                  ``dict`` of values by key
bag, inside a map    ``dict`` of values by field name, with all fields
===================  ======================================================================================

Three texts belong to a value: that of a report, which says the whole value, and the texts of the writes that say it, each of which
says one part. docs/FORMATS.md has both, in its sections on texts of values and on writes.
"""

from __future__ import annotations

import re
from typing import Any, Dict, FrozenSet, Iterable, Iterator, List, Mapping, Match, Optional, Pattern, Tuple

from ._errors import BadWrite, shortened, shown

_INTEGERS = {
    "int32": (-(2**31), 2**31),
    "int64": (-(2**63), 2**63),
    "sint32": (-(2**31), 2**31),
    "sint64": (-(2**63), 2**63),
    "uint32": (0, 2**32),
    "uint64": (0, 2**64),
    "fixed32": (0, 2**32),
    "fixed64": (0, 2**64),
    "sfixed32": (-(2**31), 2**31),
    "sfixed64": (-(2**63), 2**63),
}

_TAINT = re.compile("on|off")
_BOOL = re.compile("true|false")
_INTEGER = re.compile("-?[0-9]{1,20}")
_STRING = re.compile(r'"([^"\\]*(?:\\(?:["\\]|x[0-9a-f]{2})[^"\\]*)*)"')
_BYTES = re.compile("0x((?:[0-9a-f]{2})*)")
_ESCAPE = re.compile(r'\\(?:(["\\])|x(..))')
_SPECIAL = re.compile('["\\\\\x00-\x1f\x7f]')
_COUNT = re.compile("[0-9]{1,20}")
_TOTAL = re.compile("[0-9]+")


class _Text:
    """A text that is taken from its front."""

    def __init__(self, text: str) -> None:
        self.text = text
        self.at = 0

    def take(self, pattern: Pattern[str]) -> Match[str]:
        found = pattern.match(self.text, self.at)
        if found is None:
            raise ValueError(f"not the text of a value: {self.text[self.at:self.at + 40]!r}")
        self.at = found.end()
        return found

    def skip(self, sign: str) -> bool:
        """Whether the sign comes next, which then is passed over."""
        if not self.text.startswith(sign, self.at):
            return False
        self.at += len(sign)
        return True

    def expect(self, sign: str) -> None:
        if not self.skip(sign):
            raise ValueError(f"not the text of a value: {sign!r} is missing before {self.text[self.at:self.at + 40]!r}")

    def listed(self, opening: str, closing: str) -> Iterator[None]:
        """Once for each element of a list, at its first character."""
        self.expect(opening)
        if self.skip(closing):
            return
        while True:
            yield
            if self.skip(closing):
                return
            self.expect(",")


def quote(text: str) -> str:
    """The literal of a string."""
    try:
        text.encode("utf-8")
    except UnicodeEncodeError:
        raise BadWrite(reason=f"a string that isn't UTF-8: {shown(text)}") from None

    def escaped(found: Match[str]) -> str:
        sign = found[0]
        return "\\" + sign if sign in '"\\' else f"\\x{ord(sign):02x}"

    return '"' + _SPECIAL.sub(escaped, text) + '"'


def _unquoted(body: str) -> str:
    return _ESCAPE.sub(lambda found: found[1] or chr(int(found[2], 16)), body)


def _wrong(value: Any, wanted: str) -> BadWrite:
    return BadWrite(reason=f"not {wanted}: {shown(value)}")


class _Kind:
    """What a scalar is: one word, or the words of a struct."""

    def parse(self, text: _Text) -> Any:
        """The value whose text comes next."""
        raise NotImplementedError

    def format(self, value: Any) -> str:
        """The literal of a value."""
        raise NotImplementedError


class _Word(_Kind):

    def __init__(self, word: str) -> None:
        self.word = word

    def parse(self, text: _Text) -> Any:
        if self.word == "bool":
            return text.take(_BOOL)[0] == "true"
        if self.word == "string":
            return _unquoted(text.take(_STRING)[1])
        if self.word == "bytes":
            return bytes.fromhex(text.take(_BYTES)[1])
        return int(text.take(_INTEGER)[0])

    def format(self, value: Any) -> str:
        if self.word == "bool":
            if not isinstance(value, bool):
                raise _wrong(value, "a bool")
            return "true" if value else "false"
        if self.word == "string":
            if not isinstance(value, str):
                raise _wrong(value, "a str")
            return quote(value)
        if self.word == "bytes":
            if not isinstance(value, (bytes, bytearray, memoryview)):
                raise _wrong(value, "bytes")
            return "0x" + bytes(value).hex()
        low, high = _INTEGERS[self.word]
        if isinstance(value, bool) or not isinstance(value, int) or not low <= value < high:
            raise _wrong(value, f"an int from {low} to {high - 1}")
        return str(int(value))


class _Struct(_Kind):

    def __init__(self, words: List[str]) -> None:
        self.words = [_Word(word) for word in words]

    def parse(self, text: _Text) -> Tuple[Any, ...]:
        values: List[Any] = []
        for _ in text.listed("(", ")"):
            if len(values) == len(self.words):
                raise ValueError("not the text of a value: a struct with too many fields")
            values.append(self.words[len(values)].parse(text))
        if len(values) < len(self.words):
            raise ValueError("not the text of a value: a struct with too few fields")
        return tuple(values)

    def format(self, value: Any) -> str:
        if not isinstance(value, (tuple, list)) or len(value) != len(self.words):
            raise _wrong(value, f"a tuple of {len(self.words)}")
        return "(" + ",".join(word.format(part) for word, part in zip(self.words, value)) + ")"


class Shape:
    """What a field holds."""

    def parse(self, text: _Text) -> Any:
        """The value whose text comes next."""
        raise NotImplementedError

    def format(self, value: Any) -> str:
        """The text of a value, as a report has it."""
        raise NotImplementedError

    def writes(self, value: Any) -> Iterator[str]:
        """The texts of writes that together say the value; none where it says nothing."""
        raise NotImplementedError

    def value_of(self, text: str) -> Any:
        """The value that a whole text says. Raises TypeError where it is no str, ValueError where it isn't the text of a value."""
        if not isinstance(text, str):
            raise TypeError(f"the text of a value is a str, not {type(text).__name__}")
        rest = _Text(text)
        value = self.parse(rest)
        if rest.at != len(text):
            raise ValueError(f"not the text of a value: {text[rest.at:rest.at + 40]!r} is left")
        return value


class _Taint(Shape):
    def parse(self, text: _Text) -> bool:
        return text.take(_TAINT)[0] == "on"

    def format(self, value: Any) -> str:
        if not isinstance(value, bool):
            raise _wrong(value, "a bool")
        return "on" if value else "off"

    def writes(self, value: Any) -> Iterator[str]:
        if self.format(value) == "on":
            yield "on"


class _Scalar(Shape):
    def __init__(self, kind: _Kind) -> None:
        self.kind = kind

    def parse(self, text: _Text) -> Any:
        # A negative number begins with the sign, too.
        is_absent = text.text.startswith("-", text.at) and not text.text[text.at + 1:text.at + 2].isdigit()
        return None if is_absent and text.skip("-") else self.kind.parse(text)

    def format(self, value: Any) -> str:
        return "-" if value is None else self.kind.format(value)

    def writes(self, value: Any) -> Iterator[str]:
        if value is not None:
            yield self.kind.format(value)


class _Set(Shape):
    def __init__(self, kind: _Kind) -> None:
        self.kind = kind

    def parse(self, text: _Text) -> FrozenSet[Any]:
        return frozenset([self.kind.parse(text) for _ in text.listed("{", "}")])

    def format(self, value: Any) -> str:
        return "{" + ",".join(self.writes(value)) + "}"

    def writes(self, value: Any) -> Iterator[str]:
        if not isinstance(value, (frozenset, set, tuple, list)):
            raise _wrong(value, "a set")
        elements = {self.kind.format(element): element for element in value}
        for text, _ in sorted(elements.items(), key=_order_of):
            yield text


class Counter(Shape):
    def parse(self, text: _Text) -> Dict[bytes, int]:
        counts: Dict[bytes, int] = {}
        text.take(_TOTAL)
        for _ in text.listed("{", "}"):
            writer = bytes.fromhex(text.take(_BYTES)[1])
            text.expect(":")
            counts[writer] = int(text.take(_COUNT)[0])
        return counts

    def format(self, value: Any) -> str:
        counts = self._counts(value)
        return f"{sum(counts.values())}{{" + ",".join(f"0x{writer.hex()}:{counts[writer]}" for writer in sorted(counts)) + "}"

    def writes(self, value: Any) -> Iterator[str]:
        counts = self._counts(value)
        for writer in sorted(counts):
            yield f"0x{writer.hex()}:{counts[writer]}"

    def _counts(self, value: Any) -> Dict[bytes, int]:
        """The counts by writer; a writer that is a str is its UTF-8."""
        if not isinstance(value, Mapping):
            raise _wrong(value, "a dict of counts by writer")
        counts: Dict[bytes, int] = {}
        for writer, count in value.items():
            if isinstance(writer, str):
                quote(writer)
                writer = writer.encode("utf-8")
            if not isinstance(writer, (bytes, bytearray, memoryview)):
                raise _wrong(writer, "a writer, which is bytes or a str")
            if isinstance(count, bool) or not isinstance(count, int) or not 0 <= count < 2**64:
                raise _wrong(count, "a count of 64 bits")
            counts[bytes(writer)] = max(int(count), counts.get(bytes(writer), 0))
        return counts


class _Map(Shape):
    def __init__(self, key: str, shape: Shape) -> None:
        self.key = _Word(key)
        self.shape = shape

    def parse(self, text: _Text) -> Dict[Any, Any]:
        values: Dict[Any, Any] = {}
        for _ in text.listed("{", "}"):
            key = self.key.parse(text)
            text.expect(":")
            values[key] = self.shape.parse(text)
        return values

    def format(self, value: Any) -> str:
        return "{" + ",".join(f"{key}:{self.shape.format(inner)}" for key, inner in self._entries(value)) + "}"

    def writes(self, value: Any) -> Iterator[str]:
        for key, inner in self._entries(value):
            texts = list(self.shape.writes(inner))
            if not texts:
                raise BadWrite(reason=f"no write says a key without a value, as {shortened(key)} is here")
            for text in texts:
                yield f"{key}:{text}"

    def _entries(self, value: Any) -> List[Tuple[str, Any]]:
        """The literals of the keys with their values, in the order of the keys."""
        if not isinstance(value, Mapping):
            raise _wrong(value, "a dict of values by key")
        entries = [(self.key.format(key), key, inner) for key, inner in value.items()]
        return [(text, inner) for text, _, inner in sorted(entries, key=_order_of)]


class BagShape(Shape):
    """A bag: its fields by name, in the order of their numbers."""

    def __init__(self) -> None:
        self.fields: Dict[str, Shape] = {}

    def parse(self, text: _Text) -> Dict[str, Any]:
        values: Dict[str, Any] = {}
        names = iter(self.fields)
        for _ in text.listed("[", "]"):
            name = next(names, None)
            if name is None:
                raise ValueError("not the text of a value: a bag with too many fields")
            text.expect(name + "=")
            values[name] = self.fields[name].parse(text)
        if len(values) < len(self.fields):
            raise ValueError("not the text of a value: a bag with too few fields")
        return values

    def format(self, value: Any) -> str:
        inner = self._fields(value)
        texts = (f"{name}={shape.format(inner.get(name, _bottom(shape)))}" for name, shape in self.fields.items())
        return "[" + ",".join(texts) + "]"

    def writes(self, value: Any) -> Iterator[str]:
        inner = self._fields(value)
        for name, shape in self.fields.items():
            if name in inner:
                for text in shape.writes(inner[name]):
                    yield f".{name}={text}"

    def _fields(self, value: Any) -> Mapping[str, Any]:
        if not isinstance(value, Mapping):
            raise _wrong(value, "a dict of values by field name")
        for name in value:
            if name not in self.fields:
                raise BadWrite(reason=f"the bag has no field {shown(name)}")
        return value


def _bottom(shape: Shape) -> Any:
    """The value that says nothing."""
    if isinstance(shape, _Taint):
        return False
    if isinstance(shape, _Scalar):
        return None
    return frozenset() if isinstance(shape, _Set) else {}


def _order_of(entry: Tuple[Any, ...]) -> Any:
    """By the second of an entry, which is a value or a key."""
    return _ordered(entry[1])


def _ordered(value: Any) -> Any:
    """A key in the order of the formats, which is that of the values; bytes of any type count alike."""
    if isinstance(value, (tuple, list)):
        return tuple(_ordered(part) for part in value)
    return bytes(value) if isinstance(value, (bytearray, memoryview)) else value


def _kind(text: str) -> _Kind:
    return _Struct(text[1:-1].split(",")) if text.startswith("(") else _Word(text)


def _shape(words: List[str]) -> Tuple[Shape, Optional[BagShape]]:
    """The shape that the words of a table's line say, and the bag in it whose fields the next lines say."""
    if words[0] == "map":
        inner, bag = _shape(words[2:])
        return _Map(words[1], inner), bag
    if words[0] == "taint":
        return _Taint(), None
    if words[0] == "counter":
        return Counter(), None
    if words[0] == "set":
        return _Set(_kind(words[1])), None
    if words[0] == "bag":
        bag = BagShape()
        return bag, bag
    return _Scalar(_kind(words[1])), None


class Lines:
    """A field that is reached through bags: its lines in the text, one after another, and those of the bags on the way to it."""

    def __init__(self, way: Tuple[int, ...], first: int, shape: Shape) -> None:
        self.way = way
        self.first = first
        self.last = first
        self.shape = shape


class Table:
    """What the text of a table says, which is one that the library accepts."""

    def __init__(self, text: str) -> None:
        self.lines = text.split("\n")[:-1]
        self.fields: Dict[str, Lines] = {}
        self.slots: Dict[str, Shape] = {}
        self._read()

    def _read(self) -> None:
        # Of each open bag: its shape, its name path (None inside a map), and the field that is it.
        open_bags: List[Tuple[BagShape, Optional[str]]] = [(BagShape(), "")]
        on_way: List[Lines] = []
        for number, line in enumerate(self.lines[1:], 1):
            words = line.split(" ")
            depth, name = int(words[0]), words[2]
            del open_bags[depth + 1:], on_way[depth:]
            bag, path = open_bags[depth]
            shape, inner = _shape(words[3:])
            bag.fields[name] = shape
            here = None if path is None else f"{path}.{name}" if path else name
            for field in on_way:
                field.last = number
            if here is not None:
                self.fields[here] = Lines(tuple(field.first for field in on_way), number, shape)
                on_way.append(self.fields[here])
                if shape is not inner:
                    self.slots[here] = shape
            if inner is not None:
                open_bags.append((inner, here if shape is inner else None))

    def words(self, path: str) -> str:
        """The type of a field, as the table says it."""
        return self.lines[self.fields[path].first].split(" ", 3)[3]

    def numbers(self, path: str) -> Tuple[int, ...]:
        """The numbers on the way to a field: all that a context has of its name."""
        field = self.fields[path]
        return tuple(int(self.lines[number].split(" ", 2)[1]) for number in (*field.way, field.first))

    def excerpt(self, paths: Iterable[str]) -> str:
        """The text of the table with the fields at these paths alone, and with the bags on the way to them."""
        kept = {0}
        for path in paths:
            field = self.fields[path]
            kept.update(field.way, range(field.first, field.last + 1))
        return "".join(self.lines[number] + "\n" for number in sorted(kept))
