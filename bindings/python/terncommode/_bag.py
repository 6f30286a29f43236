"""What a service knows."""

from __future__ import annotations

from dataclasses import dataclass
from typing import Any, Dict, Iterable, List, Mapping, Optional, Tuple, Union

from . import _library
from ._context import Context, bytes_of, check_budget, check_context, check_form, data_of, form_one
from ._errors import BadWrite, Error, IllTyped, NoField, shown
from ._values import Counter, Shape, Table

__all__ = ["REPORT_LIMIT", "Bag", "Field", "Writes"]

REPORT_LIMIT = 1_048_576
"""How many bytes a text of values may have, unless a call says otherwise. A stranger's context of 3,000 bytes may have a text of millions."""

Writes = Union[str, bytes, Mapping[str, Any], Iterable[Tuple[str, Any]]]
"""What an update writes: name paths with values, or lines ``PATH TEXT`` as docs/FORMATS.md has them, each with its line feed."""


@dataclass(frozen=True)
class Field:
    """What a context says of a field.

    ``exact`` is whether nothing of it can have been cut off. Of a field that isn't exact the value is what is known: more may have
    been said.
    """

    value: Any
    exact: bool


class Bag:
    """The table that a service knows: the text that ``baggage table FILE BAG`` prints.

    Values are Python's own: a scalar is an int, a str, bytes or a bool, and None where it is absent; a struct is a tuple, a set a
    frozenset, a taint a bool; a counter is a dict of counts by writer (bytes), a map a dict by key, and a bag inside a map a dict by
    field name.
    """

    def __init__(self, table: str) -> None:
        """Raises BadTable where the text isn't that of a table."""
        if not isinstance(table, str):
            raise TypeError(f"a table is a str, not {type(table).__name__}")
        # A letter beyond ASCII stands in no table, nor does the question mark that takes its place.
        encoded = table.encode("ascii", "replace")
        _library.check_table(encoded)
        self._text = table
        self._encoded = encoded
        self._table = Table(table)
        self._counters: Dict[str, Bag] = {}

    @property
    def table(self) -> str:
        """The text of the table."""
        return self._text

    @property
    def slots(self) -> Tuple[str, ...]:
        """The name paths of all slots, in the order of the table."""
        return tuple(self._table.slots)

    def only(self, *paths: str) -> Bag:
        """The excerpt with these fields alone, each a slot or a bag with all that it has. Raises NoField.

        A service that knows fewer fields updates fewer and can be refused for the types of fewer.
        """
        for path in paths:
            if path not in self._table.fields:
                raise NoField(path=path)
        return Bag(self._table.excerpt(paths))

    def receive(self, data: bytes) -> Context:
        """What this service makes of bytes that came, in either form: their context, in normal form for the bag.

        Raises Fault where they aren't those of a context, and IllTyped, both with offsets in these bytes.
        """
        return Context._of(_library.update(_library.FORM_ONE, self._encoded, [bytes_of(data)], b""))

    def update(
        self,
        contexts: Iterable[Context],
        writes: Writes = (),
        budget: Optional[int] = None,
        form: int = 1,
    ) -> Context:
        """One step of this service: the merge of the contexts and of what is written, in normal form, cut to the budget.

        With one context and no write this is what a service does with a context that it received, and with several what it does where
        branches meet. Data of fields that the bag doesn't have are left as they are. ``form`` is the one in which the budget holds; in
        form two a written value may be longer.

        Raises IllTyped where a context has an atom that isn't spelled as the type of its field, NoField and BadWrite where a write is no
        write, and TypeError where an argument is of another type. A service does best to go on after IllTyped as one that doesn't know
        the field: with ``Context.join``, or with the excerpt without it.
        """
        check_form(form)
        most = _most(budget)
        inputs = [data_of(context) for context in contexts]
        lines, numbers = self._lines(writes)
        try:
            data = _library.update(form, self._encoded, inputs, lines, most)
        except (NoField, BadWrite) as refused:
            raise self._with_path(refused, lines, numbers, form) from None
        return Context._of(form_one(data))

    def write(self, context: Context, path: str, value: Any) -> Context:
        """The context with this value written to a field, in normal form.

        A write adds: of two values of a scalar the least stays (of a greatest the greatest), a set and a dict get what is new, and a
        value that says nothing, such as an empty set, adds nothing. Raises what ``update`` does.
        """
        return self.update([context], [(path, value)])

    def read(self, context: Context, path: str, limit: int = REPORT_LIMIT) -> Field:
        """What a context says of a field.

        Raises NoField, and IllTyped where an atom of any field of this bag isn't spelled as its type says:
        ``bag.only(path).read(context, path)`` looks at this field alone. Raises TooLong where its text has more bytes than the limit.
        """
        shape = self._shape(path)
        text = self.text(context, path, limit)
        return Field(shape.value_of(text.value), text.exact)

    def read_all(self, context: Context, limit: int = REPORT_LIMIT) -> Dict[str, Field]:
        """What a context says of all fields, in the order of the table. Raises IllTyped, and TooLong as ``report`` does."""
        lines = (line.split(" ", 2) for line in self.report(context, limit=limit).split("\n")[1:-1])
        return {path: Field(self._table.slots[path].value_of(text), state == "exact") for path, state, text in lines}

    def text(self, context: Context, path: str, limit: int = REPORT_LIMIT) -> Field:
        """What a context says of a field, as the text that a report has. Raises what ``read`` does.

        It may have letters that a terminal obeys: print ``printable(text)``.
        """
        self._shape(path)
        text, state = _library.read_field(self._encoded, data_of(context), path.encode("ascii"), _check_limit(limit))
        return Field(text.decode("utf-8"), state == _library.EXACT)

    def report(self, context: Context, form: int = 1, limit: int = REPORT_LIMIT) -> str:
        """The text of what a context says of all fields, as ``baggage decode`` prints it of the bytes in that form.

        Raises IllTyped, and TooLong where the text has more bytes than the limit: a map from keys to bags says all fields of each bag.
        It may have letters that a terminal obeys: print ``printable(text)``, line by line.
        """
        data = check_context(context).to_bytes(form)
        return _library.report(self._encoded, data, _check_limit(limit)).decode("utf-8")

    def keep(self, contexts: Iterable[Context], budget: Optional[int] = None, *, cut: bool = True, form: int = 1) -> Context:
        """What may leave a trust boundary: of the merge of the contexts only what stands below the slots of this bag, within the budget.

        With ``cut`` the rest is marked as cut off, so no field is read as exact that isn't, whatever table reads it. Without, nothing is
        said of the rest, and the kept fields are exactly as exact as before, for readers with this table. ``form`` is the one in which the
        budget holds.
        """
        check_form(form)
        most = _most(budget)
        inputs = [data_of(context) for context in contexts]
        others = _library.CUT if cut else _library.UNSAID
        data = _library.keep(form, others, self._encoded, inputs, most)
        return Context._of(form_one(data))

    def value_of(self, path: str, text: str) -> Any:
        """The value that the text of a report says of a field.

        Raises NoField, TypeError where the text is no str, and ValueError where it isn't the text of a value of the field.
        """
        return self._shape(path).value_of(text)

    def text_of(self, path: str, value: Any) -> str:
        """The text of a value of a field, as a report has it. Raises NoField, and BadWrite where the field can't hold the value."""
        try:
            return self._shape(path).format(value)
        except BadWrite as refused:
            raise BadWrite(0, refused.reason, path) from None

    def lines_of(self, path: str, value: Any) -> str:
        """The lines of the writes that together say a value of a field. Raises NoField, and BadWrite where the field can't hold the value."""
        try:
            return "".join(f"{path} {text}\n" for text in self._shape(path).writes(value))
        except BadWrite as refused:
            raise BadWrite(0, refused.reason, path) from None

    def _counter(self, path: str) -> Tuple[int, ...]:
        """The numbers on the way to a counter. Raises NoField and BadWrite."""
        if not isinstance(self._shape(path), Counter):
            raise BadWrite(0, "not a counter", path)
        return self._table.numbers(path)

    def _counted(self, path: str, total: int, number: int) -> int:
        """A counter's total with a number more. Raises BadWrite."""
        if isinstance(number, bool) or not isinstance(number, int) or number < 0:
            raise BadWrite(0, f"not a number to count: {shown(number)}", path)
        if total + number >= 2**64:
            raise BadWrite(0, "the count is longer than 64 bits", path)
        return total + number

    def _with_count(self, context: Context, path: str, writer: str, total: int) -> Context:
        """The context with a writer's total. Where the counter is ill typed, the total is joined to what is there."""
        if path not in self._counters:
            self._counters[path] = self.only(path)
        line = f"{path} 0x{writer}:{total}\n"
        try:
            return self._counters[path].update([context], line)
        except IllTyped:
            return context | self._counters[path].update([], line)

    def _shape(self, path: str) -> Shape:
        try:
            return self._table.slots[path]
        except KeyError:
            raise NoField(path=path) from None

    def _lines(self, writes: Writes) -> Tuple[bytes, List[int]]:
        """The lines of the writes and, where they aren't lines already, of each line the number of its write."""
        if isinstance(writes, str):
            # A str that isn't UTF-8 becomes bytes that aren't, which the library refuses with their line.
            return writes.encode("utf-8", "surrogatepass"), []
        if isinstance(writes, (bytes, bytearray, memoryview)):
            return bytes(writes), []
        lines: List[str] = []
        numbers: List[int] = []
        for number, write in enumerate(writes.items() if isinstance(writes, Mapping) else writes, 1):
            path, value = _pair(write)
            try:
                texts = list(self._shape(path).writes(value))
            except NoField as refused:
                raise NoField(number, refused.path) from None
            except BadWrite as refused:
                raise BadWrite(number, refused.reason, path) from None
            lines += [f"{path} {text}\n" for text in texts]
            numbers += [number] * len(texts)
        return "".join(lines).encode("utf-8"), numbers

    def _with_path(self, refused: Union[NoField, BadWrite], lines: bytes, numbers: List[int], form: int) -> Error:
        """What the library refuses of the lines, with the path that stands there, and with what is wrong as far as it can be told."""
        line = lines.split(b"\n")[refused.line - 1]
        path, blank, text = line.partition(b" ")
        name = path.decode("utf-8", "backslashreplace")
        if isinstance(refused, NoField):
            return NoField(refused.line, name)
        longest = f"longer than {_library.LONGEST_WRITTEN[form]:,} bytes"
        if numbers:
            # A value of several lines is one write. A line that this package makes of a value is refused for its length alone.
            return BadWrite(numbers[refused.line - 1], longest, name)
        words = self._table.words(name)
        said = f"no write to {words}: {shown(text.decode('utf-8', 'backslashreplace'))}"
        if refused.line > lines.count(b"\n"):
            said = "no line feed ends the line"
        elif not blank:
            said = "no blank and no value after the path"
        elif len(text) > _library.LONGEST_WRITTEN[form]:
            said = f"no write to {words}, or {longest}"
        return BadWrite(refused.line, said, name)

    def __eq__(self, other: object) -> bool:
        if not isinstance(other, Bag):
            return NotImplemented
        return self._text == other._text

    def __hash__(self) -> int:
        return hash((Bag, self._text))

    def __reduce__(self) -> Tuple[Any, Tuple[str]]:
        return Bag, (self._text,)

    def __repr__(self) -> str:
        return f"<Bag {' '.join(self.slots)}>"


def _most(budget: Optional[int]) -> int:
    """How many bytes a budget allows; None allows any number."""
    return _library.NO_BUDGET if budget is None else check_budget(budget)


def _pair(write: Any) -> Tuple[str, Any]:
    """The name path and the value of a write. Raises TypeError where it is no pair."""
    try:
        path, value = write
    except (TypeError, ValueError):
        raise TypeError(f"a write is a pair of a name path and a value, not {shown(write)}") from None
    return path, value


def _check_limit(limit: int) -> int:
    """The limit of a text. Raises TypeError where it is no int."""
    if isinstance(limit, bool) or not isinstance(limit, int):
        raise TypeError(f"a limit is an int, not {type(limit).__name__}")
    return max(limit, 0)
