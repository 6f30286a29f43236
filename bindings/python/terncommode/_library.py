"""The shared library: where it is found, its calls, and its refusals as exceptions.

A call releases the interpreter's lock while it runs, and the library keeps no state, so threads may call it at any time.
"""

from __future__ import annotations

import ctypes
import os
from typing import Any, NoReturn, Sequence, Tuple

from ._errors import BadTable, BadWrite, Error, Fault, IllTyped, NoField, TooLong

MAJOR = 2
FORM_ONE, FORM_TWO = 1, 2
LEAST_BUDGET = {FORM_ONE: 1, FORM_TWO: 13}
NO_BUDGET = 2**64 - 1
LONGEST_WRITTEN = {FORM_ONE: 65_534, FORM_TWO: 1_048_575}
LOST = b"\x00"
MARK = b"\xff\xff\xff\x02"

OK, FAULT, ROOM, MEMORY, FORM, _BUDGET, TABLE, FIELD, WRITE, TYPE = range(10)
EXACT, PARTIAL = 1, 2
TEXT = 1
CUT, UNSAID = 1, 2

_FAULTS = ("CutLength", "BadCount", "AtomTooLong", "LongForm", "CutBody", "BadPrefix", "BadIndex", "LevelJump", "OutOfOrder")
_TABLE_FAULTS = ("Head", "Form", "Depth", "Order", "DuplicateField", "TooDeep", "TooManySlots")


class Answer(ctypes.Structure):
    """``baggage_answer``."""

    _fields_ = [
        ("status", ctypes.c_uint32),
        ("code", ctypes.c_uint32),
        ("context", ctypes.c_size_t),
        ("offset", ctypes.c_size_t),
        ("size", ctypes.c_size_t),
    ]


class Span(ctypes.Structure):
    """``baggage_span``. What it points at stays alive with it."""

    _fields_ = [("bytes", ctypes.c_char_p), ("length", ctypes.c_size_t)]


_SLICE = [ctypes.c_char_p, ctypes.c_size_t]
_SPANS = [ctypes.POINTER(Span), ctypes.c_size_t]
_ROOM = [ctypes.c_void_p, ctypes.c_size_t]
_CALLS = {
    "baggage_join": [ctypes.c_uint32, *_SPANS, ctypes.c_uint64, *_ROOM],
    "baggage_update": [ctypes.c_uint32, *_SLICE, *_SPANS, *_SLICE, ctypes.c_uint64, *_ROOM],
    "baggage_keep": [ctypes.c_uint32, ctypes.c_uint32, *_SLICE, *_SPANS, ctypes.c_uint64, *_ROOM],
    "baggage_report": [ctypes.c_uint32, *_SLICE, *_SLICE, *_ROOM],
    "baggage_read_field": [*_SLICE, *_SLICE, *_SLICE, *_ROOM],
    "baggage_check_table": [*_SLICE],
}


def _load() -> ctypes.CDLL:
    """The library that TERNCOMMODE_LIBRARY names, else the one in this package, else the one that the system's loader finds."""
    inside = os.path.join(os.path.dirname(os.path.abspath(__file__)), f"libbaggage.so.{MAJOR}")
    name = os.environ.get("TERNCOMMODE_LIBRARY") or (inside if os.path.exists(inside) else f"libbaggage.so.{MAJOR}")
    try:
        library = ctypes.CDLL(name)
    except OSError as error:
        raise ImportError(
            f"terncommode needs the shared library libbaggage.so.{MAJOR}: {error}. Install the wheel, which has it inside, "
            "or let TERNCOMMODE_LIBRARY name the file."
        ) from None
    try:
        library.baggage_version.argtypes, library.baggage_version.restype = [], ctypes.c_uint32
        version = library.baggage_version()
        for call, types in _CALLS.items():
            getattr(library, call).argtypes, getattr(library, call).restype = types, Answer
    except AttributeError as error:
        raise ImportError(f"{name} isn't the library of baggage contexts: {error}") from None
    if version // 10000 != MAJOR:
        raise ImportError(f"{name} has version {version // 10000}, and this package needs version {MAJOR}")
    return library


_library = _load()


def _named(names: Sequence[str], code: int) -> str:
    return names[code - 1] if 0 < code <= len(names) else str(code)


def refuse(answer: Answer) -> NoReturn:
    """Raises what an answer other than OK says."""
    if answer.status == FAULT:
        raise Fault(answer.context, answer.offset, _named(_FAULTS, answer.code))
    if answer.status == TYPE:
        raise IllTyped(answer.context, answer.offset)
    if answer.status == FIELD:
        raise NoField(answer.offset)
    if answer.status == WRITE:
        raise BadWrite(answer.offset)
    if answer.status == TABLE:
        raise BadTable(answer.offset, _named(_TABLE_FAULTS, answer.code))
    if answer.status == MEMORY:
        raise MemoryError("a context or a text has no place in memory")
    if answer.status == FORM:
        raise ValueError("a form is 1 or 2")
    raise Error(f"the library answers with status {answer.status}")


def _filled(name: str, size: int, *arguments: Any, limit: int = NO_BUDGET) -> Tuple[bytes, int]:
    """What a call writes into a room, first one of this size and then, where it is too short, as long as it asks for, up to the limit."""
    call = getattr(_library, name)
    size = min(size, limit)
    while True:
        room = ctypes.create_string_buffer(max(size, 1))
        answer = call(*arguments, room, size)
        if answer.status == OK:
            return ctypes.string_at(room, answer.size), answer.code
        if answer.status != ROOM:
            refuse(answer)
        if answer.size > limit:
            raise TooLong(answer.size, limit)
        size = answer.size


def _spans(inputs: Sequence[bytes]) -> Tuple[Any, int]:
    """The inputs as an array that is never null, and their number."""
    count = len(inputs)
    return (Span * max(count, 1))(*[Span(data, len(data)) for data in inputs]), count


def _least(form: int, budget: int) -> int:
    """The budget, raised to the least one of the form, which is looked at by the call itself."""
    return min(max(budget, LEAST_BUDGET.get(form, 1)), NO_BUDGET)


def join(form: int, inputs: Sequence[bytes], budget: int = NO_BUDGET) -> bytes:
    """The merge of the inputs, cut to the budget."""
    room = sum(map(len, inputs)) + 12
    return _filled("baggage_join", room, form, *_spans(inputs), _least(form, budget))[0]


def update(form: int, table: bytes, inputs: Sequence[bytes], writes: bytes, budget: int = NO_BUDGET) -> bytes:
    """One step of a service that knows the table."""
    room = sum(map(len, inputs)) + len(writes) + 64
    return _filled("baggage_update", room, form, table, len(table), *_spans(inputs), writes, len(writes), _least(form, budget))[0]


def keep(form: int, others: int, table: bytes, inputs: Sequence[bytes], budget: int = NO_BUDGET) -> bytes:
    """What may leave a trust boundary."""
    room = sum(map(len, inputs)) + 64
    return _filled("baggage_keep", room, form, others, table, len(table), *_spans(inputs), _least(form, budget))[0]


def report(table: bytes, context: bytes, limit: int) -> bytes:
    """The text of what a context says of all slots of the table."""
    return _filled("baggage_report", 4 * len(context) + 256, TEXT, table, len(table), context, len(context), limit=limit)[0]


def read_field(table: bytes, context: bytes, name: bytes, limit: int) -> Tuple[bytes, int]:
    """The text of what a context says of a field, and its state."""
    return _filled("baggage_read_field", 2 * len(context) + 64, table, len(table), context, len(context), name, len(name), limit=limit)


def check_table(table: bytes) -> int:
    """How many slots the table has."""
    answer = _library.baggage_check_table(table, len(table))
    if answer.status != OK:
        refuse(answer)
    return int(answer.size)
