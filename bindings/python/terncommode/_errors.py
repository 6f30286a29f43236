"""What can be wrong, each with what it is about."""

from __future__ import annotations

import re
from typing import Any, Optional

__all__ = ["BadTable", "BadWrite", "Error", "Fault", "IllTyped", "NoField", "NoRequest", "TooLong", "printable"]

_SHOWN = 80

# What a terminal or a log may take for more than a letter: controls, line separators, and what turns the direction of a text.
_UNPRINTABLE = re.compile("[\x00-\x1f\x7f-\x9f\u2028\u2029\u202a-\u202e\u2066-\u2069\ud800-\udfff]")


def printable(text: str) -> str:
    """A text for people: controls, line separators and what turns a text's direction are escaped, such as ``\\x9b``."""
    return _UNPRINTABLE.sub(lambda found: found[0].encode("unicode_escape").decode("ascii"), text)


def shortened(text: str) -> str:
    """As much of a text as a message shows."""
    return text if len(text) <= _SHOWN else text[:_SHOWN] + ".."


def shown(value: Any) -> str:
    """What a message shows of a value: its repr, or the beginning of it."""
    try:
        return shortened(repr(value))
    except Exception:
        # An int may have more digits than Python prints.
        return f"<{type(value).__name__} that can't be shown>"


class Error(Exception):
    """Anything that the library refuses. Out of memory is a MemoryError instead."""


class Fault(Error, ValueError):
    """Bytes that aren't those of a context.

    ``input`` says which of the inputs it is, from 0 on, ``offset`` how many of its bytes stand before the fault, and ``code``
    is the fault's name as the program prints it, such as ``CutBody``.
    """

    def __init__(self, input: int, offset: int, code: str) -> None:
        super().__init__(input, offset, code)
        self.input = input
        self.offset = offset
        self.code = code

    def __str__(self) -> str:
        return f"context {self.input}: {self.code} at byte {self.offset}"


class IllTyped(Error, ValueError):
    """A context with an atom that isn't spelled as the type of its field says.

    ``input`` says which of the inputs it is, from 0 on, and ``offset`` how many of its bytes stand before the atom.
    """

    def __init__(self, input: int, offset: int) -> None:
        super().__init__(input, offset)
        self.input = input
        self.offset = offset

    def __str__(self) -> str:
        return f"context {self.input}: ill typed at byte {self.offset}"


class NoField(Error, LookupError):
    """A name path that no slot of the bag has: ``path``. ``line`` is the number of the write, from 1 on, or 0 outside writes."""

    def __init__(self, line: int = 0, path: Optional[str] = None) -> None:
        super().__init__(line, path)
        self.line = line
        self.path = path

    def __str__(self) -> str:
        where = f"write {self.line}: " if self.line else ""
        return where + ("no such field" if self.path is None else f"no field {shown(self.path)}")


class BadWrite(Error, ValueError):
    """A value that the field can't hold, or a text that is no write to it.

    ``line`` is the number of the write, from 1 on, or 0 outside writes. ``path`` is that of the field, where it is a write, and
    ``reason`` says what is wrong.
    """

    def __init__(self, line: int = 0, reason: str = "no write", path: Optional[str] = None) -> None:
        super().__init__(line, reason, path)
        self.line = line
        self.reason = reason
        self.path = path

    def __str__(self) -> str:
        where = (f"write {self.line}: " if self.line else "") + (f"{shortened(self.path)}: " if self.path is not None else "")
        return printable(where + self.reason)


class TooLong(Error, ValueError):
    """A text that would be longer than its limit: it has ``length`` bytes and may have ``limit``."""

    def __init__(self, length: int, limit: int) -> None:
        super().__init__(length, limit)
        self.length = length
        self.limit = limit

    def __str__(self) -> str:
        return f"a text of {self.length:,} bytes is longer than its limit of {self.limit:,}"


class NoRequest(Error, RuntimeError):
    """Something was to be said of a request where none runs."""


class BadTable(Error, ValueError):
    """A text that isn't that of a table.

    ``line`` is the number of its first bad line, from 1 on, and ``code`` the fault's name as the program prints it, such as
    ``Order``.
    """

    def __init__(self, line: int, code: str) -> None:
        super().__init__(line, code)
        self.line = line
        self.code = code

    def __str__(self) -> str:
        return f"table line {self.line}: {self.code}"
