"""What a request carries along."""

from __future__ import annotations

import base64
import re
import zlib
from typing import Iterable, Optional, Tuple, Type

from . import _library
from ._errors import Fault, shown

__all__ = ["Context"]

_PART = re.compile(rb"([A-Za-z0-9_-]*)\.([A-Za-z0-9_-]{6})")


class Context:
    """The bytes of a context. It is always valid and never changes, so a branch is the same object.

    ``Context()`` is the empty one, with which a request begins. ``Context.lost()`` stands for a context that was promised and can't
    be read. Two contexts are equal where they say the same in the same atoms.
    """

    __slots__ = ("_data",)
    _data: bytes

    def __init__(self, data: bytes = b"") -> None:
        """The context with these bytes, in either form. Raises Fault where they aren't those of a context."""
        # Inside a process all contexts are in form one, so that equal ones have equal bytes.
        self._data = _library.join(_library.FORM_ONE, [bytes_of(data)])

    @classmethod
    def _of(cls, data: bytes) -> Context:
        """The context with these bytes, which the library wrote in form one."""
        made = cls.__new__(cls)
        made._data = data
        return made

    @classmethod
    def lost(cls) -> Context:
        """The context of one marker: anything may be missing from it, so every field reads as partial."""
        return cls._of(_library.LOST)

    @classmethod
    def join(cls, contexts: Iterable[Context]) -> Context:
        """The merge of all of them, the empty context where there is none."""
        return cls._of(_library.join(_library.FORM_ONE, [data_of(context) for context in contexts]))

    def __or__(self, other: object) -> Context:
        if not isinstance(other, Context):
            return NotImplemented
        return Context.join([self, other])

    def cut(self, budget: int, form: int = 1) -> Context:
        """The context within so many bytes of that form.

        A longer one loses its last fields, and what it may have lost reads as partial from there on. A budget below the least one, 1
        or in form two 13, counts as that. Raises TypeError where the budget is no int.
        """
        check_form(form)
        check_budget(budget)
        return Context._of(form_one(_library.join(form, [self._data], budget)))

    def to_bytes(self, form: int = 1) -> bytes:
        """The bytes in that form; in form two also where form one is asked for and an atom is too long for it.

        The bytes of form one have no end of their own: send them only where their length travels with them.
        """
        check_form(form)
        return self._data if form == _library.FORM_ONE else _library.join(form, [self._data])

    def __bytes__(self) -> bytes:
        return self._data

    def __len__(self) -> int:
        return len(self._data)

    def __eq__(self, other: object) -> bool:
        if not isinstance(other, Context):
            return NotImplemented
        return self._data == other._data

    def __hash__(self) -> int:
        return hash((Context, self._data))

    def __reduce__(self) -> Tuple[Type[Context], Tuple[bytes]]:
        # In form two no bytes that were cut off go unnoticed.
        return Context, (self.to_bytes(2),)

    def to_json(self) -> str:
        """The string that stands for it in JSON: the text of a header, ``DATA.CHECK``."""
        return (_base64(self._data) + b"." + check_of(self._data)).decode("ascii")

    @classmethod
    def from_json(cls, text: object) -> Context:
        """The context that stands there in JSON. Lost where it isn't such a string, null and an empty one too."""
        data = data_of_part(text.encode("latin-1", "replace")) if isinstance(text, str) else None
        try:
            return cls.lost() if data is None else cls(data)
        except Fault:
            return cls.lost()

    def __repr__(self) -> str:
        """Its length and its check, which say whether two are equal, and nothing of what is in it: a repr goes into logs."""
        if self == Context.lost():
            return "<Context lost>"
        return f"<Context {len(self)} bytes, check {check_of(self._data).decode('ascii')}>"


def _base64(data: bytes) -> bytes:
    return base64.urlsafe_b64encode(data).rstrip(b"=")


def _from_base64(letters: bytes) -> Optional[bytes]:
    """The bytes that the letters spell; None where no bytes are spelled so."""
    if len(letters) % 4 == 1:
        return None
    data = base64.urlsafe_b64decode(letters + b"=" * (-len(letters) % 4))
    return data if _base64(data) == letters else None


def check_of(data: bytes) -> bytes:
    """The six letters of the bytes' CRC-32."""
    return _base64(zlib.crc32(data).to_bytes(4, "big"))


def data_of_part(part: bytes) -> Optional[bytes]:
    """The bytes that a text ``DATA.CHECK`` carries; None where it is no such text, or its check isn't theirs."""
    found = _PART.fullmatch(part)
    data = _from_base64(found[1]) if found else None
    return data if found and data is not None and check_of(data) == found[2] else None


def bytes_of(data: bytes) -> bytes:
    """The bytes of anything that has some."""
    if not isinstance(data, (bytes, bytearray, memoryview)):
        raise TypeError(f"bytes are wanted, not {type(data).__name__}")
    return bytes(data)


def check_context(context: Context) -> Context:
    """The context. Raises TypeError where it is anything else."""
    if not isinstance(context, Context):
        raise TypeError(f"a Context is wanted, not {type(context).__name__}")
    return context


def check_absent(absent: Context) -> Context:
    """What stands for no context. Raises TypeError where it isn't a Context itself."""
    if not isinstance(absent, Context):
        raise TypeError(f"absent is a Context, not {type(absent).__name__}")
    return absent


def data_of(context: Context) -> bytes:
    """The bytes of a context in form one."""
    return check_context(context)._data


def is_lost(context: Context) -> bool:
    """Whether the first atom is a marker, so that no field is exact."""
    return context._data.startswith(_library.LOST)


def form_one(data: bytes) -> bytes:
    """The bytes of a context, in either form, in form one."""
    return _library.join(_library.FORM_ONE, [data]) if data.startswith(_library.MARK) else data


def check_form(form: int) -> None:
    """Raises TypeError where the form is no int, ValueError where no form has the number."""
    if not _is_int(form):
        raise TypeError(f"a form is an int, 1 or 2, not {type(form).__name__}")
    if form not in (_library.FORM_ONE, _library.FORM_TWO):
        raise ValueError(f"a form is 1 or 2, not {shown(form)}")


def check_budget(budget: int) -> int:
    """The budget. Raises TypeError where it is no int."""
    if not _is_int(budget):
        raise TypeError(f"a budget is an int, not {type(budget).__name__}")
    return budget


def _is_int(number: object) -> bool:
    """Whether it is an int. A bool is none here: who hands in True means something else than 1."""
    return isinstance(number, int) and not isinstance(number, bool)
