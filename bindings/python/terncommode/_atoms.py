"""The atoms of a context, for people: what stands in it without a table."""

from __future__ import annotations

from typing import Iterator, NamedTuple, Tuple, Union

from ._context import Context

__all__ = ["Atom", "Header", "atoms_of", "path_of"]

Header = Union[int, bytes]
"""What a header says: the number of a field, or the bytes of a key or a writer."""


class Atom(NamedTuple):
    """One atom, and where it stands."""

    way: Tuple[Header, ...]
    """The headers that lead to it; of a header itself they end with it."""
    kind: str
    """``header``, ``datum`` or ``marker``."""
    payload: bytes
    """What a datum holds."""
    size: int
    """How many bytes of form one it takes, its length included."""


def atoms_of(context: Context) -> Iterator[Atom]:
    """All atoms in order. One that is too long for form one has the size that it takes in form two."""
    way: Tuple[Header, ...] = ()
    for body, size in _frames(context):
        if not body:
            yield Atom((), "marker", b"", size)
        elif body[0] == 0:
            yield Atom(way, "datum", body[1:], size)
        else:
            level = (0xFF - body[0]) >> 3
            way = way[:level] + (body[1:] if body[0] & 1 else _number(body[1:]),)
            yield Atom(way, "header", b"", size)


def path_of(way: Tuple[Header, ...]) -> str:
    """A way as text: numbers of fields, and keys as hexadecimal digits after ``0x``."""
    return ".".join(f"0x{header.hex()}" if isinstance(header, bytes) else str(header) for header in way)


def _frames(context: Context) -> Iterator[Tuple[bytes, int]]:
    """The bytes of each atom, and how many bytes it takes with its length."""
    data = context.to_bytes()
    has_head = data.startswith(b"\xff\xff\xff\x02")
    at = 12 if has_head else 0
    while at < len(data):
        start, length = at, 0
        if has_head:
            ones = _ones(data[at])
            length, at = _number(data[at:at + ones + 1]), at + ones + 1
        else:
            shift = 0
            while data[at] & 0x80:
                length, shift, at = length | (data[at] & 0x7F) << shift, shift + 7, at + 1
            length, at = length | data[at] << shift, at + 1
        yield data[at:at + length], at + length - start
        at += length


def _ones(first: int) -> int:
    """How many ones a byte begins with."""
    return 8 - (first ^ 0xFF).bit_length()


def _number(spelled: bytes) -> int:
    """The number that an unsigned varint spells."""
    return int.from_bytes(bytes([spelled[0] & (0x7F >> _ones(spelled[0]))]) + spelled[1:], "big")
