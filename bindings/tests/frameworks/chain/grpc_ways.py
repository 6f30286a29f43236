"""Ways in which the metadata of a call over gRPC, or its trailer, is damaged."""
from typing import List, Sequence, Tuple, Union

KEY, STEP = "terncommode-bin", "terncommode-step"
HEAD = bytes.fromhex("ffffff02")
Metadata = List[Tuple[str, Union[str, bytes]]]


def atoms(value: bytes) -> bytes:
    """The bytes of a context without the head that form two has."""
    return value[12:] if value[:4] == HEAD else value


def with_values(metadata: Metadata, values: Sequence[bytes]) -> Metadata:
    return [(key, value) for key, value in metadata if key != KEY] + [(KEY, value) for value in values]


def changed(value: bytes, number: int) -> bytes:
    """One bit less or more in the head, which holds the length."""
    place = number % 12
    return value[:place] + bytes([value[place] ^ 1 << number % 8]) + value[place + 1:]


# What becomes of the metadata with this context; `number` is another one each time.
HARMLESS = {
    "whole": lambda metadata, value, number: metadata,
    "doubled": lambda metadata, value, number: with_values(metadata, [value, value]),
    "with_an_empty_one": lambda metadata, value, number: with_values(metadata, [HEAD + bytes(8), value]),
    "in_form_one": lambda metadata, value, number: with_values(metadata, [atoms(value)]),
    "without_its_step": lambda metadata, value, number: [pair for pair in metadata if pair[0] != STEP],
    "with_a_cut_step": lambda metadata, value, number: [(key, it[:-1] if key == STEP else it) for key, it in metadata],
}
HARMFUL = {
    "dropped": lambda metadata, value, number: with_values(metadata, []),
    "blank": lambda metadata, value, number: with_values(metadata, [b""]),
    "doubled_and_blank": lambda metadata, value, number: with_values(metadata, [value, b""]),
    "cut": lambda metadata, value, number: with_values(metadata, [value[:1 + number * 7 % (len(value) - 1)]]),
    "cut_at_an_atom": lambda metadata, value, number: with_values(metadata, [value[:12 + 9]]),
    "cut_to_its_head": lambda metadata, value, number: with_values(metadata, [value[:12]]),
    "doubled_and_cut": lambda metadata, value, number: with_values(metadata, [value, value[:-1]]),
    "changed_in_its_head": lambda metadata, value, number: with_values(metadata, [changed(value, number)]),
    "with_a_byte_more": lambda metadata, value, number: with_values(metadata, [value + b"\0"]),
}
# Ways of an answer alone: the call ends with an error, with the trailer or without it, or before the stock is asked.
STATUS = {"an_error_with_its_trailer": True, "an_error_without_its_trailer": False}
OF_REPLIES = [*STATUS, "an_error_before_the_call"]


def is_harmless(name: str) -> bool:
    """Whether all arrives."""
    return name in HARMLESS or STATUS.get(name, False)
