"""Contexts in headers and in metadata.

In text a context is ``DATA.CHECK``: its bytes in base64url without padding, a dot, and their CRC-32 in six letters. So what was cut or
changed on the way isn't taken for a context: it reads as lost. Several values, one header each or with commas between them, are merged.
On a carrier of bytes a context is in form two, which says how long it is.
"""

from __future__ import annotations

import re
from typing import Any, Dict, Iterable, List, Optional, Tuple, Union
from urllib.parse import unquote_plus

from . import _library
from ._context import Context, bytes_of, check_absent, check_context, data_of_part
from ._errors import Fault

__all__ = [
    "FOR_HEADER",
    "GRPC_BUDGET",
    "GRPC_KEY",
    "HEADER",
    "REPLY_BUDGET",
    "REQUEST_BUDGET",
    "extract",
    "extract_reply",
    "from_binary",
    "from_header",
    "inject",
    "inject_reply",
    "to_binary",
    "to_header",
]

HEADER = "terncommode"
"""The name of the header."""

FOR_HEADER = "terncommode-for"
"""The name of the header of a reply that says which request it answers: by the check of the value that came."""

GRPC_KEY = "terncommode-bin"
"""The key of the metadata of gRPC, whose values are the bytes of contexts."""

REQUEST_BUDGET = 3_000
"""The budget within which a context fits a request's header, or a member of ``baggage``, wherever it goes."""

REPLY_BUDGET = 2_000
"""The budget within which a context fits a reply's header beside those of an application, through proxies as they are installed."""

GRPC_BUDGET = 4_000
"""The budget within which a context fits the metadata of gRPC, both ways: ``(GRPC_KEY, to_binary(context.cut(GRPC_BUDGET, 2)))``."""

BAGGAGE = "baggage"
"""The header of W3C's baggage, one member of which may carry a context."""

_CHECKED = re.compile(rb"[A-Za-z0-9_-]*\.([A-Za-z0-9_-]{6})")
_NO_CACHE = re.compile(r'(?i)(?:^|,)\s*no-cache\s*=\s*"([^"]*)"')

_DEEPEST = 8
"""How often the name of a member may be encoded that is a stranger's own."""

Value = Union[str, bytes]
"""A header's value. A str has a character for each byte, as the servers make it."""


def to_header(context: Context) -> str:
    """The text of a context. It has only letters, digits, ``-``, ``_`` and ``.``. Raises TypeError where it is handed no Context."""
    return check_context(context).to_json()


def from_header(text: Value) -> Context:
    """The context that a header's value says, the merge where it has several with commas between. What can't be read is lost.

    A str is taken as the servers make it, a character for each byte.
    """
    return joined([text])


def to_binary(context: Context) -> bytes:
    """The bytes of a context for a carrier of bytes: in form two, so that bytes that were cut off are noticed."""
    return check_context(context).to_bytes(2)


def from_binary(raw: bytes) -> Context:
    """The context with these bytes, in either form. Lost where they aren't those of a context, and where there are none."""
    data = bytes_of(raw)
    if not data:
        return Context.lost()
    try:
        return Context(data)
    except Fault:
        return Context.lost()


def joined(values: Iterable[Value]) -> Context:
    """The merge of all parts of all values. Equal parts are read once, and any number of lost ones counts once."""
    parts: Dict[bytes, None] = {}
    for value in values:
        data = value.encode("latin-1", "replace") if isinstance(value, str) else bytes_of(value)
        parts.update(dict.fromkeys(part.strip(b" \t") for part in data.split(b",")))
    return _merged([data_of_part(part) for part in parts])


def _merged(found: List[Optional[bytes]]) -> Context:
    """The merge of bytes, lost where there are none or where they are no context's. One call where all are good."""
    lost = [_library.LOST] if None in found else []
    good = [data for data in found if data is not None]
    try:
        return Context._of(_library.join(_library.FORM_ONE, good + lost))
    except Fault:
        contexts = [Context.lost()] if lost else []
        contexts += [from_binary(data) if data else Context() for data in good]
        return Context.join(contexts)


def inject(headers: Any, context: Context) -> None:
    """Sets the header in what is sent on, in place of one that is there.

    ``headers`` is a mapping that can be changed, as of requests, http.client or a plain dict, or a list of pairs, whose names and values
    are bytes where those of its first pair are. A context that is longer than the channel takes is cut before:
    ``inject(headers, context.cut(REQUEST_BUDGET))``. Raises TypeError where it is handed no Context or no such headers, and sets
    nothing then.
    """
    set_header(headers, HEADER, to_header(context))


def extract(headers: Any, absent: Context) -> Context:
    """The context that came in headers: the merge of all that the header says, lost where it can't be read, ``absent`` without one.

    ``absent`` is ``Context()`` where requests begin, and ``Context.lost()`` where one was promised. ``headers`` is a mapping, with one
    or with several values for a name, or an iterable of pairs; names count in any case. Raises TypeError where ``absent`` is no Context,
    also where the header is there.
    """
    check_absent(absent)
    values = values_of(headers, HEADER)
    return joined(values) if values else absent


def inject_reply(headers: Any, context: Context, received: Any) -> None:
    """Sets the headers of a reply: the context, which request it answers, and that no shared cache may keep the context.

    ``received`` are the headers of the request. ``headers`` are those of the reply, as ``inject`` takes them. A context that is longer than
    the channel takes is cut before: ``inject_reply(headers, context.cut(REPLY_BUDGET), received)``.
    """
    answer(headers, check_context(context), values_of(received, HEADER))


def answer(headers: Any, context: Context, values: List[Value]) -> None:
    """Sets the headers of a reply to a request whose header came with these values."""
    set_header(headers, HEADER, to_header(context))
    check = first_check(values)
    if check is None:
        drop_header(headers, FOR_HEADER)
    else:
        set_header(headers, FOR_HEADER, check)
    others = [_text(value) for value in values_of(headers, "cache-control")]
    if not any(_names_header(found) for value in others for found in _NO_CACHE.findall(value)):
        set_header(headers, "Cache-Control", ", ".join([value for value in others if value.strip()] + [f'no-cache="{HEADER}"']))


def extract_reply(headers: Any, sent: Optional[str]) -> Context:
    """The context of a reply to a request that was sent with this value of the header.

    It is lost where the reply doesn't say that it answers that value: it is then of another request, as out of a cache, or of a service
    that says nothing. ``sent`` is None where none was sent; what comes back is lost then.
    """
    check = None if sent is None else first_check([sent])
    return Context.lost() if check is None else reply_to(headers, check)


def reply_to(headers: Any, check: Optional[str]) -> Context:
    """The context of a reply to what had this check, or to what had none. Lost where it is of another request."""
    checks = [_text(value).strip(" \t") for value in values_of(headers, FOR_HEADER)]
    return extract(headers, Context.lost()) if checks == ([] if check is None else [check]) else Context.lost()


def first_check(values: List[Value]) -> Optional[str]:
    """The check of the first part of a header; None where there is none."""
    if not values:
        return None
    data = values[0].encode("latin-1", "replace") if isinstance(values[0], str) else bytes_of(values[0])
    found = _CHECKED.fullmatch(data.split(b",", 1)[0].strip(b" \t"))
    return found[1].decode("ascii") if found else None


def _names_header(names: str) -> bool:
    return HEADER in [name.strip(" \t").lower() for name in names.split(",")]


def set_header(headers: Any, name: str, value: str) -> None:
    """Sets a header in a mapping or in a list of pairs, in place of all that have the name."""
    if isinstance(headers, list):
        is_bytes = bool(headers) and isinstance(headers[0][0], bytes)
        pair: Tuple[Any, Any] = (name.lower().encode("ascii"), value.encode("latin-1")) if is_bytes else (name, value)
        headers[:] = [other for other in headers if not _is_named(other[0], name)] + [pair]
        return
    drop_header(headers, name)
    headers[name] = value


def drop_header(headers: Any, name: str) -> None:
    """Takes a header out of a mapping or of a list of pairs."""
    if isinstance(headers, list):
        headers[:] = [other for other in headers if not _is_named(other[0], name)]
        return
    if not hasattr(headers, "keys"):
        raise TypeError(f"headers are a mapping or a list of pairs, not {type(headers).__name__}")
    for other in {other for other in headers.keys() if _is_named(other, name)}:
        del headers[other]


def values_of(headers: Any, name: str) -> List[Value]:
    """All values of a header."""
    for several in ("get_all", "getall", "getlist", "get_list"):
        if hasattr(headers, several):
            # The calls differ in what they answer where there is no value, and one raises KeyError.
            try:
                return list(getattr(headers, several)(name) or ())
            except KeyError:
                return []
    pairs: Iterable[Tuple[Any, Any]] = headers.items() if hasattr(headers, "items") else headers
    values: List[Value] = []
    for other, value in pairs:
        if _is_named(other, name):
            values += value if isinstance(value, (list, tuple)) else [value]
    return values


def is_own(name: Value) -> bool:
    """Whether a header is one of this project's."""
    text = _text(name).lower()
    return text == HEADER or text.startswith(HEADER + "-")


def members_of(value: Value) -> List[str]:
    """The members of a value of ``baggage``, without blanks around them; empty ones are skipped."""
    return [member.strip(" \t") for member in _text(value).split(",") if member.strip(" \t")]


def is_own_member(member: str) -> bool:
    """Whether a member of ``baggage`` is this project's."""
    return member.partition("=")[0].strip(" \t") == HEADER


def without_own(pairs: Iterable[Tuple[Any, Any]]) -> List[Tuple[Any, Any]]:
    """Headers as they are after an edge: without this project's, and without its members of ``baggage``, however they are spelled."""
    kept: List[Tuple[Any, Any]] = []
    for name, value in pairs:
        if is_own(name):
            continue
        left = strangers_baggage(value) if _is_named(name, BAGGAGE) else value
        if left is not None:
            kept.append((name, left))
    return kept


def strangers_baggage(value: Any) -> Any:
    """A value of ``baggage`` without this project's members, also those that OpenTelemetry would read as such; None where none is left."""
    members = members_of(value)
    others = [member for member in members if not _may_be_own(re.split("[=;]", member, maxsplit=1)[0])]
    if len(others) == len(members):
        return value
    text = ",".join(others)
    return (text.encode("latin-1") if isinstance(value, bytes) else text) if text else None


def _may_be_own(name: str) -> bool:
    """Whether a later service could read the name of a member as one of ours: one with OpenTelemetry may decode it and send it on, also more than once."""
    for _ in range(_DEEPEST):
        decoded = unquote_plus(name)
        if decoded == name:
            return is_own(name.strip())
        name = decoded
    return True


def _text(value: Value) -> str:
    return value.decode("latin-1") if isinstance(value, bytes) else str(value)


def _is_named(other: Value, name: str) -> bool:
    return _text(other).lower() == name.lower()
