"""What strangers may write: the one way in at an edge."""

from __future__ import annotations

from typing import Any, Iterable, List, Optional, Tuple

from ._bag import Bag
from ._context import Context, check_budget, data_of_part
from ._errors import Error, Fault
from .carriers import REQUEST_BUDGET, Value

__all__ = ["ingress"]


class _Found:
    """What was read so far, and whether that is all that came."""

    def __init__(self, text: int) -> None:
        self.text = text
        self.is_whole = True

    def dropped(self) -> None:
        self.is_whole = False

    def bounded(self, value: Any) -> Any:
        """The value without texts that are too long; None where it is one itself."""
        if isinstance(value, (str, bytes)):
            size = len(value.encode("utf-8")) if isinstance(value, str) else len(value)
            return value if size <= self.text else self.dropped()
        if isinstance(value, frozenset):
            return frozenset(self._kept(value))
        if isinstance(value, tuple):
            return value if len(self._kept(value)) == len(value) else None
        if isinstance(value, dict):
            inner = [(key, self.bounded(item)) for key, item in value.items() if self.bounded(key) is not None]
            return {key: item for key, item in inner if item is not None}
        return value

    def _kept(self, values: Iterable[Any]) -> List[Any]:
        return [value for value in values if self.bounded(value) is not None]


def ingress(
    values: Iterable[Value],
    bag: Bag,
    *,
    budget: int = REQUEST_BUDGET,
    length: int = 8_192,
    parts: int = 16,
    text: int = 1_024,
    drop_partial: bool = False,
) -> Context:
    """What a stranger's header may say: the fields of the bag alone, read and written anew.

    ``values`` are those of the header; of more than ``length`` bytes nothing is read, and of more than so many ``parts`` the first ones. A
    field that is ill typed is dropped, and so is each text of a value that has more than ``text`` bytes. What was lost, cut, dropped or ill
    typed makes all fields partial, unless ``drop_partial`` is given: then such a request begins empty. It never fails by what came.
    """
    check_budget(budget)
    found = _Found(text)
    came = _arrived(list(values), length, parts, found)
    contexts = [_field(bag, path, came, found) for path in bag.slots]
    context = Context.join(contexts)
    if len(context) <= budget and found.is_whole:
        return context
    return Context() if drop_partial else (Context.lost() | context).cut(budget)


def _arrived(values: List[Value], length: int, most: int, found: _Found) -> Context:
    """The merge of the parts that can be read, within the bounds."""
    if sum(map(len, values)) > length:
        found.dropped()
        return Context()
    texts = [value.encode("latin-1", "replace") if isinstance(value, str) else bytes(value) for value in values]
    parts = list(dict.fromkeys(part.strip(b" \t") for value in texts for part in value.split(b",")))
    if len(parts) > most:
        found.dropped()
    contexts = [_part(part) for part in parts[:most]]
    good = [context for context in contexts if context is not None]
    if len(good) < len(contexts):
        found.dropped()
    return Context.join(good)


def _part(part: bytes) -> Optional[Context]:
    data = data_of_part(part)
    try:
        return None if data is None else Context(data)
    except Fault:
        return None


def _field(bag: Bag, path: str, came: Context, found: _Found) -> Context:
    """What a context says of a field, written anew."""
    alone = bag.only(path)
    try:
        field = alone.read(came, path)
        if not field.exact:
            found.dropped()
        return alone.update([], _writes(alone, path, found.bounded(field.value), found))
    except Error:
        # Ill typed, or too long to be read.
        found.dropped()
        return Context()


def _writes(bag: Bag, path: str, value: Any, found: _Found) -> List[Tuple[str, Any]]:
    """The writes of a value; a key of a map that has nothing is dropped, since no write says it."""
    if not isinstance(value, dict):
        return [(path, value)] if value is not None else []
    writes = [(path, {key: inner}) for key, inner in value.items()]
    kept = [write for write in writes if _can_be_written(bag, write)]
    if len(kept) < len(writes):
        found.dropped()
    return kept


def _can_be_written(bag: Bag, write: Tuple[str, Any]) -> bool:
    try:
        bag.lines_of(*write)
    except Error:
        return False
    return True
