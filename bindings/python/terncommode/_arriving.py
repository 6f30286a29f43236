"""What a server does with the context that arrives, and with the one that goes back."""

from __future__ import annotations

from typing import Any, List, Optional, Tuple

from ._bag import Bag
from ._context import Context, check_absent, check_budget, is_lost
from ._current import Request, arrived
from ._errors import IllTyped
from ._ingress import ingress
from ._watch import saw
from .carriers import HEADER, Value, answer, first_check, is_own, joined, reply_to, values_of


class Door:
    """The settings of a middleware: an edge, unless it is trusted."""

    def __init__(self, bag: Optional[Bag], absent: Context, trusted: bool, budget: int, accept: Optional[Bag]) -> None:
        self.bag = check_bag(bag)
        self.absent = check_absent(absent)
        self.trusted = check_trusted(trusted)
        self.budget = check_budget(budget)
        self.accept = check_bag(accept)
        if trusted and accept is not None:
            raise ValueError("accept says what strangers may write: it is for an edge, and trusted takes everything")

    def begins(self, values: List[Value]) -> Request:
        """The request whose header came with these values."""
        return arrived(arriving(self._came(values), self.bag), self.bag, self.trusted)

    def _came(self, values: List[Value]) -> Context:
        if self.trusted:
            return joined(values) if values else self.absent
        return ingress(values, self.accept) if values and self.accept is not None else self.absent

    def answers(self, request: Request, headers: List[Tuple[Any, Any]], values: List[Value]) -> List[Tuple[Any, Any]]:
        """The headers of the reply to a request that came with these values. The request ends here."""
        context = request.end()
        if not self.trusted:
            return [(name, value) for name, value in headers if not is_own(name)]
        if values_of(headers, HEADER):
            # A middleware inside of this one, or a service of which this one is a proxy, has said something too.
            context = context | reply_to(headers, first_check(values))
        answer(headers, within(context, self.budget), values)
        return headers


def arriving(context: Context, bag: Optional[Bag]) -> Context:
    """What came, in normal form for the bag.

    Where a field of the bag is ill typed, the context goes on as it came, as in a service that doesn't know the field.
    """
    if is_lost(context):
        saw("lost")
    if bag is None:
        return context
    try:
        return bag.update([context])
    except IllTyped:
        saw("ill_typed")
        return context


def within(context: Context, budget: int, form: int = 1) -> Context:
    """The context within a budget. A cut is counted."""
    cut = context.cut(budget, form)
    if cut != context:
        saw("cut")
    return cut


def check_bag(bag: Optional[Bag]) -> Optional[Bag]:
    """The bag of a middleware. Raises TypeError where it is neither a Bag nor None."""
    if bag is not None and not isinstance(bag, Bag):
        raise TypeError(f"bag is a Bag or None, not {type(bag).__name__}")
    return bag


def check_trusted(trusted: bool) -> bool:
    """Whether who sends is trusted. Raises TypeError where it isn't said by a bool."""
    if not isinstance(trusted, bool):
        raise TypeError(f"trusted is a bool, not {type(trusted).__name__}")
    return trusted
