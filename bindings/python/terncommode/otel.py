"""Contexts beside OpenTelemetry: a propagator for its API, which needn't be installed.

    from opentelemetry import propagate
    from opentelemetry.baggage.propagation import W3CBaggagePropagator
    from opentelemetry.propagators.composite import CompositePropagator
    from opentelemetry.trace.propagation.tracecontext import TraceContextTextMapPropagator
    from terncommode import Context
    from terncommode.otel import Propagator

    propagate.set_global_textmap(CompositePropagator([
        TraceContextTextMapPropagator(), W3CBaggagePropagator(), Propagator(Context.lost(), trusted=True, member=True)]))

In a composite it stands after the propagator of ``baggage``, which would write an old member again: where it stands before, ``inject`` raises.

There is one place for what a request holds, the request itself. What is extracted begins one, or goes to the one that a middleware has begun
for the same visit; ``terncommode.request()`` finds it, also where only OpenTelemetry's context says which it is. A propagator can't know to
which host a call goes: it sends to all that is instrumented.
"""

from __future__ import annotations

import importlib
from typing import Any, List, Optional, Set, Union

from ._arriving import check_trusted, within
from ._context import Context, check_absent, check_budget, is_lost
from ._current import _CURRENT, ELSEWHERE, Request, extracted, of_this_process
from ._watch import saw
from .carriers import BAGGAGE, HEADER, REQUEST_BUDGET, is_own, is_own_member, joined, members_of, set_header, to_header, values_of

try:
    _otel: Any = importlib.import_module("opentelemetry.context")
    _baggage: Any = importlib.import_module("opentelemetry.baggage")
except ImportError:
    _otel = _baggage = None

__all__ = ["Propagator", "get", "put"]

_KEY = "terncommode-request"

# What W3C's baggage promises to carry: members and letters of a header. OpenTelemetry's own limit of a member.
_HEADER_MEMBERS = 64
_HEADER_LETTERS = 8_192
_MEMBER_LETTERS = 4_096


def get(context: Any = None) -> Context:
    """What is sent from a context of OpenTelemetry, by default the current one: what its request holds. Lost where none runs."""
    request = _request(context)
    return Context.lost() if request is None else request.context


def put(carried: Context, context: Any = None) -> Any:
    """A context of OpenTelemetry, by default the current one, in which a branch runs that begins with this context.

    It is what is sent from there: ``opentelemetry.context.attach(put(bag.keep([current()])))``. What the branch hears stays in it.
    """
    return _with(context, Request(carried))


def _with(context: Any, request: Request) -> Any:
    here = _here(context)
    return type(here)({**here, _KEY: request})


def _here(context: Any) -> Any:
    if context is None:
        return {} if _otel is None else _otel.get_current()
    return context


def _held(context: Any) -> Optional[Request]:
    found = _here(context).get(_KEY)
    return found if isinstance(found, Request) else None


def _request(context: Any) -> Optional[Request]:
    """The inner one of the request that runs here and of the one that OpenTelemetry's context holds."""
    held, running = of_this_process(_held(context)), of_this_process(_CURRENT.get())
    if held is None or running is None:
        return held or running
    return running if running._is_within(held) or (context is None and not held._is_within(running)) else held


ELSEWHERE[:] = [lambda: _held(None)]


class Propagator:
    """A TextMapPropagator that carries contexts in a header of their own, in one member of ``baggage``, or in both.

    Services with the propagator read both ways and join what came. The header is dropped by services that don't know it. The member is
    forwarded by every service with OpenTelemetry's propagator of ``baggage``, untouched.

    It is an edge unless ``trusted=True`` is said: then no context is read. ``absent`` is the context of a request that carries none:
    ``Context()`` where requests begin, ``Context.lost()`` inside. What is extracted is taken out of OpenTelemetry's own baggage in either
    case, so that its propagator doesn't send on what a boundary has held back, or what a stranger has said.

    Where the foreign members of ``baggage`` leave no place for a member, they stay alone. So where a context may come as a member,
    ``absent`` has to be ``Context.lost()``: a member that was left out would else be read as if nothing had been said.

    The text of ``baggage`` is read and written, not what OpenTelemetry parsed of it; so a malformed member of somebody else's doesn't
    cost the context. To write the member it has to read what stands in the carrier: a mapping or a list of pairs. In any other carrier
    the header takes its place.
    """

    def __init__(self, absent: Context, *, trusted: bool = False, header: bool = True, member: bool = False, budget: int = REQUEST_BUDGET) -> None:
        if not header and not member:
            raise ValueError("a propagator needs the header or the member")
        self.absent = check_absent(absent)
        self.trusted = check_trusted(trusted)
        self.header = header
        self.member = member
        self.budget = check_budget(budget)

    @property
    def fields(self) -> Set[str]:
        """The names of the headers that are set."""
        return ({HEADER} if self.header else set()) | ({BAGGAGE} if self.member else set())

    def extract(self, carrier: Any, context: Any = None, getter: Any = None) -> Any:
        """The context of OpenTelemetry with the request that begins, or has begun, with what the carrier carries."""
        values: List[Union[str, bytes]] = []
        if self.trusted:
            values += _values(carrier, HEADER, getter)
            values += [value for text in _values(carrier, BAGGAGE, getter) for value in _own_values(text)]
        found = joined(values) if values else self.absent
        if is_lost(found):
            saw("lost")
        return _with(_without_own(_here(context)), extracted(found, self.trusted))

    def inject(self, carrier: Any, context: Any = None, setter: Any = None) -> None:
        """Sets what is carried, in place of what the carrier has of it. Raises RuntimeError before OpenTelemetry's propagator of baggage."""
        carried = get(context)
        foreign = _foreign(carrier)
        if _own_names(_here(context)) and (foreign is None or not values_of(carrier, BAGGAGE)):
            raise RuntimeError("terncommode's propagator stands before that of baggage, which would send an old context: put it after")
        if self.header or foreign is None:
            _set(carrier, HEADER, to_header(within(carried, self.budget)), setter)
        if foreign is not None and self.member:
            _set(carrier, BAGGAGE, self._with_own(carried, foreign), setter)
        elif foreign is not None and len(foreign) < sum(len(members_of(text)) for text in values_of(carrier, BAGGAGE)):
            _set(carrier, BAGGAGE, ",".join(foreign), setter)

    def _with_own(self, carried: Context, foreign: List[str]) -> str:
        """A member with what fits of a context, before the others; or the others alone, where no member fits."""
        rest = ",".join(foreign)
        letters = min(_MEMBER_LETTERS, _HEADER_LETTERS - len(rest) - 1) - len(HEADER) - len("=.CHECK_")
        own = f"{HEADER}={to_header(within(carried, min(self.budget, letters * 3 // 4)))}"
        text = f"{own},{rest}" if rest else own
        return rest if len(text) > _HEADER_LETTERS or len(foreign) >= _HEADER_MEMBERS else text


def _values(carrier: Any, name: str, getter: Any) -> List[Union[str, bytes]]:
    """All values of a header, however often and in whatever case the carrier has its name. What can't be had of them is lost."""
    if getter is None:
        return values_of(carrier, name)
    keys = [key for key in _keys(carrier, getter) if key.lower() == name]
    values: List[Union[str, bytes]] = []
    for key in dict.fromkeys(keys or [name]):
        got = getter.get(carrier, key) or ()
        values += [got] if isinstance(got, (str, bytes)) else got
    # What is no context stands for the values that the getter doesn't give.
    return [*values, ""] if len(keys) > len(values) else values


def _keys(carrier: Any, getter: Any) -> List[str]:
    try:
        return [str(key) for key in getter.keys(carrier)]
    except (AttributeError, NotImplementedError, TypeError):
        return []


def _own_values(text: Union[str, bytes]) -> List[str]:
    """The values of this project's members; properties after them aren't looked at."""
    return [member.partition("=")[2].partition(";")[0] for member in members_of(text) if is_own_member(member)]


def _foreign(carrier: Any) -> Optional[List[str]]:
    """The members that stand in the carrier and are somebody else's; None where the carrier can't be read."""
    if not isinstance(carrier, list) and not hasattr(carrier, "items"):
        return None
    return [member for text in values_of(carrier, BAGGAGE) for member in members_of(text) if not is_own_member(member)]


def _own_names(here: Any) -> List[str]:
    """The names of ours in OpenTelemetry's own baggage."""
    return [] if _baggage is None else [name for name in _baggage.get_all(here) if is_own(str(name))]


def _without_own(here: Any) -> Any:
    """A context of OpenTelemetry whose baggage has no member of ours."""
    for name in _own_names(here):
        here = _baggage.remove_baggage(name, here)
    return here


def _set(carrier: Any, name: str, value: str, setter: Any) -> None:
    if setter is None:
        set_header(carrier, name, value)
        return
    if isinstance(carrier, list):
        # A setter for lists may append.
        carrier[:] = [pair for pair in carrier if not _is_pair_of(pair, name)]
    setter.set(carrier, name, value)


def _is_pair_of(pair: Any, name: str) -> bool:
    other = pair[0].decode("latin-1") if isinstance(pair[0], bytes) else str(pair[0])
    return other.lower() == name
