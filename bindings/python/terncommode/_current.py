"""The request that runs here, and what it holds."""

from __future__ import annotations

import contextvars
import functools
import inspect
import os
import threading
import weakref
from typing import Any, Callable, Dict, List, Optional, Tuple, Type, TypeVar

from ._bag import Bag
from ._context import Context, check_context
from ._errors import NoRequest
from ._watch import saw

__all__ = ["Reply", "Request", "add", "begin", "bound", "branch", "change", "count", "current", "expect", "request"]

_Function = TypeVar("_Function", bound=Callable[..., Any])
_Error = Optional[Type[BaseException]]

_CURRENT: "contextvars.ContextVar[Optional[Request]]" = contextvars.ContextVar("terncommode", default=None)

# Who has begun a request and waits for the other to read the same visit.
_MIDDLEWARE, _PROPAGATOR, _TRUSTING_PROPAGATOR = "middleware", "propagator", "propagator that trusts"

ELSEWHERE: List[Callable[[], Optional[Request]]] = []
"""Where else a request may be found: OpenTelemetry's current context, once ``terncommode.otel`` is imported."""


class Request:
    """One visit of a service, and the context that it holds.

    All tasks, threads and callbacks that work on the visit share this object, and each may call it at any time. What it holds only
    grows. Its end is when the head of its reply is written: what is added later is still held, and sent on with later calls, but
    the caller doesn't hear of it, so the calls answer False.
    """

    def __init__(self, context: Context = Context(), bag: Optional[Bag] = None) -> None:
        self._lock = threading.Lock()
        self._held = check_context(context)
        self._bag = bag
        self._process = os.getpid()
        self._writer = ""
        self._totals: Dict[Tuple[int, ...], int] = {}  # by the numbers of the counter, which another table may give another name
        self._open_replies = 0
        self._has_ended = False
        self._late = 0
        self._stage = ""
        self._is_visit = False
        outer = running()
        self._outer = None if outer is None else weakref.ref(outer)

    @property
    def context(self) -> Context:
        """What it holds now, which is what is sent with each call. While a reply has begun and hasn't come it is joined with the lost one."""
        with self._lock:
            held, is_open = self._held, self._open_replies > 0
        return held | Context.lost() if is_open else held

    @property
    def late(self) -> int:
        """How many calls came after the end."""
        return self._late

    def add(self, context: Context) -> bool:
        """Joins a context to what is held. False where the reply has begun, so that the caller doesn't hear of it."""
        check_context(context)
        self._check_process()
        with self._lock:
            self._held = self._held | context
            is_late = self._note_late()
        return _told(is_late)

    def change(self, step: Callable[[Context], Context]) -> bool:
        """Puts what a step makes of the context in its place: ``change(lambda context: bag.update([context], {"id": 7}))``.

        The step may take its time and may call the request, since nothing is locked meanwhile. Where others added in the meantime, its
        result is joined to theirs. While a reply has begun and hasn't come the step is given the lost context beside, and it stays.
        False where the reply has begun.
        """
        self._check_process()
        with self._lock:
            before, is_open = self._held, self._open_replies > 0
        after = check_context(step(before | Context.lost() if is_open else before))
        with self._lock:
            self._held = after if self._held is before else self._held | after
            is_late = self._note_late()
        return _told(is_late)

    def count(self, path: str, number: int = 1, bag: Optional[Bag] = None) -> bool:
        """Adds a number to a counter, under a writer that this request alone has.

        ``bag`` is needed where the request began without one. Raises NoField, and BadWrite where the path is no counter's or the number is
        below zero. False where the reply has begun.
        """
        self._check_process()
        known = self._bag if bag is None else bag
        if known is None:
            raise TypeError("count needs a bag: begin(context, bag), or count(path, number, bag)")
        numbers = known._counter(path)
        with self._lock:
            self._writer = self._writer or os.urandom(8).hex()
            total = known._counted(path, self._totals.get(numbers, 0), number)
            self._held = known._with_count(self._held, path, self._writer, total)
            self._totals[numbers] = total
            is_late = self._note_late()
        return _told(is_late)

    def branch(self) -> Running:
        """A request of its own, to be run by ``with``, that begins with a copy. It comes back only where somebody adds its context."""
        self._check_process()
        return Running(Request(self.context, self._bag))

    def expect(self) -> Reply:
        """A reply that is awaited."""
        self._check_process()
        return Reply(self)

    def bound(self, function: _Function) -> _Function:
        """The function, so that it runs in this request, whoever calls it."""
        self._check_process()
        return _bound(self, function)

    def end(self) -> Context:
        """What goes back to the caller: what is held now. A reply that has begun and hasn't come is lost in it."""
        self._has_ended = True
        return self.context

    def _check_process(self) -> None:
        if self._process != os.getpid():
            saw("no_request")
            raise NoRequest("the request belongs to another process, which doesn't hear what is said here")

    def _note_late(self) -> bool:
        """Whether the end has been, counted here."""
        is_late = self._has_ended
        self._late += is_late
        return is_late

    def _meet(self, context: Context) -> None:
        """Joins what the second of middleware and propagator has read. What is read after it is another message."""
        with self._lock:
            self._held = self._held | context
            self._stage = ""

    def _is_within(self, other: Request) -> bool:
        """Whether this request was begun while the other one ran, or one that was begun so."""
        found: Optional[Request] = self
        while found is not None and found is not other:
            found = None if found._outer is None else found._outer()
        return found is other

    def __repr__(self) -> str:
        return f"<Request {self.context!r}>"


class Reply:
    """A reply that a request awaits.

    ``began`` with its first byte or message: from then on the request's context is joined with the lost one. ``came`` puts the reply's
    context in the lost one's place. ``failed`` says that it will not come: if it had begun, the request stays lost, else nothing is added.
    In a ``with``, a reply that hasn't come at the end has failed. It may be called from any thread.
    """

    def __init__(self, request: Request) -> None:
        self._request = request
        self._has_begun = False
        self._is_settled = False

    def began(self) -> None:
        """Something of it came. Called again it does nothing."""
        with self._request._lock:
            if not self._has_begun and not self._is_settled:
                self._has_begun = True
                self._request._open_replies += 1

    def came(self, context: Context) -> bool:
        """Its context is here. False where the request's own reply has begun."""
        check_context(context)
        self._request._check_process()
        with self._request._lock:
            self._settle(context)
            is_late = self._request._note_late()
        return _told(is_late)

    def failed(self) -> None:
        """It will not come."""
        with self._request._lock:
            if not self._is_settled:
                self._settle(Context.lost() if self._has_begun else None)

    def _settle(self, context: Optional[Context]) -> None:
        if self._has_begun and not self._is_settled:
            self._request._open_replies -= 1
        self._is_settled = True
        if context is not None:
            self._request._held = self._request._held | context

    def __enter__(self) -> Reply:
        return self

    def __exit__(self, kind: _Error, error: Optional[BaseException], trace: Any) -> None:
        self.failed()


def _told(is_late: bool) -> bool:
    """Whether it was in time. It is counted without a request's lock, since what is logged may ask for the current context."""
    if is_late:
        saw("late")
    return not is_late


class Running:
    """A ``with`` in which a request runs. At its end the request has ended."""

    def __init__(self, request: Request) -> None:
        self._request = request
        self._token: "Optional[contextvars.Token[Optional[Request]]]" = None

    def __enter__(self) -> Request:
        self._token = _CURRENT.set(self._request)
        return self._request

    def __exit__(self, kind: _Error, error: Optional[BaseException], trace: Any) -> None:
        self._request.end()
        if self._token is not None:
            leave(self._token)


def leave(token: "contextvars.Token[Optional[Request]]") -> None:
    """Ends what setting the variable began. Where it was set in another copy of the variables, there is nothing to end."""
    try:
        _CURRENT.reset(token)
    except ValueError:
        pass


def enter(request: Optional[Request]) -> "contextvars.Token[Optional[Request]]":
    """Makes a request the one that runs here."""
    return _CURRENT.set(request)


def running() -> Optional[Request]:
    """The request that runs here, None where there is none, or where it belongs to a process of which this one is a fork."""
    found = _CURRENT.get()
    places = iter(ELSEWHERE)
    while found is None:
        place = next(places, None)
        if place is None:
            return None
        found = place()
    return of_this_process(found)


def of_this_process(request: Optional[Request]) -> Optional[Request]:
    """The request, None where it belongs to a process of which this one is a fork."""
    return request if request is not None and request._process == os.getpid() else None


def request() -> Request:
    """The request that runs here. Raises NoRequest where there is none."""
    found = running()
    if found is None:
        saw("no_request")
        raise NoRequest("no request runs here: begin one, or hand a thread or a pool terncommode.bound(function)")
    return found


def current() -> Context:
    """The context of the request that runs here; lost where none runs."""
    found = running()
    return Context.lost() if found is None else found.context


def begin(context: Context, bag: Optional[Bag] = None) -> Running:
    """A request that begins with a context, to be run by ``with begin(context) as request``.

    ``bag`` is what ``count`` knows. Tasks, ``asyncio.to_thread`` and copies of the contextvars run in the request by themselves; what is
    handed to threads and pools is handed as ``bound(function)``.
    """
    return Running(Request(context, bag))


def branch() -> Running:
    """A branch of the request that runs here, as ``Request.branch``."""
    return request().branch()


def add(context: Context) -> bool:
    """Joins a context to that of the request that runs here, as ``Request.add``. Raises NoRequest where none runs."""
    return request().add(context)


def change(step: Callable[[Context], Context]) -> bool:
    """Puts what a step makes of the context in its place, as ``Request.change``. Raises NoRequest where none runs."""
    return request().change(step)


def count(path: str, number: int = 1, bag: Optional[Bag] = None) -> bool:
    """Adds a number to a counter, as ``Request.count``. Raises NoRequest where none runs."""
    return request().count(path, number, bag)


def expect() -> Reply:
    """A reply that the request that runs here awaits, as ``Request.expect``. Raises NoRequest where none runs."""
    return request().expect()


def bound(function: _Function) -> _Function:
    """The function, so that it runs in the request that runs here now, or in none where none does.

    It is for threads, pools and callbacks: ``pool.submit(bound(work))``. Called in another process it raises NoRequest.
    """
    return _bound(running(), function)


def _bound(held: Optional[Request], function: _Function) -> _Function:
    process = os.getpid()

    def entered() -> "contextvars.Token[Optional[Request]]":
        if process != os.getpid():
            saw("no_request")
            raise NoRequest("what was bound in another process can't run in its request here: hand the context over as bytes")
        return enter(held)

    @functools.wraps(function)
    def run(*arguments: Any, **named: Any) -> Any:
        token = entered()
        try:
            return function(*arguments, **named)
        finally:
            leave(token)

    @functools.wraps(function)
    async def run_later(*arguments: Any, **named: Any) -> Any:
        token = entered()
        try:
            return await function(*arguments, **named)
        finally:
            leave(token)

    return run_later if inspect.iscoroutinefunction(function) else run  # type: ignore[return-value]


def arrived(context: Context, bag: Optional[Bag], trusted: bool) -> Request:
    """The request of a visit of which a middleware reads what came.

    A propagator that was there before has begun it already. Inside of another middleware, as where an application is mounted in one, it begins
    with what is held there, too: that was said before.
    """
    found = running()
    if found is not None and found._stage.startswith(_PROPAGATOR):
        if found._stage == _TRUSTING_PROPAGATOR and not trusted:
            raise RuntimeError("the propagator trusts what comes and the middleware doesn't: say the same in both")
        found._meet(context)
        found._bag = found._bag or bag
        return found
    is_within = trusted and found is not None and found._is_visit and not found._has_ended
    begun = Request(context | found.context if found is not None and is_within else context, bag)
    begun._stage = _MIDDLEWARE
    begun._is_visit = True
    return begun


def extracted(context: Context, trusted: bool) -> Request:
    """The request of a visit of which a propagator reads what came. A middleware that was there before has begun it already."""
    found = running()
    if found is None or found._stage != _MIDDLEWARE:
        begun = Request(context)
        begun._stage = _TRUSTING_PROPAGATOR if trusted else _PROPAGATOR
        return begun
    found._meet(context)
    return found
