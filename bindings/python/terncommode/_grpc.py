"""What the calls of gRPC have in common, those of threads and those of asyncio."""

from __future__ import annotations

import importlib
import re
import threading
from typing import Any, Callable, Iterable, List, Optional, Tuple

from ._arriving import Door, arriving, within
from ._bag import Bag
from ._context import Context, check_absent, check_budget, is_lost
from ._current import Request, arrived, request
from ._watch import saw
from .carriers import GRPC_BUDGET, GRPC_KEY, from_binary, to_binary, without_own

grpc: Any = importlib.import_module("grpc")

Pairs = List[Tuple[str, Any]]

# What the library itself says where it had no connection. Of all other failures nobody can tell here whether a byte came.
_NOT_CONNECTED = re.compile("failed to connect to all addresses|connections to all backends failing|DNS resolution failed")
_FROM_PEER = "received from peer"

# A call that gRPC itself retries has this key. What came back from the attempts before is seen by nobody but gRPC.
_ATTEMPTS = "grpc-previous-rpc-attempts"


def pairs_of(metadata: Optional[Iterable[Tuple[str, Any]]]) -> Pairs:
    """The metadata as a list."""
    return [(key, value) for key, value in metadata or ()]


def carried(metadata: Iterable[Tuple[str, Any]]) -> List[bytes]:
    """All that came under the key."""
    return [value.encode("latin-1", "replace") if isinstance(value, str) else bytes(value) for key, value in metadata if key == GRPC_KEY]


def with_context(metadata: Optional[Iterable[Tuple[str, Any]]], context: Context, budget: int) -> Pairs:
    """The metadata with a context, in place of one that was there."""
    others = [(key, value) for key, value in pairs_of(metadata) if key != GRPC_KEY]
    return [*others, (GRPC_KEY, to_binary(within(context, budget, 2)))]


class Details(grpc.ClientCallDetails):  # type: ignore[misc]
    """The details of a call with other metadata."""

    def __init__(self, details: Any, metadata: Any) -> None:
        self.method = details.method
        self.timeout = getattr(details, "timeout", None)
        self.metadata = metadata
        self.credentials = getattr(details, "credentials", None)
        self.wait_for_ready = getattr(details, "wait_for_ready", None)
        self.compression = getattr(details, "compression", None)


class HandlerDetails(grpc.HandlerCallDetails):  # type: ignore[misc]
    """The details of a call that came, as they are after an edge."""

    def __init__(self, details: Any) -> None:
        self.method = details.method
        self.invocation_metadata = tuple(without_own(pairs_of(details.invocation_metadata)))


class Client:
    """The settings of an interceptor of clients."""

    def __init__(self, *, on_failure: Context = Context(), budget: int = GRPC_BUDGET) -> None:
        self._on_failure = check_absent(on_failure)
        self._budget = check_budget(budget)

    def _expects(self, details: Any, metadata: Any = list) -> Tuple[Awaited, Details]:
        """A call that begins: what is awaited, and its details with the context. Raises NoRequest where no request runs."""
        here = request()
        pairs = with_context(details.metadata, here.context, self._budget)
        return Awaited(here, self._on_failure), Details(details, metadata(pairs))


class Awaited:
    """A call's reply, which is joined when its trailer is here."""

    def __init__(self, here: Request, on_failure: Context) -> None:
        self._reply = here.expect()
        self._on_failure = on_failure
        self._lock = threading.Lock()
        self._is_settled = False

    def message(self) -> None:
        """A message came: until the trailer is here, what was said with it is lost."""
        self._reply.began()

    def ended(self, code: Any, trailing: Any, details: Optional[str], error: Callable[[], Optional[str]]) -> None:
        """The call has ended with this status. ``error`` is what the library says of it, which isn't there for each status."""
        # Whoever comes second waits until the first has joined what came.
        with self._lock:
            if not self._is_settled:
                self._settle(code, carried(pairs_of(trailing)), details, error)
            self._is_settled = True

    def _settle(self, code: Any, values: List[bytes], details: Optional[str], error: Callable[[], Optional[str]]) -> None:
        if values:
            self._came(Context.join(map(from_binary, values)))
        elif code is grpc.StatusCode.UNAVAILABLE and _NOT_CONNECTED.match(details or "") and _FROM_PEER not in (error() or _FROM_PEER):
            self._never_came()
        else:
            saw("lost")
            self._reply.began()
            self._reply.failed()

    def _came(self, context: Context) -> None:
        if is_lost(context):
            saw("lost")
        self._reply.came(context)

    def _never_came(self) -> None:
        if self._on_failure == Context():
            self._reply.failed()
        else:
            self._reply.came(self._on_failure)


class Server:
    """The settings of an interceptor of servers: an edge, unless it is trusted."""

    def __init__(self, bag: Optional[Bag], absent: Context, *, trusted: bool = False, budget: int = GRPC_BUDGET) -> None:
        self._door = Door(bag, absent, trusted, budget, None)

    def _seen(self, details: Any) -> Any:
        """The details as whoever comes next sees them."""
        return details if self._door.trusted else HandlerDetails(details)

    def _begins(self, metadata: Any) -> Request:
        """The request of a call with this metadata."""
        pairs = pairs_of(metadata) if self._door.trusted else []
        values = carried(pairs)
        context = Context.join(map(from_binary, values)) if values else self._door.absent
        if any(key == _ATTEMPTS for key, _ in pairs):
            context = context | Context.lost()
        return arrived(arriving(context, self._door.bag), self._door.bag, self._door.trusted)

    def _context(self, context: Any) -> Any:
        """What the handler is given as its context."""
        return context if self._door.trusted else EdgeContext(context)

    def _ends(self, held: Request, context: Any) -> None:
        """Sets the trailer. The request ends here."""
        said = held.end()
        trailing = pairs_of(context.trailing_metadata())
        if self._door.trusted:
            # An interceptor inside of this one, or a service of which this one is a proxy, has said something too.
            said = Context.join([said, *map(from_binary, carried(trailing))])
            context.set_trailing_metadata(tuple(with_context(trailing, said, self._door.budget)))
        elif trailing:
            context.set_trailing_metadata(tuple((key, value) for key, value in trailing if key != GRPC_KEY))


class EdgeContext:
    """The context of a call at an edge: what strangers say under this project's names isn't seen."""

    def __init__(self, context: Any) -> None:
        self._context = context

    def invocation_metadata(self) -> Any:
        """The metadata that came, but for this project's."""
        return tuple(without_own(pairs_of(self._context.invocation_metadata())))

    def __getattr__(self, name: str) -> Any:
        return getattr(self._context, name)
