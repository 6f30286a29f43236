"""Contexts for ASGI applications."""

from __future__ import annotations

from typing import Any, Awaitable, Callable, List, MutableMapping, Optional

from ._arriving import Door
from ._bag import Bag
from ._context import Context
from ._current import Request, enter, leave
from .carriers import HEADER, REPLY_BUDGET, Value, values_of, without_own

__all__ = ["Middleware"]

_Message = MutableMapping[str, Any]
_Receive = Callable[[], Awaitable[_Message]]
_Send = Callable[[_Message], Awaitable[None]]

_HEAD = "http.response.start"

# The messages that carry the headers of a reply and go out at once.
_HEADS_AT_ONCE = ("websocket.accept", "websocket.http.response.start")


class Middleware:
    """Runs the application in a request, which holds the context that came, and sends back what it holds.

    ``bag`` is the table that the service knows, or None where it knows no type. ``absent`` is the context of a request without one:
    ``Context()`` where requests begin, ``Context.lost()`` after services that send one.

    It is an edge unless ``trusted=True`` is said: anybody may write any field of a header, so at an edge no context is read and none is sent
    back, and the headers of this project and its member of ``baggage`` are taken out before the application sees them. With ``accept`` an
    edge reads the fields of that bag, by ``terncommode.ingress``.

    The request ends with the head of the reply, which is held back until the first message of the body: so what is said by then goes back,
    wherever it is said: in tasks, in threads, below other middlewares, in handlers of errors. It is cut to the budget. What is said later
    is told: ``add`` and its like answer False, and ``terncommode.seen()`` counts them. The head of a websocket goes out at once.
    """

    def __init__(
        self,
        app: Callable[..., Awaitable[None]],
        bag: Optional[Bag],
        absent: Context,
        *,
        trusted: bool = False,
        budget: int = REPLY_BUDGET,
        accept: Optional[Bag] = None,
    ) -> None:
        self.app = app
        self._door = Door(bag, absent, trusted, budget, accept)

    async def __call__(self, scope: MutableMapping[str, Any], receive: _Receive, send: _Send) -> None:
        if scope["type"] not in ("http", "websocket"):
            await self.app(scope, receive, send)
            return
        headers = list(scope["headers"])
        values = values_of(headers, HEADER)
        scope["headers"] = headers if self._door.trusted else without_own(headers)
        request = self._door.begins(values)
        sender = _Sender(self._door, request, values, send)
        token = enter(request)
        try:
            await self.app(scope, receive, sender)
            await sender.flush()
        finally:
            leave(token)


class _Sender:
    """The ``send`` of a request: it knows the request itself, whatever runs where it is called."""

    def __init__(self, door: Door, request: Request, values: List[Value], send: _Send) -> None:
        self._door = door
        self._request = request
        self._values = values
        self._send = send
        self._head: Optional[_Message] = None

    async def __call__(self, message: _Message) -> None:
        if message["type"] == _HEAD:
            self._head = message
            return
        await self.flush()
        await self._send(self._answered(message) if message["type"] in _HEADS_AT_ONCE else message)

    async def flush(self) -> None:
        """Sends the head that was held back."""
        head, self._head = self._head, None
        if head is not None:
            await self._send(self._answered(head))

    def _answered(self, message: _Message) -> _Message:
        came = [(bytes(name).decode("latin-1"), bytes(value).decode("latin-1")) for name, value in message.get("headers", ())]
        answered = self._door.answers(self._request, came, self._values)
        return {**message, "headers": [(name.lower().encode("latin-1"), value.encode("latin-1")) for name, value in answered]}
