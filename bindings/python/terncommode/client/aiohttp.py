"""Contexts for the client of aiohttp.

    async with session(hosts={"cart", "pricing"}) as http:
        async with http.get("http://cart/") as reply:
            ..
"""

from __future__ import annotations

import functools
import importlib
from typing import Any, Optional, Type

from .._context import Context
from ..carriers import HEADER, REQUEST_BUDGET
from ._calls import Call, Calls, Hosts

__all__ = ["Connector", "session"]

_aiohttp: Any = importlib.import_module("aiohttp")
_protocols: Any = importlib.import_module("aiohttp.client_proto")


class _Counting(_protocols.ResponseHandler):  # type: ignore[misc]
    """The protocol of a connection, which knows how often something came."""

    received = 0

    def data_received(self, data: bytes) -> None:
        """Something came."""
        self.received += 1
        super().data_received(data)


class Connector(_aiohttp.TCPConnector):  # type: ignore[misc]
    """A connector whose connections count what comes: with another one, each call that fails after it was sent is lost."""

    def __init__(self, **named: Any) -> None:
        super().__init__(**named)
        if hasattr(self, "_factory"):
            self._factory = functools.partial(_Counting, loop=self._loop)


class _Response(_aiohttp.ClientResponse):  # type: ignore[misc]
    """A reply, which is joined as soon as its head is here."""

    call: Optional[Call] = None
    received: Optional[int] = None

    async def start(self, connection: Any) -> Any:
        """Reads the head."""
        protocol = connection.protocol
        try:
            started = await super().start(connection)
        except BaseException:
            if self.call is not None:
                self.call.failed(self.received is None or protocol is None or protocol.received > self.received)
            raise
        if self.call is not None:
            self.call.came(self.headers)
        return started


def _request_class(calls: Calls) -> Type[Any]:
    class Request(_aiohttp.ClientRequest):  # type: ignore[misc]
        """A request, one for each redirect."""

        def __init__(self, *arguments: Any, **named: Any) -> None:
            super().__init__(*arguments, **named)
            self.call = calls.to(self.url.host)
            self.headers.popall(HEADER, None)
            if self.call.sent is not None:
                self.headers[HEADER] = self.call.sent

        async def send(self, conn: Any) -> Any:
            """Sends it."""
            received = getattr(conn.protocol, "received", None)
            try:
                response = await super().send(conn)
            except BaseException:
                self.call.failed(getattr(conn.protocol, "received", None) != received)
                raise
            response.call, response.received = self.call, received
            return response

    return Request


def _watched(connector: Any) -> Any:
    """A connector that tells a request where no connection is made."""
    connects = connector.connect

    async def connect(req: Any, *arguments: Any, **named: Any) -> Any:
        try:
            return await connects(req, *arguments, **named)
        except BaseException:
            if isinstance(getattr(req, "call", None), Call):
                req.call.failed(False)
            raise

    if not hasattr(connector, "tells_requests"):
        connector.tells_requests, connector.connect = True, connect
    return connector


def session(*, hosts: Hosts = (), on_failure: Context = Context(), budget: int = REQUEST_BUDGET, **named: Any) -> Any:
    """A ``ClientSession``. Its other arguments are those of aiohttp; without a connector it has a ``Connector``."""
    calls = Calls(hosts, on_failure, budget)
    connector = named.pop("connector", None)
    watched = _watched(Connector() if connector is None else connector)
    return _aiohttp.ClientSession(request_class=_request_class(calls), response_class=_Response, connector=watched, **named)
