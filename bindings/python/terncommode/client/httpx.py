"""Contexts for httpx.

    client = httpx.Client(transport=Transport(hosts={"cart", "pricing"}))
    client = httpx.AsyncClient(transport=AsyncTransport(hosts={"cart", "pricing"}))
"""

from __future__ import annotations

import contextvars
import importlib
from typing import Any, Optional

from .._context import Context
from ..carriers import HEADER, REQUEST_BUDGET
from ._calls import Call, Calls, Hosts

__all__ = ["AsyncTransport", "Transport"]

_httpx: Any = importlib.import_module("httpx")

# Errors that come before a request is written.
_NEVER_CAME = (_httpx.ConnectError, _httpx.ConnectTimeout, _httpx.PoolTimeout, _httpx.UnsupportedProtocol, _httpx.LocalProtocolError)


class _Mark:
    """Whether a byte came in the call that runs here."""

    has_begun = False


_READING: "contextvars.ContextVar[Optional[_Mark]]" = contextvars.ContextVar("terncommode_reading", default=None)


def _counted(data: Any) -> Any:
    mark = _READING.get()
    if mark is not None and data:
        mark.has_begun = True
    return data


class _Passing:
    """An object of httpcore whose other calls are those of the one inside."""

    def __init__(self, inner: Any) -> None:
        self._inner = inner

    def __getattr__(self, name: str) -> Any:
        return getattr(self._inner, name)


class _Stream(_Passing):
    def read(self, *arguments: Any, **named: Any) -> Any:
        return _counted(self._inner.read(*arguments, **named))

    def start_tls(self, *arguments: Any, **named: Any) -> Any:
        return _Stream(self._inner.start_tls(*arguments, **named))


class _Backend(_Passing):
    def connect_tcp(self, *arguments: Any, **named: Any) -> Any:
        return _Stream(self._inner.connect_tcp(*arguments, **named))

    def connect_unix_socket(self, *arguments: Any, **named: Any) -> Any:
        return _Stream(self._inner.connect_unix_socket(*arguments, **named))


class _AsyncStream(_Passing):
    async def read(self, *arguments: Any, **named: Any) -> Any:
        return _counted(await self._inner.read(*arguments, **named))

    async def start_tls(self, *arguments: Any, **named: Any) -> Any:
        return _AsyncStream(await self._inner.start_tls(*arguments, **named))


class _AsyncBackend(_Passing):
    async def connect_tcp(self, *arguments: Any, **named: Any) -> Any:
        return _AsyncStream(await self._inner.connect_tcp(*arguments, **named))

    async def connect_unix_socket(self, *arguments: Any, **named: Any) -> Any:
        return _AsyncStream(await self._inner.connect_unix_socket(*arguments, **named))


def _counts(transport: Any, backend: Any) -> bool:
    """Lets a transport of httpx count what its connections read; whether it can. Over HTTP/2 calls share what is read."""
    pool: Any = getattr(transport, "_pool", None)
    if not hasattr(pool, "_network_backend") or getattr(pool, "_http2", True):
        return False
    pool._network_backend = backend(pool._network_backend)
    return True


class _OneCall:
    """What a transport does around one call. The header stands in the request no longer than the call, so no redirect copies it."""

    def __init__(self, calls: Calls, counts: bool, request: Any) -> None:
        self._call: Call = calls.to(request.url.host)
        self._counts = counts
        self._request = request
        self._mark = _Mark()

    def __enter__(self) -> Call:
        self._request.headers.pop(HEADER, None)
        if self._call.sent is not None:
            self._request.headers[HEADER] = self._call.sent
        self._token = _READING.set(self._mark)
        return self._call

    def __exit__(self, kind: Any, error: Optional[BaseException], trace: Any) -> None:
        _READING.reset(self._token)
        self._request.headers.pop(HEADER, None)
        if error is not None:
            self._call.failed(self._may_have_begun(error))

    def _may_have_begun(self, error: BaseException) -> bool:
        if isinstance(error, _NEVER_CAME):
            return False
        if isinstance(error, _httpx.WriteError):
            # The service has closed, which it does after a reply that needs no body; nobody reads that.
            return True
        return self._mark.has_begun if self._counts else "without sending" not in str(error)


class Transport(_httpx.BaseTransport):  # type: ignore[misc]
    """A transport of httpx, over ``transport`` or over ``httpx.HTTPTransport`` with the other arguments."""

    def __init__(
        self, *, hosts: Hosts = (), on_failure: Context = Context(), budget: int = REQUEST_BUDGET, transport: Any = None, **named: Any
    ) -> None:
        self._calls = Calls(hosts, on_failure, budget)
        self._transport = _httpx.HTTPTransport(**named) if transport is None else transport
        self._counts = _counts(self._transport, _Backend)

    def handle_request(self, request: Any) -> Any:
        """Makes one call."""
        with _OneCall(self._calls, self._counts, request) as call:
            response = self._transport.handle_request(request)
            call.came(response.headers)
        return response

    def close(self) -> None:
        """Closes the connections."""
        self._transport.close()


class AsyncTransport(_httpx.AsyncBaseTransport):  # type: ignore[misc]
    """A transport of httpx, over ``transport`` or over ``httpx.AsyncHTTPTransport`` with the other arguments."""

    def __init__(
        self, *, hosts: Hosts = (), on_failure: Context = Context(), budget: int = REQUEST_BUDGET, transport: Any = None, **named: Any
    ) -> None:
        self._calls = Calls(hosts, on_failure, budget)
        self._transport = _httpx.AsyncHTTPTransport(**named) if transport is None else transport
        self._counts = _counts(self._transport, _AsyncBackend)

    async def handle_async_request(self, request: Any) -> Any:
        """Makes one call."""
        with _OneCall(self._calls, self._counts, request) as call:
            response = await self._transport.handle_async_request(request)
            call.came(response.headers)
        return response

    async def aclose(self) -> None:
        """Closes the connections."""
        await self._transport.aclose()
