"""Contexts for ``grpc.aio``, by interceptors, as ``terncommode.grpc`` has them for threads.

    channel = grpc.aio.insecure_channel("cart:50051", interceptors=client_interceptors())
    server = grpc.aio.server(interceptors=[ServerInterceptor(bag, Context.lost(), trusted=True)])
"""

from __future__ import annotations

import inspect
from typing import Any, AsyncIterator, Callable, List, Optional

from ._context import Context
from ._current import Request, enter, leave
from ._grpc import Awaited, Client, Server, grpc
from .carriers import GRPC_BUDGET
from .grpc import behavior_of, streaming, unary, with_behavior

__all__ = ["ServerInterceptor", "client_interceptors"]

_aio: Any = grpc.aio


def client_interceptors(*, on_failure: Context = Context(), budget: int = GRPC_BUDGET) -> List[Any]:
    """What sends the context of the request that runs with each call of a channel, and joins what comes back: one for each kind of call."""
    kinds = (_UnaryUnary, _UnaryStream, _StreamUnary, _StreamStream)
    return [kind(on_failure=on_failure, budget=budget) for kind in kinds]


def _metadata(pairs: Any) -> Any:
    return _aio.Metadata(*pairs)


async def _settled(call: Any, awaited: Awaited) -> None:
    """Joins what a call's trailer carries, once it is here."""
    try:
        code, trailing, details = await call.code(), await call.trailing_metadata(), await call.details()
        tells = code is grpc.StatusCode.UNAVAILABLE and hasattr(call, "debug_error_string")
        error: Optional[str] = await call.debug_error_string() if tells else None
    except BaseException:
        awaited.ended(None, None, None, lambda: None)
        raise
    awaited.ended(code, trailing, details, lambda: error)


async def _replies(call: Any, awaited: Awaited) -> AsyncIterator[Any]:
    """The messages of a call. One that is left before its end stays lost."""
    try:
        async for message in call:
            awaited.message()
            yield message
    except _aio.AioRpcError:
        await _settled(call, awaited)
        raise
    await _settled(call, awaited)


class _UnaryUnary(Client, _aio.UnaryUnaryClientInterceptor):  # type: ignore[misc]
    async def intercept_unary_unary(self, continuation: Callable[..., Any], client_call_details: Any, request: Any) -> Any:
        """A request and a reply."""
        awaited, details = self._expects(client_call_details, _metadata)
        call = await continuation(details, request)
        await _settled(call, awaited)
        return call


class _StreamUnary(Client, _aio.StreamUnaryClientInterceptor):  # type: ignore[misc]
    async def intercept_stream_unary(self, continuation: Callable[..., Any], client_call_details: Any, request_iterator: Any) -> Any:
        """A stream of requests and a reply."""
        awaited, details = self._expects(client_call_details, _metadata)
        call = await continuation(details, request_iterator)
        await _settled(call, awaited)
        return call


class _UnaryStream(Client, _aio.UnaryStreamClientInterceptor):  # type: ignore[misc]
    async def intercept_unary_stream(self, continuation: Callable[..., Any], client_call_details: Any, request: Any) -> Any:
        """A request and a stream of replies."""
        awaited, details = self._expects(client_call_details, _metadata)
        return _replies(await continuation(details, request), awaited)


class _StreamStream(Client, _aio.StreamStreamClientInterceptor):  # type: ignore[misc]
    async def intercept_stream_stream(self, continuation: Callable[..., Any], client_call_details: Any, request_iterator: Any) -> Any:
        """Two streams."""
        awaited, details = self._expects(client_call_details, _metadata)
        return _replies(await continuation(details, request_iterator), awaited)


class _Context:
    """What a handler is given as its context. An abort sends the trailer at once, so the request ends there."""

    def __init__(self, server: Server, held: Request, context: Any) -> None:
        self._server = server
        self._held = held
        self._context = server._context(context)

    async def abort(self, code: Any, details: str = "", trailing_metadata: Any = ()) -> None:
        """Ends the call with a status."""
        if trailing_metadata:
            self._context.set_trailing_metadata(trailing_metadata)
        self._server._ends(self._held, self._context)
        await self._context.abort(code, details)

    def __getattr__(self, name: str) -> Any:
        return getattr(self._context, name)


class ServerInterceptor(Server, _aio.ServerInterceptor):  # type: ignore[misc]
    """Runs each handler in a request that holds the context that came, and sends back what it holds with the trailer.

    ``bag``, ``absent``, ``trusted`` and ``budget`` are those of ``terncommode.wsgi.Middleware``: it is an edge unless ``trusted=True`` is said.
    Handlers that aren't asynchronous run in threads, as grpc.aio has it.
    """

    async def intercept_service(self, continuation: Callable[[Any], Any], handler_call_details: Any) -> Any:
        """The handler of a call, in a request."""
        handler = await continuation(self._seen(handler_call_details))
        if handler is None:
            return None
        behavior = behavior_of(handler)
        is_async = inspect.iscoroutinefunction(behavior) or inspect.isasyncgenfunction(behavior)
        metadata = handler_call_details.invocation_metadata
        if handler.response_streaming:
            return with_behavior(handler, self._streaming(behavior, metadata) if is_async else streaming(self, behavior, metadata))
        return with_behavior(handler, self._unary(behavior, metadata) if is_async else unary(self, behavior, metadata))

    def _unary(self, behavior: Callable[..., Any], metadata: Any) -> Callable[..., Any]:
        async def run(asked: Any, context: Any) -> Any:
            held = self._begins(metadata)
            token = enter(held)
            try:
                return await behavior(asked, _Context(self, held, context))
            finally:
                leave(token)
                self._ends(held, context)

        return run

    def _streaming(self, behavior: Callable[..., Any], metadata: Any) -> Callable[..., Any]:
        async def run(asked: Any, context: Any) -> AsyncIterator[Any]:
            held = self._begins(metadata)
            try:
                async for message in _messages(behavior, asked, _Context(self, held, context), held):
                    yield message
            finally:
                self._ends(held, context)

        return run


async def _messages(behavior: Callable[..., Any], asked: Any, context: Any, held: Request) -> AsyncIterator[Any]:
    """The messages of a handler, which are made in the request. A call has a task of its own, so its variables are nobody else's."""
    token = enter(held)
    try:
        replied = behavior(asked, context)
        if inspect.isawaitable(replied):
            # The handler writes its messages to the context.
            await replied
            return
        async for message in replied:
            yield message
    finally:
        leave(token)
