"""Contexts for gRPC, by interceptors.

    channel = grpc.intercept_channel(grpc.insecure_channel("cart:50051"), ClientInterceptor())
    server = grpc.server(pool, interceptors=[ServerInterceptor(bag, Context.lost(), trusted=True)])

A context goes with the metadata of a call, and comes back with its trailer. From the first message of a stream on until the trailer is here
the request is partial: what was said with the message may not have arrived. Put the interceptor of clients on the channels to services that
are meant to see the context, and on no other. ``terncommode.grpc_aio`` has the same for ``grpc.aio``.
"""

from __future__ import annotations

import contextvars
from typing import Any, Callable, Iterator

from ._current import Request, enter, leave
from ._grpc import Awaited, Client, Server, grpc

__all__ = ["ClientInterceptor", "ServerInterceptor"]

_END = object()


_Unary: Any = type("_Unary", (grpc.UnaryUnaryClientInterceptor, grpc.StreamUnaryClientInterceptor), {})
_Streams: Any = type("_Streams", (grpc.UnaryStreamClientInterceptor, grpc.StreamStreamClientInterceptor), {})


class ClientInterceptor(Client, _Unary, _Streams):  # type: ignore[misc]
    """Sends the context of the request that runs, and joins what comes back.

    Where no request runs a call raises NoRequest. ``on_failure`` is what a call adds that found no connection: ``Context()``, or
    ``Context.lost()``. Of all other calls that end without a context gRPC doesn't tell whether a byte came: they are lost.
    """

    def intercept_unary_unary(self, continuation: Callable[..., Any], client_call_details: Any, request: Any) -> Any:
        """A request and a reply."""
        awaited, details = self._expects(client_call_details)
        return _Reply(continuation(details, request), awaited)

    def intercept_unary_stream(self, continuation: Callable[..., Any], client_call_details: Any, request: Any) -> Any:
        """A request and a stream of replies."""
        awaited, details = self._expects(client_call_details)
        return _Replies(continuation(details, request), awaited)

    def intercept_stream_unary(self, continuation: Callable[..., Any], client_call_details: Any, request_iterator: Any) -> Any:
        """A stream of requests and a reply."""
        awaited, details = self._expects(client_call_details)
        return _Reply(continuation(details, request_iterator), awaited)

    def intercept_stream_stream(self, continuation: Callable[..., Any], client_call_details: Any, request_iterator: Any) -> Any:
        """Two streams."""
        awaited, details = self._expects(client_call_details)
        return _Replies(continuation(details, request_iterator), awaited)


class _Call:
    """A call, whose reply is joined before anybody sees that it has ended."""

    def __init__(self, call: Any, awaited: Awaited) -> None:
        self._call = call
        self._awaited = awaited

    def _settle(self) -> None:
        error = getattr(self._call, "debug_error_string", lambda: None)
        self._awaited.ended(self._call.code(), self._call.trailing_metadata(), self._call.details(), error)

    def code(self) -> Any:
        """The status, when the call has ended."""
        code = self._call.code()
        self._settle()
        return code

    def details(self) -> Any:
        """The status's text, when the call has ended."""
        self.code()
        return self._call.details()

    def trailing_metadata(self) -> Any:
        """The trailer, when the call has ended."""
        self.code()
        return self._call.trailing_metadata()

    def __getattr__(self, name: str) -> Any:
        return getattr(self._call, name)


class _Reply(_Call):
    """A call with one reply."""

    def __init__(self, call: Any, awaited: Awaited) -> None:
        super().__init__(call, awaited)
        call.add_done_callback(lambda _: self._settle())

    def result(self, timeout: Any = None) -> Any:
        """The reply."""
        return self._ended(self._call.result, timeout)

    def exception(self, timeout: Any = None) -> Any:
        """What it failed with."""
        return self._ended(self._call.exception, timeout)

    def traceback(self, timeout: Any = None) -> Any:
        """Where it failed."""
        return self._ended(self._call.traceback, timeout)

    def add_done_callback(self, fn: Callable[[Any], None]) -> None:
        """Calls a function when the call has ended."""

        def done(_: Any) -> None:
            self._settle()
            fn(self)

        self._call.add_done_callback(done)

    def _ended(self, asked: Callable[[Any], Any], timeout: Any) -> Any:
        try:
            return asked(timeout)
        finally:
            if self._call.done():
                self._settle()


class _Replies(_Call):
    """A call with a stream of replies."""

    def __iter__(self) -> Iterator[Any]:
        return self

    def __next__(self) -> Any:
        try:
            message = next(self._call)
        except (StopIteration, grpc.RpcError):
            self._settle()
            raise
        self._awaited.message()
        return message

    def initial_metadata(self) -> Any:
        """The head of the reply: with it the reply has begun."""
        found = self._call.initial_metadata()
        if self._call.is_active():
            self._awaited.message()
        else:
            self._settle()
        return found

    def cancel(self) -> Any:
        """Ends the call: what was still to come is lost."""
        cancelled = self._call.cancel()
        self._settle()
        return cancelled


class ServerInterceptor(Server, grpc.ServerInterceptor):  # type: ignore[misc]
    """Runs each handler in a request that holds the context that came, and sends back what it holds with the trailer.

    ``bag``, ``absent``, ``trusted`` and ``budget`` are those of ``terncommode.wsgi.Middleware``: it is an edge unless ``trusted=True`` is said.
    """

    def intercept_service(self, continuation: Callable[[Any], Any], handler_call_details: Any) -> Any:
        """The handler of a call, in a request."""
        handler = continuation(self._seen(handler_call_details))
        if handler is None:
            return None
        metadata = handler_call_details.invocation_metadata
        run = streaming if handler.response_streaming else unary
        return with_behavior(handler, run(self, behavior_of(handler), metadata))


def unary(server: Server, behavior: Callable[..., Any], metadata: Any) -> Callable[..., Any]:
    """A handler that gives one reply, in a request of its own for each call."""

    def run(asked: Any, context: Any) -> Any:
        held = server._begins(metadata)
        token = enter(held)
        try:
            return behavior(asked, server._context(context))
        finally:
            leave(token)
            server._ends(held, context)

    return run


def streaming(server: Server, behavior: Callable[..., Any], metadata: Any) -> Callable[..., Any]:
    """A handler that gives a stream of replies, in a request of its own for each call."""

    def run(asked: Any, context: Any) -> Iterator[Any]:
        held = server._begins(metadata)
        try:
            yield from _messages(behavior, asked, server._context(context), held)
        finally:
            server._ends(held, context)

    return run


def _messages(behavior: Callable[..., Any], asked: Any, context: Any, held: Request) -> Iterator[Any]:
    """The messages of a handler, each of which is made in the request."""
    variables = contextvars.copy_context()
    variables.run(enter, held)
    messages: Iterator[Any] = variables.run(lambda: iter(behavior(asked, context)))
    while True:
        message = variables.run(lambda: next(messages, _END))
        if message is _END:
            return
        yield message


def behavior_of(handler: Any) -> Callable[..., Any]:
    """The function of a handler."""
    found: Callable[..., Any] = getattr(handler, _BEHAVIORS[handler.request_streaming, handler.response_streaming])
    return found


def with_behavior(handler: Any, behavior: Callable[..., Any]) -> Any:
    """The handler with another function."""
    made = _MAKERS[handler.request_streaming, handler.response_streaming]
    return made(behavior, request_deserializer=handler.request_deserializer, response_serializer=handler.response_serializer)


_MAKERS = {
    (False, False): grpc.unary_unary_rpc_method_handler,
    (False, True): grpc.unary_stream_rpc_method_handler,
    (True, False): grpc.stream_unary_rpc_method_handler,
    (True, True): grpc.stream_stream_rpc_method_handler,
}
_BEHAVIORS = {(False, False): "unary_unary", (False, True): "unary_stream", (True, False): "stream_unary", (True, True): "stream_stream"}
