"""Clients that send the context of a request with each call, and join each reply.

=====================================  ==================================================================
``opener(hosts=..)``                   an opener of ``urllib.request``
``http_connection(hosts=..)``          a class of connections as ``http.client.HTTPConnection``
``https_connection(hosts=..)``         the same of ``HTTPSConnection``
``terncommode.client.requests``        ``Adapter``, for sessions of requests
``terncommode.client.httpx``           ``Transport`` and ``AsyncTransport``
``terncommode.client.aiohttp``         ``session``
``terncommode.grpc``                   interceptors of clients and servers
=====================================  ==================================================================

**Contexts are sent only to hosts that are said**: ``hosts`` is a set of names, or a function that says it of a name. Without it no header is
sent, and nothing of a reply is joined. A redirect to another host is asked again. Where contexts are sent to a host and no request runs, a
call raises NoRequest.

A reply that came counts, whatever its status: redirects, retries and errors too. Where it doesn't say that it answers this request, or
where it broke before its head was whole, it is lost, and all fields are partial. A call of which no byte came back adds nothing, or what
``on_failure`` says.
"""

from __future__ import annotations

import http.client
import urllib.request
from typing import Any, Type

from .._context import Context
from ..carriers import REQUEST_BUDGET
from ._calls import Calls, Hosts
from ._connections import connection_class

__all__ = ["Calls", "Hosts", "http_connection", "https_connection", "opener"]


def http_connection(hosts: Hosts = (), *, on_failure: Context = Context(), budget: int = REQUEST_BUDGET) -> Type[Any]:
    """A class of connections that is used as ``http.client.HTTPConnection``."""
    return connection_class(http.client.HTTPConnection, Calls(hosts, on_failure, budget))


def https_connection(hosts: Hosts = (), *, on_failure: Context = Context(), budget: int = REQUEST_BUDGET) -> Type[Any]:
    """A class of connections that is used as ``http.client.HTTPSConnection``."""
    return connection_class(http.client.HTTPSConnection, Calls(hosts, on_failure, budget))


def opener(*handlers: Any, hosts: Hosts = (), on_failure: Context = Context(), budget: int = REQUEST_BUDGET) -> urllib.request.OpenerDirector:
    """An opener as ``urllib.request.build_opener`` makes it, with these handlers."""
    calls = Calls(hosts, on_failure, budget)
    return urllib.request.build_opener(_Handler(calls), _TlsHandler(calls), *handlers)


class _Handler(urllib.request.HTTPHandler):
    """Opens ``http``."""

    def __init__(self, calls: Calls) -> None:
        super().__init__()
        self._class: Any = connection_class(http.client.HTTPConnection, calls)

    def http_open(self, req: urllib.request.Request) -> Any:
        """Opens a URL."""
        return self.do_open(self._class, req)


class _TlsHandler(urllib.request.HTTPSHandler):
    """Opens ``https``."""

    def __init__(self, calls: Calls) -> None:
        super().__init__()
        self._class: Any = connection_class(http.client.HTTPSConnection, calls)

    def https_open(self, req: urllib.request.Request) -> Any:
        """Opens a URL."""
        return self.do_open(self._class, req, context=getattr(self, "_context", None))
