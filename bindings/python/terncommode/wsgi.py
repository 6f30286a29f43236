"""Contexts for WSGI applications."""

from __future__ import annotations

import contextvars
from typing import Any, Callable, Iterable, Iterator, List, Optional, Sized, Tuple

from ._arriving import Door
from ._bag import Bag
from ._context import Context
from ._current import enter
from .carriers import REPLY_BUDGET, Value, strangers_baggage

__all__ = ["Middleware"]

_KEY = "HTTP_TERNCOMMODE"
_BAGGAGE = "HTTP_BAGGAGE"


class Middleware:
    """Runs the application in a request, which holds the context that came, and sends back what it holds.

    ``bag`` is the table that the service knows, or None where it knows no type. ``absent`` is the context of a request without one:
    ``Context()`` where requests begin, ``Context.lost()`` after services that send one.

    It is an edge unless ``trusted=True`` is said: anybody may write any field of a header, so at an edge no context is read and none is sent
    back, and the headers of this project and its member of ``baggage`` are taken out before the application sees them. With ``accept`` an
    edge reads the fields of that bag, by ``terncommode.ingress``.

    The request ends with ``start_response``. What is said by then goes back, wherever it is said, cut to the budget. What is said later is
    told: ``add`` and its like answer False, and ``terncommode.seen()`` counts them.

    A request runs in a copy of the contextvars. The body runs in that copy too, so it is wrapped. It has a length where the application's own
    has one: so servers see that a list has one part, and set the Content-Length. They don't see that a body is one of ``wsgi.file_wrapper``:
    it is sent block by block, and not by sendfile.
    """

    def __init__(
        self,
        app: Callable[..., Iterable[bytes]],
        bag: Optional[Bag],
        absent: Context,
        *,
        trusted: bool = False,
        budget: int = REPLY_BUDGET,
        accept: Optional[Bag] = None,
    ) -> None:
        self.app = app
        self._door = Door(bag, absent, trusted, budget, accept)

    def __call__(self, environ: Any, start_response: Callable[..., Any]) -> Iterable[bytes]:
        values: List[Value] = [environ[_KEY]] if _KEY in environ else []
        request = self._door.begins(values)
        if not self._door.trusted:
            _take_out_own(environ)
        variables = contextvars.copy_context()
        variables.run(enter, request)

        def start(status: str, headers: List[Tuple[str, str]], *exc_info: Any) -> Any:
            return start_response(status, self._door.answers(request, list(headers), values), *exc_info)

        body = variables.run(self.app, environ, start)
        return (_SizedBody if isinstance(body, Sized) else _Body)(variables, body)


def _take_out_own(environ: Any) -> None:
    """Takes this project's headers out of an environ, and its member of ``baggage``."""
    for key in [key for key in environ if key == _KEY or str(key).startswith(_KEY + "_")]:
        del environ[key]
    left = strangers_baggage(environ[_BAGGAGE]) if _BAGGAGE in environ else None
    if left is not None:
        environ[_BAGGAGE] = left
    else:
        environ.pop(_BAGGAGE, None)


class _Body:
    """The body of a reply, each part of which is made with the variables of its request."""

    def __init__(self, variables: contextvars.Context, body: Iterable[bytes]) -> None:
        self._variables = variables
        self._body = body
        self._parts: Optional[Iterator[bytes]] = None

    def __iter__(self) -> Iterator[bytes]:
        return self

    def __next__(self) -> bytes:
        return self._variables.run(self._next)

    def _next(self) -> bytes:
        if self._parts is None:
            self._parts = iter(self._body)
        return next(self._parts)

    def close(self) -> None:
        """Closes the application's own body, as servers do at the end."""
        close = getattr(self._body, "close", None)
        if close is not None:
            self._variables.run(close)


class _SizedBody(_Body):
    """The body of a reply that says how many parts it has. Servers ask whether there is a length, so a body without one isn't of this class."""

    def __len__(self) -> int:
        return len(self._body)  # type: ignore[arg-type]
