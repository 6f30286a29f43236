"""What all clients have in common: to whom a context is sent, and what becomes of the reply."""

from __future__ import annotations

from typing import Any, Callable, Container, Optional, Union

from .._arriving import within
from .._context import Context, check_absent, check_budget, is_lost
from .._current import request
from .._watch import saw
from ..carriers import REQUEST_BUDGET, extract_reply, to_header

__all__ = ["Calls", "Hosts"]

Hosts = Union[Container[str], Callable[[str], bool]]
"""To whom contexts are sent: names of hosts in lower case, without a port, or a function that says it of a name."""


class Calls:
    """The settings of a client.

    ``hosts`` says to whom contexts are sent; to no one where it says nothing. ``on_failure`` is what a call adds of which nothing came:
    ``Context()``, or ``Context.lost()`` where it is to be seen that it is missing. What is sent is cut to ``budget``.
    """

    def __init__(self, hosts: Hosts = (), on_failure: Context = Context(), budget: int = REQUEST_BUDGET) -> None:
        if isinstance(hosts, (str, bytes)):
            raise TypeError("hosts are a set of names or a function, not one name")
        if not callable(hosts) and not hasattr(hosts, "__contains__"):
            raise TypeError(f"hosts are a set of names or a function, not {type(hosts).__name__}")
        self._hosts = hosts
        self._on_failure = check_absent(on_failure)
        self._budget = check_budget(budget)

    def to(self, host: Optional[str]) -> Call:
        """A call to a host. Raises NoRequest where contexts are sent to it and no request runs."""
        name = (host or "").lower()
        is_said = self._hosts(name) if callable(self._hosts) else name in self._hosts
        return Joined(self._on_failure, self._budget) if is_said else Call()


class Call:
    """A call to a host to which no context is sent: nothing of it is joined."""

    sent: Optional[str] = None

    def began(self) -> None:
        """A byte of the reply may be here."""

    def came(self, headers: Any) -> None:
        """The head of the reply is here."""

    def failed(self, began: bool) -> None:
        """There will be no head: ``began`` is whether a byte of one may have come."""


class Joined(Call):
    """A call that carries the context of the request that runs here, and whose reply is joined to it."""

    def __init__(self, on_failure: Context, budget: int) -> None:
        self._request = request()
        self._reply = self._request.expect()
        self._on_failure = on_failure
        self._is_settled = False
        self.sent = to_header(within(self._request.context, budget))

    def began(self) -> None:
        self._reply.began()

    def came(self, headers: Any) -> None:
        if not self._is_settled:
            context = extract_reply(headers, self.sent)
            if is_lost(context):
                saw("lost")
            self._is_settled = True
            self._reply.came(context)

    def failed(self, began: bool) -> None:
        if self._is_settled:
            return
        self._is_settled = True
        if began:
            self._reply.began()
            self._reply.failed()
        elif self._on_failure == Context():
            self._reply.failed()
        else:
            self._reply.came(self._on_failure)
