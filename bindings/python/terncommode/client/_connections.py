"""Connections of ``http.client``, and of libraries that build on them: they put the context on each request and join each reply."""

from __future__ import annotations

import http.client
import io
from typing import Any, Optional, Type
from urllib.parse import urlsplit

from ..carriers import HEADER
from ._calls import Call, Calls

__all__ = ["connection_class"]


class _Counted(io.RawIOBase):
    """The file of a reply, which knows whether a byte of it came."""

    def __init__(self, raw: Any) -> None:
        self._raw = raw
        self.has_begun = False

    def readable(self) -> bool:
        return True

    def readinto(self, room: Any) -> Optional[int]:
        size: Optional[int] = self._raw.readinto(room)
        self.has_begun = self.has_begun or bool(size)
        return size

    def fileno(self) -> int:
        return int(self._raw.fileno())

    def close(self) -> None:
        if not self.closed:
            super().close()
            self._raw.close()


class _Response(http.client.HTTPResponse):
    """A reply whose file counts."""

    def __init__(self, sock: Any, *arguments: Any, **named: Any) -> None:
        super().__init__(sock, *arguments, **named)
        self.counted = _Counted(self.fp.detach())
        self.fp = io.BufferedReader(self.counted)


class Calling:
    """What is put before a class of connections.

    The header is written with the others, below all that copies headers from a request to the next. So a redirect or a retry is asked
    anew to whom it goes, and each reply that came counts.
    """

    calls: Calls
    host: str
    _call: Optional[Call] = None
    _made: Optional[_Response] = None
    _tunnel_host: Optional[str]

    def putrequest(self, method: str, url: str, *arguments: Any, **named: Any) -> None:
        """Begins a request."""
        # A proxy is asked for a whole URL, or for a tunnel.
        target = urlsplit(url).hostname if "://" in url.partition("?")[0] else None
        call = self.calls.to(target or self._tunnel_host or self.host)
        super().putrequest(method, url, *arguments, **named)  # type: ignore[misc]
        self._call = call

    def putheader(self, header: Any, *values: Any) -> None:
        """Writes a header. That of the context is set here alone."""
        name = header.decode("latin-1") if isinstance(header, bytes) else header
        if name.lower() != HEADER:
            super().putheader(header, *values)  # type: ignore[misc]

    def endheaders(self, *arguments: Any, **named: Any) -> None:
        """Sends the head of the request."""
        if self._call is not None and self._call.sent is not None:
            super().putheader(HEADER, self._call.sent)  # type: ignore[misc]
        try:
            super().endheaders(*arguments, **named)  # type: ignore[misc]
        except BrokenPipeError:
            # The service has closed, which it does after a reply that needs no body. Libraries go on and read it.
            if self._call is not None:
                self._call.began()
            raise
        except BaseException:
            self._failed(False)
            raise

    def response_class(self, *arguments: Any, **named: Any) -> _Response:
        """Makes a reply and keeps it, so that it can be asked whether a byte came."""
        self._made = _Response(*arguments, **named)
        return self._made

    def getresponse(self) -> Any:
        """The reply, as soon as its head is here."""
        self._made = None
        try:
            response = super().getresponse()  # type: ignore[misc]
        except BaseException:
            self._failed(self._made is not None and self._made.counted.has_begun)
            raise
        call, self._call = self._call, None
        if call is not None and self._made is not None:
            # What a library makes of a reply may have its headers elsewhere.
            call.came(self._made.headers)
        return response

    def _failed(self, began: bool) -> None:
        call, self._call = self._call, None
        if call is not None:
            call.failed(began)


def connection_class(base: Type[Any], calls: Calls) -> Type[Any]:
    """A class of connections that does what ``base`` does and carries contexts."""
    return type(base.__name__, (Calling, base), {"calls": calls})
