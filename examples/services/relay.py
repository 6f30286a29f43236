"""A relay before a service, which damages the context of each message that it hands on, one way or the other."""
import itertools
import re
import socketserver
import threading
from socket import SHUT_WR, create_connection
from typing import Callable

HEADER = re.compile(rb"(?im)^terncommode: *([^\r\n]*)\r\n")


def whole(message: bytes, _: int) -> bytes:
    """Nothing is damaged."""
    return message


def _with(message: bytes, change: Callable[[bytes], bytes]) -> bytes:
    return HEADER.sub(lambda found: b"Terncommode: " + change(found[1]) + b"\r\n", message, 1)


def cut(message: bytes, number: int) -> bytes:
    """The header is cut, each time at another place."""
    return _with(message, lambda value: value[:number * 4 % len(value)])


def dropped(message: bytes, _: int) -> bytes:
    """The header isn't there."""
    return HEADER.sub(b"", message, 1)


def changed(message: bytes, number: int) -> bytes:
    """One letter is another one."""
    def change(value: bytes) -> bytes:
        place = number * 5 % len(value)
        return value[:place] + (b"A" if value[place:place + 1] != b"A" else b"B") + value[place + 1:]
    return _with(message, change)


def doubled(message: bytes, _: int) -> bytes:
    """The header comes twice."""
    return HEADER.sub(lambda found: found[0] + found[0], message, 1)


class Relay(socketserver.ThreadingTCPServer):
    """Hands each connection on to a port; `fault` says what becomes of replies, or of requests."""

    daemon_threads, request_queue_size = True, 64

    def __init__(self, port: int) -> None:
        super().__init__(("127.0.0.1", 0), _Handler)
        self.to, self.fault, self.on_requests = port, whole, False
        self.numbers = itertools.count(1)
        threading.Thread(target=self.serve_forever, daemon=True).start()

    def damaged(self, message: bytes, is_request: bool) -> bytes:
        """What is handed on of a message; `fault` is told its number."""
        return self.fault(message, next(self.numbers)) if is_request == self.on_requests else message


class _Handler(socketserver.BaseRequestHandler):
    def handle(self) -> None:
        server = self.server
        assert isinstance(server, Relay)
        request = b""
        while b"\r\n\r\n" not in request:
            part = self.request.recv(65536)
            if not part:
                return
            request += part
        try:
            with create_connection(("127.0.0.1", server.to), timeout=10) as onward:
                onward.sendall(server.damaged(request, True))
                onward.shutdown(SHUT_WR)
                reply = b"".join(iter(lambda: onward.recv(65536), b""))
        except OSError:
            return
        self.request.sendall(server.damaged(reply, False))
