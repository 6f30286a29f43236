"""Relays between services: each hands messages on, damaged as it is told, and notes of which replies a byte was delivered."""
import base64
import contextlib
import re
import socket
import socketserver
import struct
import threading
from typing import Callable, Dict, Optional, Set, Tuple

import ways

REQUESTS, REPLIES = "requests", "replies"
# The way of a message, by the request's number and the direction.
Plan = Dict[Tuple[int, str], ways.Way]


def number_of(context: bytes) -> int:
    """The field id of a context of the shop, which is its first; 0 where it isn't there."""
    return int.from_bytes(context[5:9], "big") if context[:5] == bytes.fromhex("02f8000500") else 0


def number_in(message: bytes) -> int:
    """The number of the request that a message belongs to; 0 where that can't be read."""
    found = re.search(rb"(?im)^terncommode: ([A-Za-z0-9_-]*)\.", message)
    with contextlib.suppress(ValueError):
        return number_of(base64.urlsafe_b64decode(found[1] + b"=" * (-len(found[1]) % 4))) if found else 0
    return 0


def head_of(connection: socket.socket) -> bytes:
    """What comes up to the empty line, or up to the end."""
    message = b""
    while b"\r\n\r\n" not in message:
        part = connection.recv(65536)
        if not part:
            break
        message += part
    return message


def rest_of(connection: socket.socket) -> bytes:
    """What comes up to the end, which may be a break."""
    parts = []
    with contextlib.suppress(OSError):
        for part in iter(lambda: connection.recv(65536), b""):
            parts.append(part)
    return b"".join(parts)


class Relay(socketserver.ThreadingTCPServer):
    """Hands each connection on to a port: one message each way. `to` is 0 while nobody listens there.

    `began` are the numbers of requests of whose reply a byte was delivered. Where peers don't wait for long (`is_hasty`) these are the replies that were
    read: a peer that closes with unread bytes resets the connection.
    """

    daemon_threads, request_queue_size = True, 256

    def __init__(self, port: int, plan: Optional[Plan] = None, is_hasty: bool = False) -> None:
        super().__init__(("127.0.0.1", 0), _Handler)
        self.to, self.plan, self.is_hasty = port, plan or {}, is_hasty
        self.began: Set[int] = set()
        self.open = 0
        self.last: Dict[str, bytes] = {}
        self.lock = threading.Lock()
        self.port: int = self.server_address[1]
        threading.Thread(target=self.serve_forever, daemon=True).start()

    def delivery(self, message: bytes, number: int, direction: str) -> ways.Delivery:
        """What is handed on of a message."""
        way = self.plan.get((number, direction), ways.whole)
        with self.lock:
            other = self.last.get(direction, b"")
            self.last[direction] = message
        return way(ways.Message(message, other, number))

    def close(self) -> None:
        self.shutdown()
        self.server_close()


class _Handler(socketserver.BaseRequestHandler):
    def handle(self) -> None:
        server = self.server
        assert isinstance(server, Relay)
        with server.lock:
            server.open += 1
        with contextlib.suppress(OSError):
            request = head_of(self.request)
            if request and server.to:
                self.hand_on(server, request, number_in(request))
        with server.lock:
            server.open -= 1

    def hand_on(self, server: Relay, request: bytes, number: int) -> None:
        """Hands the request on, and what comes back."""
        with socket.create_connection(("127.0.0.1", server.to), timeout=600) as onward:
            it = server.delivery(request, number, REQUESTS)
            deliver(onward, it)
            reply = b"" if it.end == ways.RESET else rest_of(onward)
        if not reply:
            return
        it = server.delivery(reply, number, REPLIES)
        if it.message and not server.is_hasty:
            server.began.add(number)
        deliver(self.request, it)
        if it.message and server.is_hasty and is_read(self.request):
            server.began.add(number)


def deliver(connection: socket.socket, it: ways.Delivery) -> None:
    """Sends what is delivered, and then ends as it is told."""
    with contextlib.suppress(OSError):
        connection.sendall(it.message)
        if it.end == ways.RESET:
            connection.setsockopt(socket.SOL_SOCKET, socket.SO_LINGER, struct.pack("ii", 1, 0))
            connection.close()
        elif it.end == ways.CLOSE:
            connection.shutdown(socket.SHUT_WR)
        else:
            is_read(connection)


def is_read(connection: socket.socket) -> bool:
    """Waits until the peer closes; whether it had read all."""
    with contextlib.suppress(OSError):
        while connection.recv(65536):
            pass
        return True
    return False


class Pipe(socketserver.ThreadingTCPServer):
    """Hands bytes on both ways as they come, of any protocol. `limit` is how many more bytes of replies are handed on before one connection
    breaks; below 0 none does."""

    daemon_threads, request_queue_size = True, 256

    def __init__(self, port: int) -> None:
        super().__init__(("127.0.0.1", 0), _Piped)
        self.to, self.limit = port, -1
        self.lock = threading.Lock()
        self.port: int = self.server_address[1]
        threading.Thread(target=self.serve_forever, daemon=True).start()

    def allowed(self, part: bytes) -> Tuple[bytes, bool]:
        """What is handed on of a part of a reply, and whether the connection breaks then."""
        with self.lock:
            if self.limit < 0:
                return part, False
            part = part[:self.limit]
            self.limit -= len(part)
            breaks = self.limit == 0
            self.limit = -1 if breaks else self.limit
            return part, breaks

    def close(self) -> None:
        self.shutdown()
        self.server_close()


class _Piped(socketserver.BaseRequestHandler):
    def handle(self) -> None:
        server = self.server
        assert isinstance(server, Pipe)
        with contextlib.suppress(OSError):
            if not server.to:
                return
            with socket.create_connection(("127.0.0.1", server.to), timeout=600) as onward:
                threading.Thread(target=pump, args=(self.request, onward, lambda part: (part, False)), daemon=True).start()
                pump(onward, self.request, server.allowed)


def pump(source: socket.socket, sink: socket.socket, allowed: Callable[[bytes], Tuple[bytes, bool]]) -> None:
    """Hands on what comes until either side ends."""
    with contextlib.suppress(OSError):
        for part in iter(lambda: source.recv(65536), b""):
            part, breaks = allowed(part)
            sink.sendall(part)
            if breaks:
                break
    for connection in (source, sink):
        with contextlib.suppress(OSError):
            connection.shutdown(socket.SHUT_RDWR)
