"""A server in Python's http.server for strangers: a request's head has limits of length, of lines and of time, and what there is too little of ends nothing."""
import contextlib
import http.client
import http.server
import io
import os
import sys
import time
from socket import socket
from typing import Any, Tuple

WAIT = int(os.environ.get("WAIT_SECONDS", "10"))
"""For how long a peer is waited for."""

HEAD_MAX = 65_536
PAUSE = 0.05


class _Until(io.RawIOBase):
    """What comes over a connection until a time."""

    def __init__(self, connection: socket, until: float) -> None:
        self.connection, self.until = connection, until

    def readable(self) -> bool:
        return True

    def readinto(self, room: Any) -> int:
        left = self.until - time.monotonic()
        if left <= 0:
            raise TimeoutError("the head takes too long")
        self.connection.settimeout(left)
        return self.connection.recv_into(room)


class _Lines:
    """The lines of a head, which has so many bytes at most."""

    def __init__(self, file: Any, left: int) -> None:
        self.file, self.left = file, left

    def readline(self, most: int) -> bytes:
        line: bytes = self.file.readline(most)
        self.left -= len(line)
        if self.left < 0:
            raise http.client.LineTooLong("head")
        return line


class Handler(http.server.BaseHTTPRequestHandler):
    """Answers one request each connection. A head with more than 100 lines is refused with 431 by http.server, and one of more than 64 KiB here."""

    def setup(self) -> None:
        super().setup()
        self.rfile = io.BufferedReader(_Until(self.connection, time.monotonic() + WAIT))

    def parse_request(self) -> bool:
        whole, self.rfile = self.rfile, _Lines(self.rfile, HEAD_MAX - len(self.raw_requestline))  # type: ignore[assignment, attr-defined]
        try:
            return super().parse_request()
        finally:
            self.rfile = whole
            self.connection.settimeout(WAIT)

    def log_message(self, *_: object) -> None:
        """Nothing is printed of a request."""


class Server(http.server.ThreadingHTTPServer):
    """Where no descriptor or no thread is left for a connection, the next one is tried a little later."""

    request_queue_size = 64

    def get_request(self) -> Tuple[Any, Any]:
        try:
            return super().get_request()
        except OSError:
            time.sleep(PAUSE)
            raise

    def handle_error(self, *_: object) -> None:
        """A request that fails is a line, and its connection is closed."""
        error = sys.exc_info()[1]
        with contextlib.suppress(OSError):
            print(f"{os.path.basename(sys.argv[0])}: {type(error).__name__}: {error}", file=sys.stderr, flush=True)
        if isinstance(error, RuntimeError):
            time.sleep(PAUSE)
