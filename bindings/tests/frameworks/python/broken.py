"""Replies that break, in each client: what is read as exact has what the service said, where a byte of its reply came, and has nothing of it where none came."""
import asyncio
import contextlib
import socket
import struct
import threading
import time
import urllib.request

import terncommode.client
from terncommode import Context, NoRequest, begin, from_header, inject_reply, to_header

from cells import QUICK, free_port, module, tag, tags

SAID = tag("said")
HOSTS = {"127.0.0.1"}
# How long a client waits: where a service says nothing more, and elsewhere, so that a busy machine changes nothing.
SHORT, MIDDLE, LONG = 0.3, 2, 20


def head(received, status="200 OK", said=SAID, lines=()):
    """The head of a reply that answers the request with these bytes."""
    headers, value = [], value_of(received)
    inject_reply(headers, said if value is None else from_header(value) | said, {} if value is None else {"terncommode": value})
    text = "".join(f"{name}: {value}\r\n" for name, value in headers)
    return f"HTTP/1.1 {status}\r\nContent-Length: 2\r\nConnection: close\r\n{text}{''.join(lines)}\r\n".encode()


def value_of(received):
    """The value of the header in a request's bytes; None where there is none."""
    for line in received.decode("latin-1").split("\r\n"):
        name, _, value = line.partition(":")
        if name.lower() == "terncommode":
            return value.strip()
    return None


def reset(connection):
    connection.setsockopt(socket.SOL_SOCKET, socket.SO_LINGER, struct.pack("ii", 1, 0))


def half(received):
    whole = head(received)
    return whole[:whole.index(b"terncommode:") + 20]


# What a service does with a connection on which a request came, whether a byte of its reply goes out, and whether a client must then read exactly.
NEVER, CAME, EITHER = "never came", "came", "either"


def closes(connection, received):
    pass


def resets(connection, received):
    reset(connection)


def hangs(connection, received):
    """Says nothing until the client goes."""
    connection.settimeout(LONG)
    connection.recv(1)


def half_closes(connection, received):
    connection.sendall(half(received))


def half_resets(connection, received):
    connection.sendall(half(received))
    time.sleep(0.05)
    reset(connection)


def half_hangs(connection, received):
    connection.sendall(half(received))
    hangs(connection, received)


def one_byte(connection, received):
    connection.sendall(b"H")


def garbage(connection, received):
    connection.sendall(b"\0\1garbage\r\n\r\n" + head(received))


def many_lines(connection, received):
    connection.sendall(head(received, lines=[f"x-{number}: y\r\n" for number in range(200)]) + b"ok")


def long_line(connection, received):
    connection.sendall(head(received, lines=[f"x: {'y' * 70_000}\r\n"]) + b"ok")


def long_head(connection, received):
    with contextlib.suppress(OSError):
        connection.sendall(head(received, lines=[f"x-{number}: {'y' * 1_000}\r\n" for number in range(2_000)]) + b"ok")


def folded(connection, received):
    connection.sendall(head(received).replace(b"terncommode: ", b"terncommode:\r\n ") + b"ok")


def with_null(connection, received):
    connection.sendall(head(received).replace(b"terncommode: ", b"terncommode: \0") + b"ok")


def body_cut(connection, received):
    connection.sendall(head(received) + b"o")


def without_context(connection, received):
    connection.sendall(b"HTTP/1.1 502 Bad Gateway\r\nContent-Length: 2\r\nConnection: close\r\n\r\nok")


def of_another_request(connection, received):
    headers = []
    inject_reply(headers, SAID, {"terncommode": ".AAAAAA"})
    text = "".join(f"{name}: {value}\r\n" for name, value in headers)
    connection.sendall(f"HTTP/1.1 200 OK\r\nContent-Length: 2\r\nConnection: close\r\n{text}\r\nok".encode())


def whole(connection, received):
    connection.sendall(head(received) + b"ok")


def an_error(connection, received):
    connection.sendall(head(received, "503 Service Unavailable") + b"ok")


def after_continue(connection, received):
    connection.sendall(b"HTTP/1.1 100 Continue\r\n\r\n" + head(received) + b"ok")


def continue_hangs(connection, received):
    connection.sendall(b"HTTP/1.1 100 Continue\r\n\r\n")
    hangs(connection, received)


BREAKS = [(closes, NEVER), (resets, NEVER), (hangs, NEVER), (half_closes, EITHER), (half_resets, EITHER), (half_hangs, EITHER), (one_byte, EITHER), (garbage, EITHER),
          (many_lines, EITHER), (long_line, EITHER), (long_head, EITHER), (folded, EITHER), (with_null, EITHER), (body_cut, CAME), (without_context, EITHER),
          (of_another_request, EITHER), (whole, CAME), (an_error, CAME), (after_continue, CAME), (continue_hangs, EITHER)]
PATIENCE = {hangs: SHORT, half_hangs: MIDDLE, continue_hangs: MIDDLE}


class Service:
    """A service that answers each connection in one way, and keeps what came."""

    def __init__(self, act, host="127.0.0.1"):
        self.act, self.received = act, []
        self.listening = socket.create_server((host, 0))
        self.port = self.listening.getsockname()[1]
        self.thread = threading.Thread(target=self.serve, daemon=True)
        self.thread.start()

    def serve(self):
        while True:
            try:
                connection, _ = self.listening.accept()
            except OSError:
                return
            threading.Thread(target=self.answer, args=[connection], daemon=True).start()

    def answer(self, connection):
        with contextlib.suppress(OSError), connection:
            received = b""
            while b"\r\n\r\n" not in received:
                part = connection.recv(65_536)
                if not part:
                    return
                received += part
            self.received.append(received)
            self.act(connection, received)

    def __enter__(self):
        return self

    def __exit__(self, *error):
        self.listening.close()
        # A thread in accept sees it with the next connection.
        with contextlib.suppress(OSError):
            socket.create_connection(("127.0.0.1", self.port), 0.1).close()


# Clients: each makes a function that asks a URL and raises what the client raises.

def of_http_client(**settings):
    made = terncommode.client.http_connection(**settings)

    def ask(url, limit=LONG):
        parts = urllib.request.urlsplit(url)
        connection = made(parts.hostname, parts.port, timeout=limit)
        try:
            connection.request("GET", parts.path or "/")
            connection.getresponse().read()
        finally:
            connection.close()
    return ask


def of_urllib(**settings):
    opener = terncommode.client.opener(urllib.request.ProxyHandler({}), **settings)
    return lambda url, limit=LONG: opener.open(url, timeout=limit).read()


def of_requests(**settings):
    from terncommode.client.requests import Adapter
    session = module("requests").Session()
    session.trust_env = False
    session.mount("http://", Adapter(**settings))
    return lambda url, limit=LONG: session.get(url, timeout=limit)


def of_httpx(**settings):
    from terncommode.client.httpx import Transport
    client = module("httpx").Client(transport=Transport(**settings), follow_redirects=True)
    return lambda url, limit=LONG: client.get(url, timeout=limit)


def of_httpx_async(**settings):
    from terncommode.client.httpx import AsyncTransport

    async def ask(url, limit):
        async with module("httpx").AsyncClient(transport=AsyncTransport(**settings), follow_redirects=True) as client:
            await client.get(url, timeout=limit)
    return lambda url, limit=LONG: asyncio.run(ask(url, limit))


def of_aiohttp(**settings):
    from terncommode.client.aiohttp import session
    aiohttp = module("aiohttp")

    async def ask(url, limit):
        async with session(timeout=aiohttp.ClientTimeout(total=limit), **settings) as http:
            async with http.get(url) as reply:
                await reply.read()
    return lambda url, limit=LONG: asyncio.run(ask(url, limit))


CLIENTS = {"http.client": (None, of_http_client), "urllib": (None, of_urllib), "requests": ("requests", of_requests), "httpx": ("httpx", of_httpx),
           "httpx, async": ("httpx", of_httpx_async), "aiohttp": ("aiohttp", of_aiohttp)}
REDIRECTS = ["urllib", "requests", "httpx", "httpx, async", "aiohttp"]


def asked(ask, url, context=Context(), limit=LONG):
    """What a request holds after a call, whatever became of it."""
    with begin(context) as here:
        with contextlib.suppress(Exception):
            ask(url, limit)
    return here.end()


def breaks(cells, name, make):
    """Each way to break a reply."""
    ask, on_failure = make(hosts=HOSTS), make(hosts=HOSTS, on_failure=Context.lost())
    for act, kind in BREAKS if not QUICK else BREAKS[::3]:
        cell = f"{name}, {act.__name__}"
        with Service(act) as service:
            found = asked(ask, f"http://127.0.0.1:{service.port}/", limit=PATIENCE.get(act, LONG))
            cells.take(cell, found, set() if kind == NEVER else {"said"}, kind != EITHER)
            if kind == NEVER:
                found = asked(on_failure, f"http://127.0.0.1:{service.port}/", limit=PATIENCE.get(act, LONG))
                cells.check(f"{cell}, counted as lost", not tags(found)[1], "exact")
    refused = f"http://127.0.0.1:{free_port()}/"
    cells.take(f"{name}, refused", asked(ask, refused), set())
    cells.check(f"{name}, refused, counted as lost", not tags(asked(on_failure, refused))[1], "exact")
    cells.take(f"{name}, no address", asked(make(hosts={"nowhere.invalid"}), "http://nowhere.invalid/"), set())


def hosts(cells, name, make):
    """To whom contexts are sent."""
    mine = tag("mine")
    with Service(whole) as service:
        url = f"http://127.0.0.1:{service.port}/"
        for settings, is_sent in [({"hosts": HOSTS}, True), ({"hosts": lambda host: host.startswith("127.")}, True), ({}, False), ({"hosts": {"localhost"}}, False),
                                  ({"hosts": lambda host: False}, False)]:
            del service.received[:]
            found = asked(make(**settings), url, mine)
            cells.take(f"{name}, hosts {settings}", found, {"mine", "said"} if is_sent else {"mine"})
            value = value_of(service.received[0])
            cells.check(f"{name}, what is sent to hosts {settings}", value == (to_header(mine) if is_sent else None), str(value))
        cells.check(f"{name}, no request", raised(lambda: make(hosts=HOSTS)(url)) is NoRequest, "no NoRequest")
        cells.check(f"{name}, no request and no host", raised(lambda: make()(url)) is None, "an error")
    cells.check(f"{name}, one name as hosts", raised(lambda: make(hosts="127.0.0.1")(url)) is TypeError, "no TypeError")


def raised(call):
    """The class of what a call raises, or of what it says was the cause."""
    try:
        call()
    except Exception as error:
        return type(error)
    return None


def redirects(cells, name, make):
    """Each reply of a chain is joined, and each host is asked for anew."""
    with Service(whole) as last:
        def sends_on(host):
            def act(connection, received):
                lines = [f"Location: http://{host}:{last.port}/\r\n"]
                connection.sendall(head(received, "302 Found", tag("first"), lines) + b"ok")
            return act
        for host, truth in (("127.0.0.1", {"first", "said"}), ("localhost", {"first"})):
            del last.received[:]
            with Service(sends_on(host)) as first:
                found = asked(make(hosts=HOSTS), f"http://127.0.0.1:{first.port}/")
                cells.take(f"{name}, redirected to {host}", found, truth)
                value = value_of(last.received[-1]) if last.received else "nothing"
                cells.check(f"{name}, what is sent to {host}", (from_header(value) == tag("first")) if "said" in truth else value is None, str(value))


def early(cells):
    """A reply that comes before the whole body is sent, so that sending fails: urllib3 goes on then and reads it."""
    class Broken(terncommode.client.http_connection(hosts=HOSTS)):
        def send(self, data):
            if data == b"body":
                raise BrokenPipeError
            super().send(data)

    def asks(url, reads):
        connection = Broken(*url.split(":"), timeout=LONG)
        with contextlib.suppress(BrokenPipeError):
            connection.request("POST", "/", b"body")
        if reads:
            connection.getresponse().read()
        connection.close()
    for reads in (True, False):
        with Service(whole) as service:
            found = asked(asks, f"127.0.0.1:{service.port}", limit=reads)
        cells.take(f"http.client, an early reply, read {reads}", found, {"said"}, reads)
        cells.check(f"http.client, an early reply, read {reads}", tags(found)[1] == reads, str(tags(found)))


def early_in_httpx(cells):
    """The same in httpx, which doesn't read it: so it is lost."""
    from terncommode.client.httpx import Transport
    httpx = module("httpx")

    class Broken(httpx.HTTPTransport):
        def handle_request(self, request):
            raise httpx.WriteError("Broken pipe")
    client = httpx.Client(transport=Transport(hosts=HOSTS, transport=Broken()))
    found = asked(lambda url, limit: client.post(url, content=b"body"), "http://127.0.0.1/")
    cells.check("httpx, an early reply", not tags(found)[1], "exact")


def retries(cells):
    """The retries of urllib3 inside of requests: each reply that came counts, and one that didn't adds nothing."""
    from terncommode.client.requests import Adapter
    for acts, truth in [((an_error, closes, whole), {"said", "last"}), ((closes, resets, whole), {"last"}), ((an_error, an_error, whole), {"said", "last"})]:
        left = list(acts)

        def act(connection, received, left=left):
            one = left.pop(0)
            if one is whole:
                connection.sendall(head(received, said=tag("last")) + b"ok")
            else:
                one(connection, received)
        with Service(act) as service:
            session = module("requests").Session()
            session.trust_env = False
            retry = module("urllib3.util.retry").Retry(total=4, status_forcelist=[503], backoff_factor=0)
            session.mount("http://", Adapter(hosts=HOSTS, max_retries=retry))
            found = asked(lambda url, limit: session.get(url, timeout=limit), f"http://127.0.0.1:{service.port}/")
            cells.take(f"requests, retried after {[act.__name__ for act in acts]}", found, truth)


def main(cells, skipped):
    for name, (needed, make) in CLIENTS.items():
        if needed is not None and not module(needed):
            skipped(name)
            continue
        breaks(cells, name, make)
        hosts(cells, name, make)
        if name in REDIRECTS:
            redirects(cells, name, make)
    early(cells)
    if module("httpx"):
        early_in_httpx(cells)
    if module("requests"):
        retries(cells)
