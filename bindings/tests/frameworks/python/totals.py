"""Counters over real servers: a gateway asks a worker ten times at once, each asks a leaf, replies are dropped and asked for again, hedged, or break."""
import asyncio
import contextlib
import itertools
import socket
import threading

from terncommode import Context, asgi, begin, count

from callers import HOSTS
from cells import BAG, QUICK, asked, module, uvicorn_server

OWN, WORKER, LEAF = 10, 100, 1_000


def total(context):
    field = BAG.read(context, "hops")
    return sum(field.value.values()), field.exact


async def replies(send):
    await send({"type": "http.response.start", "status": 200, "headers": [(b"content-length", b"0")]})
    await send({"type": "http.response.body", "body": b""})


async def leaf(scope, receive, send):
    await asyncio.sleep(0.001)
    count("hops", LEAF)
    await replies(send)


def asking(port, make):
    """A service that asks the one at this port, as the function says that is made of a client."""
    from terncommode.client.httpx import AsyncTransport
    clients = {}

    async def app(scope, receive, send):
        loop = asyncio.get_running_loop()
        if loop not in clients:
            clients[loop] = module("httpx").AsyncClient(transport=AsyncTransport(hosts=HOSTS), timeout=5)
        count("hops", 1)
        await make(lambda: clients[loop].get(f"http://127.0.0.1:{port}/"))
        count("hops", (WORKER if make is once else OWN) - 1)
        await replies(send)
    return app


async def once(ask):
    await ask()


async def ten(ask):
    await asyncio.gather(*[ask() for _ in range(10)])


async def ten_again(ask):
    """Asks again where no reply came."""
    async def stubborn():
        for _ in range(5):
            with contextlib.suppress(Exception):
                return await ask()
    await asyncio.gather(*[stubborn() for _ in range(10)])


async def hedged(ask):
    """Asks twice, takes what comes first, and gives up the other."""
    _, pending = await asyncio.wait([asyncio.ensure_future(ask()) for _ in range(2)], return_when=asyncio.FIRST_COMPLETED)
    for task in pending:
        task.cancel()
    await asyncio.gather(*pending, return_exceptions=True)


class Relay:
    """Hands on connections, and each reply as ``drops`` says: whole, or so many bytes of it."""

    def __init__(self, port, drops):
        self.port, self.drops, self.lock = port, drops, threading.Lock()
        self.listening = socket.create_server(("127.0.0.1", 0), backlog=50)
        threading.Thread(target=self.serve, daemon=True).start()

    def serve(self):
        while True:
            try:
                connection, _ = self.listening.accept()
            except OSError:
                return
            threading.Thread(target=self.hand_on, args=[connection], daemon=True).start()

    def hand_on(self, connection):
        with contextlib.suppress(OSError), connection, socket.create_connection(("127.0.0.1", self.port)) as further:
            connection.settimeout(5)
            further.settimeout(5)
            while True:
                received = connection.recv(65_536)
                if not received:
                    return
                further.sendall(received)
                reply = b""
                while b"\r\n\r\n" not in reply:
                    reply += further.recv(65_536)
                with self.lock:
                    most = next(self.drops)
                if most is not None:
                    connection.sendall(reply[:most])
                    return
                connection.sendall(reply)

    def close(self):
        self.listening.close()


def main(cells, skipped):
    if not module("uvicorn") or not module("httpx"):
        skipped("totals with uvicorn and httpx")
        return
    with uvicorn_server(asgi.Middleware(leaf, BAG, Context.lost(), trusted=True)) as leaf_port:
        with uvicorn_server(asgi.Middleware(asking(leaf_port, once), BAG, Context.lost(), trusted=True)) as worker_port:
            for name, make, drops, truth in [("ten at once", ten, [], {OWN + 10 * (WORKER + LEAF)}), ("three dropped and asked again", ten_again, [0, 0, 0], {OWN + 10 * (WORKER + LEAF)}),
                                             ("hedged", hedged, [], {OWN + number * (WORKER + LEAF) for number in (1, 2)}), ("two broken", ten_again, [40, 60], set())]:
                for _ in range(1 if QUICK else 5):
                    relay = Relay(worker_port, itertools.chain(drops, itertools.repeat(None)))
                    with uvicorn_server(asgi.Middleware(asking(relay.listening.getsockname()[1], make), BAG, Context(), trusted=True)) as port:
                        context, _, _ = asked(port, "/", Context())
                    relay.close()
                    found, exact = total(context)
                    cells.check(f"totals, {name}", exact == bool(truth) and (not truth or found in truth), f"{found}, exact {exact}")
    many_visits(cells)


def many_visits(cells):
    """A request of more visits than a budget holds is cut, and that is told."""
    with begin(Context(), BAG) as here:
        for _ in range(300):
            with begin(here.context, BAG) as visit:
                count("hops")
            here.add(visit.context)
    whole, cut = total(here.context), total(here.context.cut(3_000))
    cells.check("totals, 300 visits", whole == (300, True) and not cut[1] and 200 <= cut[0] <= 230, str((whole, cut)))
