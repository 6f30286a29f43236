"""Clients of others: each makes a function that asks a service at a port to say a tag, and notes it where the reply came in time."""
import asyncio
import urllib.request

import terncommode.client

from cells import heard, module

HOSTS = {"127.0.0.1"}


class Loops:
    """A client for each loop, since a client of asyncio belongs to one."""

    def __init__(self, make):
        self.make, self.made = make, {}

    def here(self):
        loop = asyncio.get_running_loop()
        if loop not in self.made:
            self.made[loop] = self.make()
        return self.made[loop]


def urllib_caller(port):
    """urllib.request, and http.client below it."""
    opener = terncommode.client.opener(urllib.request.ProxyHandler({}), hosts=HOSTS)

    def ask(name):
        with opener.open(f"http://127.0.0.1:{port}/{name}", timeout=10) as reply:
            reply.read()
        heard(name)
    return ask


def requests_caller(port):
    from terncommode.client.requests import Adapter
    session = module("requests").Session()
    session.trust_env = False
    session.mount("http://", Adapter(hosts=HOSTS, pool_maxsize=20))

    def ask(name):
        session.get(f"http://127.0.0.1:{port}/{name}", timeout=10)
        heard(name)
    return ask


def httpx_caller(port):
    from terncommode.client.httpx import Transport
    client = module("httpx").Client(transport=Transport(hosts=HOSTS))

    def ask(name):
        client.get(f"http://127.0.0.1:{port}/{name}", timeout=10)
        heard(name)
    return ask


def httpx_async_caller(port):
    from terncommode.client.httpx import AsyncTransport
    clients = Loops(lambda: module("httpx").AsyncClient(transport=AsyncTransport(hosts=HOSTS)))

    async def ask(name):
        await clients.here().get(f"http://127.0.0.1:{port}/{name}", timeout=10)
        heard(name)
    return ask


def aiohttp_caller(port):
    from terncommode.client.aiohttp import session
    sessions = Loops(lambda: session(hosts=HOSTS))

    async def ask(name):
        async with sessions.here().get(f"http://127.0.0.1:{port}/{name}") as reply:
            await reply.read()
        heard(name)
    return ask


def threads_caller(port):
    """urllib.request in a thread for each call, as services without a client for asyncio do it."""
    from terncommode import bound
    ask = urllib_caller(port)

    async def asks(name):
        await asyncio.get_running_loop().run_in_executor(None, bound(ask), name)
    return asks


SYNC = {"urllib": (None, urllib_caller), "requests": ("requests", requests_caller), "httpx": ("httpx", httpx_caller)}
ASYNC = {"httpx": ("httpx", httpx_async_caller), "aiohttp": ("aiohttp", aiohttp_caller), "threads": (None, threads_caller)}


def installed(callers):
    """Those of which the client is there."""
    return {name: make for name, (needed, make) in callers.items() if needed is None or module(needed)}
