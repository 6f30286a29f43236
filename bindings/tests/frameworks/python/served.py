"""What the servers of servers.py serve: each reply says in its body which tags the library took in time."""
import asyncio
import concurrent.futures
import json
import os

from terncommode import Context, add, asgi, bound, count, wsgi

from cells import BAG, tag

POOL = None


def pool():
    """A pool of this process: one that was made before a fork has no threads here."""
    global POOL
    POOL = POOL or concurrent.futures.ThreadPoolExecutor(4)
    return POOL


def body(told):
    return json.dumps({"told": sorted(told), "process": os.getpid()}).encode()


def plain(environ, start_response):
    told = [name for name in ("first", "second") if add(tag(name))]
    told += [name for name, ok in zip("abc", pool().map(bound(lambda name: add(tag(name))), "abc")) if ok]
    count("hops", 5)
    start_response("200 OK", [("Content-Type", "application/json")])
    return [body(told + (["late"] if add(tag("late")) else []))]


async def later(scope, receive, send):
    told = []

    async def child(name):
        await asyncio.sleep(0.001)
        told.extend([name] if add(tag(name)) else [])
    await asyncio.gather(*map(child, "abc"))
    await asyncio.get_running_loop().run_in_executor(None, bound(lambda: told.extend(["pool"] if add(tag("pool")) else [])))
    count("hops", 5)
    await send({"type": "http.response.start", "status": 200, "headers": []})
    told.extend(["after the head"] if add(tag("after the head")) else [])
    await send({"type": "http.response.body", "body": body(told)})
    add(tag("late"))

wsgi_app = wsgi.Middleware(plain, BAG, Context.lost(), trusted=True)
asgi_app = asgi.Middleware(later, BAG, Context.lost(), trusted=True)
wsgi_edge = wsgi.Middleware(plain, BAG, Context())
asgi_edge = asgi.Middleware(later, BAG, Context())
