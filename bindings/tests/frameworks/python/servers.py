"""Servers of others in processes of their own, whose workers are forked and start anew between the requests."""
import contextlib
import http.client
import json
import os
import socket
import subprocess
import sys
import threading
import time

import terncommode.client
from terncommode import Context, begin, bound, extract

from callers import HOSTS
from cells import BAG, QUICK, asked, begins, free_port, module, tags
from totals import total

HERE = os.path.dirname(os.path.abspath(__file__))


def gunicorn(kind, *more):
    return ["gunicorn", "--workers", "2", "--max-requests", "3", "--preload", "--log-level", "critical", "--graceful-timeout", "1", "-k", kind, *more]


SERVERS = {
    "gunicorn, sync": ("gunicorn", gunicorn("sync"), "wsgi", "-b"),
    "gunicorn, gthread": ("gunicorn", gunicorn("gthread", "--threads", "4"), "wsgi", "-b"),
    "gunicorn, uvicorn": ("gunicorn uvicorn", gunicorn("uvicorn.workers.UvicornWorker"), "asgi", "-b"),
    "uvicorn": ("uvicorn", ["uvicorn", "--log-level", "critical", "--lifespan", "off", "--host", "127.0.0.1"], "asgi", "--port"),
    "uvicorn, WSGI": ("uvicorn", ["uvicorn", "--log-level", "critical", "--interface", "wsgi", "--host", "127.0.0.1"], "wsgi", "--port"),
    "hypercorn": ("hypercorn", ["hypercorn", "--log-level", "critical"], "asgi", "-b"),
}


@contextlib.contextmanager
def running(command, app, option):
    """A server in a process of its own; its port."""
    port = free_port()
    address = str(port) if option == "--port" else f"127.0.0.1:{port}"
    process = subprocess.Popen([sys.executable, "-W", "ignore", "-m", *command, option, address, f"served:{app}"], cwd=HERE, stdout=subprocess.DEVNULL, stderr=subprocess.DEVNULL,
                               env={**os.environ, "PYTHONPATH": HERE + os.pathsep + os.environ.get("PYTHONPATH", "")})
    try:
        until = time.time() + 120
        while time.time() < until and process.poll() is None:
            with contextlib.suppress(OSError):
                socket.create_connection(("127.0.0.1", port), 1).close()
                break
            time.sleep(0.05)
        yield port
    finally:
        process.terminate()
        with contextlib.suppress(subprocess.TimeoutExpired):
            process.wait(5)
        process.kill()
        process.wait()


def served(cells, name, port):
    """Requests one after another and at once, over workers that end after three."""
    processes = set()

    def one(number):
        body = b""
        for _ in range(5):
            with contextlib.suppress(OSError, http.client.HTTPException):
                reply, status, body = asked(port, "/", begins(number))
                break
        if not body:
            cells.check(f"{name}, request {number}", False, "no reply")
            return
        said = json.loads(body)
        processes.add(said["process"])
        cells.take(f"{name}, request {number}", reply, set(said["told"]))
        cells.check(f"{name}, request {number}", BAG.read(reply, "id").value == number and "late" not in said["told"], str(said))
    threads = [threading.Thread(target=one, args=[number]) for number in range(3 if QUICK else 8)]
    for thread in threads:
        thread.start()
    for thread in threads:
        thread.join()
    if name in ("gunicorn, sync", "gunicorn, gthread") and not QUICK:
        cells.check(f"{name}, workers start anew", len(processes) > 2, str(processes))


def counted(cells, name, port):
    """One request that visits the server many times, over restarts of its workers."""
    opener = terncommode.client.opener(hosts=HOSTS)

    def ask(_):
        for _ in range(5):
            with contextlib.suppress(OSError):
                return opener.open(f"http://127.0.0.1:{port}/", timeout=5).read()
    with begin(Context(), BAG) as here:
        threads = [threading.Thread(target=bound(ask), args=[number]) for number in range(4 if QUICK else 10)]
        for thread in threads:
            thread.start()
        for thread in threads:
            thread.join()
    found, exact = total(here.end())
    cells.check(f"{name}, counted", not exact or found == 5 * len(threads), f"{found} exact of {5 * len(threads)}")
    cells.check(f"{name}, counted at all", found > 0, "nothing")


def edge(cells, name, port):
    """At an edge nothing is sent back, and strangers say nothing."""
    stranger = begins(666)
    connection = terncommode.client.http_connection(hosts=HOSTS)("127.0.0.1", port)
    with begin(stranger):
        connection.request("GET", "/")
        reply = connection.getresponse()
        reply.read()
        cells.check(f"{name}, an edge", extract(reply.msg, Context()) == Context() and "terncommode" not in str(reply.msg).lower(), str(reply.msg))
    cells.check(f"{name}, an edge's silence", not tags(terncommode.extract_reply(reply.msg, "x"))[1], "exact")
    connection.close()


def main(cells, skipped):
    for name, (modules, command, kind, option) in SERVERS.items():
        if not all(module(needed) for needed in modules.split()):
            skipped(name)
            continue
        if QUICK and name not in ("gunicorn, gthread", "uvicorn"):
            continue
        with running(command, f"{kind}_app", option) as port:
            served(cells, name, port)
            counted(cells, name, port)
        if not QUICK:
            with running(command, f"{kind}_edge", option) as port:
                edge(cells, name, port)
