"""What all cells have in common: a bag, what was said in time, and servers that run beside."""
import contextlib
import http.client
import importlib
import os
import socket
import threading
import time

from terncommode import Bag, Context, extract_reply, request, to_header

QUICK = os.environ.get("QUICK") == "1"
BAG = Bag("baggage table 1\n0 0 id scalar fixed32\n0 1 tags set string\n0 2 hops counter\n")

# What was said in time, by the number of a request.
SAID = {}


def module(name):
    """A module, None where it isn't installed."""
    try:
        return importlib.import_module(name)
    except ImportError:
        return None


def tag(name):
    return BAG.update([], {"tags": {name}})


def tags(context):
    """The tags that a context says, and whether they are exact."""
    field = BAG.read(context, "tags")
    return field.value, field.exact


def number_of(context):
    return BAG.read(context, "id").value


def say(name):
    """Says a tag, and notes it where the library took it in time."""
    here = request()
    if here.add(tag(name)):
        SAID[number_of(here.context)].add(name)


def heard(name):
    """Notes what a callee has said, where its reply came in time."""
    here = request()
    if here.add(Context()):
        SAID[number_of(here.context)].add(name)


def begins(number):
    """The context of a new request."""
    SAID[number] = set()
    return BAG.update([], {"id": number})


def asked(port, path, context, timeout=20):
    """Asks a server as a caller inside would: the context of its reply, the status and the body."""
    connection = http.client.HTTPConnection("127.0.0.1", port, timeout=timeout)
    try:
        sent = to_header(context)
        connection.request("GET", path, headers={"Terncommode": sent})
        reply = connection.getresponse()
        return extract_reply(reply.headers, sent), reply.status, reply.read()
    finally:
        connection.close()


class Cells:
    """The cells that ran: each reads what is true, or partial."""

    def __init__(self):
        self.ran, self.contexts, self.exact, self.failed = 0, 0, 0, []

    def take(self, cell, context, truth, must_be_exact=True, perhaps=frozenset()):
        """A cell's context, beside the tags that were said on the ways to it, and those of which nobody noted whether they were in time."""
        found, exact = tags(context)
        found = found - (perhaps - truth)
        self.ran, self.contexts, self.exact = self.ran + 1, self.contexts + 1, self.exact + exact
        if (exact and found != truth) or not found <= truth or (must_be_exact and not exact):
            self.failed.append(f"{cell}: {'exact' if exact else 'partial'} {sorted(found)}, and not {sorted(truth)}")

    def check(self, cell, holds, said=""):
        """Something else that has to hold."""
        self.ran += 1
        if not holds:
            self.failed.append(f"{cell}: {said}")


@contextlib.contextmanager
def uvicorn_server(app):
    """An ASGI application, served in a thread; the port."""
    uvicorn = module("uvicorn")
    server = uvicorn.Server(uvicorn.Config(app, port=0, log_level="critical", lifespan="off"))
    thread = threading.Thread(target=server.run)
    thread.start()
    try:
        until = time.time() + 10
        while not server.started and time.time() < until:
            time.sleep(0.005)
        yield server.servers[0].sockets[0].getsockname()[1]
    finally:
        server.should_exit = True
        thread.join()


@contextlib.contextmanager
def wsgi_server(app):
    """A WSGI application, served by werkzeug's or wsgiref's server in threads; the port."""
    import socketserver
    import wsgiref.simple_server

    class Server(socketserver.ThreadingMixIn, wsgiref.simple_server.WSGIServer):
        daemon_threads = True
        request_queue_size = 50

        def handle_error(self, request, client_address):
            pass

    class Handler(wsgiref.simple_server.WSGIRequestHandler):
        def log_message(self, *words):
            pass

    server = wsgiref.simple_server.make_server("127.0.0.1", 0, app, server_class=Server, handler_class=Handler)
    thread = threading.Thread(target=server.serve_forever, args=[0.01])
    thread.start()
    try:
        yield server.server_port
    finally:
        server.shutdown()
        thread.join()
        server.server_close()


def free_port():
    with socket.socket() as found:
        found.bind(("127.0.0.1", 0))
        return found.getsockname()[1]
