"""Each way to run a handler's work, in each framework, with each client: what the caller reads as exact is what was said in time, and all of it."""
import asyncio
import threading
import time

from terncommode import Context, add, asgi, wsgi

import callers
import ways
from cells import BAG, QUICK, SAID, asked, begins, module, say, tag, tags, uvicorn_server, wsgi_server

EXACT = True


async def leaf(scope, receive, send):
    """The service that is asked: it says the tag that its path names."""
    name = scope["path"][1:]
    if name == "slow":
        await asyncio.sleep(0.5)
    add(tag(name))
    await send({"type": "http.response.start", "status": 200, "headers": [(b"content-length", b"0")]})
    await send({"type": "http.response.body", "body": b""})


def way_of(path, known, clients):
    """The way and the client that a path names."""
    _, _, way, client = path.split("/")
    return known[way], clients[client]


# Frameworks of ASGI: each is handed ``run(path)``, which does what the path says, and is an application without our middleware.

def raw(run):
    async def app(scope, receive, send):
        await run(scope["path"])
        say("handler")
        await send({"type": "http.response.start", "status": 200, "headers": [(b"content-length", b"0")]})
        say("after the head")
        await send({"type": "http.response.body", "body": b""})
        say("after the body")
    return app


def starlette(run):
    applications, responses, routing = module("starlette.applications"), module("starlette.responses"), module("starlette.routing")

    async def handler(request):
        await run(request.url.path)
        say("handler")
        return responses.PlainTextResponse("done", background=module("starlette.background").BackgroundTask(lambda: _late()))
    return applications.Starlette(routes=[routing.Route("/run/{way}/{client}", handler)])


def _late():
    say("background")


def below_base_http(run):
    """Ours outside of a BaseHTTPMiddleware, which runs the endpoint in a task of its own."""
    app = starlette(run)
    base = module("starlette.middleware.base").BaseHTTPMiddleware

    async def dispatch(request, call_next):
        say("before")
        response = await call_next(request)
        say("after")
        return response
    return base(app, dispatch=dispatch)


def inside_base_http(run):
    """Ours inside of a BaseHTTPMiddleware, around an application of Starlette that has one too."""
    base = module("starlette.middleware.base").BaseHTTPMiddleware

    async def dispatch(request, call_next):
        return await call_next(request)
    inner = asgi.Middleware(below_base_http(run), BAG, Context.lost(), trusted=True)
    return base(inner, dispatch=dispatch)


def fastapi_middleware(run):
    fastapi = module("fastapi")
    app = fastapi.FastAPI()

    @app.middleware("http")
    async def middleware(request, call_next):
        say("before")
        response = await call_next(request)
        say("after")
        return response

    def depends():
        say("dependency")
        yield
        say("dependency's end")

    async def depends_async():
        say("async dependency")
        yield
        say("async dependency's end")

    @app.get("/run/{way}/{client}")
    async def handler(request: fastapi.Request, first=fastapi.Depends(depends), second=fastapi.Depends(depends_async)):
        await run(request.url.path)
        say("handler")
    handler.__annotations__["request"] = fastapi.Request
    return app


def fastapi_raises(run):
    fastapi = module("fastapi")
    app = fastapi.FastAPI()

    @app.exception_handler(KeyError)
    async def handles(request, error):
        say("error handler")
        return module("starlette.responses").PlainTextResponse("failed", 500)

    @app.get("/run/{way}/{client}")
    async def handler(request: fastapi.Request):
        await run(request.url.path)
        say("handler")
        if "aiohttp" in request.url.path:
            raise KeyError
        raise fastapi.HTTPException(418)
    return app


def fastapi_streams(run):
    fastapi = module("fastapi")
    app = fastapi.FastAPI()

    @app.get("/run/{way}/{client}")
    async def handler(request: fastapi.Request, tasks: fastapi.BackgroundTasks):
        async def parts():
            await run(request.url.path)
            say("first part")
            yield b"a"
            say("second part")
            yield b"b"
        tasks.add_task(_late)
        return module("starlette.responses").StreamingResponse(parts())
    return app


# Those that have our middleware already.
HAVE_OURS = {"ours in BaseHTTPMiddleware"}
ASGI = {"raw ASGI": (None, raw), "ours in BaseHTTPMiddleware": ("starlette", inside_base_http),
        "Starlette": ("starlette", starlette), "BaseHTTPMiddleware": ("starlette", below_base_http), "FastAPI": ("fastapi", fastapi_middleware),
        "FastAPI with errors": ("fastapi", fastapi_raises), "FastAPI, streamed": ("fastapi", fastapi_streams)}


# Those whose handlers are plain functions.

def fastapi_def(run):
    fastapi = module("fastapi")
    app = fastapi.FastAPI()

    def depends():
        say("dependency")

    @app.middleware("http")
    async def middleware(request, call_next):
        return await call_next(request)

    @app.get("/run/{way}/{client}")
    def handler(request: fastapi.Request, tasks: fastapi.BackgroundTasks, first=fastapi.Depends(depends)):
        run(request.url.path)
        say("handler")
        tasks.add_task(_late)
    return app


def raw_wsgi(run):
    def app(environ, start_response):
        run(environ["PATH_INFO"])
        say("handler")
        start_response("200 OK", [("Content-Type", "text/plain")])
        say("late")
        return [b"done"]
    return app


def wsgi_generator(run):
    def app(environ, start_response):
        run(environ["PATH_INFO"])
        say("handler")
        start_response("200 OK", [("Content-Type", "text/plain")])
        yield b"a"
        say("late")
        yield b"b"
    return app


def flask_sync(run):
    flask = module("flask")
    app = flask.Flask("cells")

    @app.after_request
    def after(response):
        say("after request")
        return response

    @app.teardown_request
    def teardown(error):
        say("teardown")

    @app.route("/run/<way>/<client>")
    def view(way, client):
        run(flask.request.path)
        say("view")

        def parts():
            say("first part")
            yield "a"
            say("second part")
            yield "b"
        return flask.Response(flask.stream_with_context(parts()))

    @app.errorhandler(418)
    def handles(error):
        say("error handler")
        return "failed", 418
    return app


def flask_async(run):
    flask = module("flask")
    app = flask.Flask("cells")

    @app.route("/run/<way>/<client>")
    async def view(way, client):
        await asyncio.sleep(0)
        run(flask.request.path)
        say("view")
        flask.abort(418)

    @app.errorhandler(418)
    def handles(error):
        say("error handler")
        return "failed", 418
    return app


def django(run):
    """A view of Django, over WSGI."""
    settings = module("django.conf").settings
    urls = type(SAID)(urlpatterns=[])
    if not settings.configured:
        settings.configure(ROOT_URLCONF=__name__, SECRET_KEY="x", ALLOWED_HOSTS=["*"], LOGGING_CONFIG=None)
        module("django").setup()
    http, paths = module("django.http"), module("django.urls")

    def view(request, way, client):
        run(request.path)
        say("view")
        return http.HttpResponse("done")
    urls["urlpatterns"] = [paths.path("run/<way>/<client>", view)]
    globals()["urlpatterns"] = urls["urlpatterns"]
    return module("django.core.wsgi").get_wsgi_application()


PLAIN = {"FastAPI, def": ("fastapi", fastapi_def, "asgi"), "raw WSGI": (None, raw_wsgi, "wsgi"), "WSGI generator": (None, wsgi_generator, "wsgi"),
         "Flask": ("flask", flask_sync, "wsgi"), "Flask, async": ("asgiref", flask_async, "wsgi"), "Django": ("django", django, "wsgi")}


class Asked:
    """What was asked, with the numbers of the requests; read when all that was started has ended."""

    def __init__(self, cells):
        self.cells, self.found, self.number, self.lock = cells, [], 0, threading.Lock()

    def ask(self, cell, port, path, must_be_exact):
        with self.lock:
            self.number += 1
            number = self.number
        context = begins(number)
        reply, _, _ = asked(port, path, context)
        self.found.append((cell, number, reply, must_be_exact))

    def read(self):
        time.sleep(0.3)
        for cell, number, reply, must_be_exact in self.found:
            # A detached call may be joined in time and looked at too late.
            self.cells.take(cell, reply, SAID[number], must_be_exact, frozenset() if must_be_exact else {"detached"})
            self.cells.check(f"{cell}: the request", not tags(reply)[1] or BAG.read(reply, "id").value == number, "another request's")


def run_asgi(cells, names, leaf_port):
    asks = {name: make(leaf_port) for name, make in callers.installed(callers.ASYNC).items()}
    known = {way.__name__: way for way in (ways.ASYNC if not QUICK else ways.ASYNC[:2] + ways.ASYNC[8:10])}

    async def run(path):
        way, ask = way_of(path, known, asks)
        await way(ask)

    for name, (needed, make) in names.items():
        app = make(run) if name in HAVE_OURS else asgi.Middleware(make(run), BAG, Context.lost(), trusted=True)
        everything = Asked(cells)
        with uvicorn_server(app) as port:
            chosen = list(asks) if not QUICK else list(asks)[:1]
            for way in known:
                for client in chosen:
                    everything.ask(f"{name}, {way}, {client}", port, f"/run/{way}/{client}", way not in ways.MAY_BE_PARTIAL)
            beside(everything, name, port, "gather", chosen[0])
            everything.read()


def run_plain(cells, names, leaf_port):
    asks = {name: make(leaf_port) for name, make in callers.installed(callers.SYNC).items()}
    known = {way.__name__: way for way in (ways.SYNC if not QUICK else ways.SYNC[:3])}

    def run(path):
        way, ask = way_of(path, known, asks)
        way(ask)

    for name, (needed, make, kind) in names.items():
        everything = Asked(cells)
        middleware, server = (asgi.Middleware, uvicorn_server) if kind == "asgi" else (wsgi.Middleware, wsgi_server)
        with server(middleware(make(run), BAG, Context.lost(), trusted=True)) as port:
            chosen = list(asks) if not QUICK else list(asks)[:1]
            for way in known:
                if name == "Flask, async" and way == "own_loop":
                    continue
                for client in chosen:
                    everything.ask(f"{name}, {way}, {client}", port, f"/run/{way}/{client}", way != "thread_detached")
            beside(everything, name, port, "sync_sequence", chosen[0])
            everything.read()


def beside(everything, name, port, way, client):
    """Requests beside one another."""
    threads = [threading.Thread(target=everything.ask, args=(f"{name}, beside others", port, f"/run/{way}/{client}", True)) for _ in range(4 if QUICK else 16)]
    for thread in threads:
        thread.start()
    for thread in threads:
        thread.join()


def main(cells, skipped):
    if not module("uvicorn"):
        skipped("uvicorn")
        return
    with uvicorn_server(asgi.Middleware(leaf, BAG, Context.lost(), trusted=True)) as leaf_port:
        for names, run in ((ASGI, run_asgi), (PLAIN, run_plain)):
            there = {name: row for name, row in names.items() if row[0] is None or module(row[0])}
            for name in names:
                if name not in there:
                    skipped(name)
            run(cells, there, leaf_port)
