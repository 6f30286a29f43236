"""The middlewares in servers and frameworks of others, where they are installed."""
import asyncio
import http.client
import threading
import unittest

from terncommode import Bag, Context, add, asgi, current, extract, extract_reply, inject, to_header, wsgi

try:
    import uvicorn
except ImportError:
    uvicorn = None
try:
    import flask
except ImportError:
    flask = None

BAG = Bag("baggage table 1\n0 0 id scalar fixed32\n0 1 tags set string\n")
ID7 = Context(bytes.fromhex("02f800050000000007"))


@unittest.skipUnless(uvicorn, "uvicorn isn't installed")
class Uvicorn(unittest.TestCase):
    def test_requests_at_a_time(self):
        async def app(scope, receive, send):
            mine = current()
            await asyncio.sleep(0.01)
            assert current() == mine
            add(BAG.update([], {"tags": {"a"}}))
            await send({"type": "http.response.start", "status": 200, "headers": [(b"content-length", b"4")]})
            await send({"type": "http.response.body", "body": b"done"})

        server = uvicorn.Server(uvicorn.Config(asgi.Middleware(app, BAG, Context.lost(), trusted=True), port=0, log_level="error", lifespan="off"))
        thread = threading.Thread(target=server.run)
        thread.start()
        try:
            while not server.started:
                thread.join(0.01)
            port = server.servers[0].sockets[0].getsockname()[1]
            found = []

            def ask(number):
                context = BAG.update([], {"id": number})
                connection = http.client.HTTPConnection("127.0.0.1", port)
                headers = {}
                inject(headers, context)
                connection.request("GET", "/", headers=headers)
                reply = connection.getresponse()
                found.append((reply.read(), extract_reply(reply.headers, headers["terncommode"]) == BAG.update([context], {"tags": {"a"}})))
                connection.close()

            threads = [threading.Thread(target=ask, args=[number]) for number in range(20)]
            for each in threads:
                each.start()
            for each in threads:
                each.join()
            self.assertEqual(found, [(b"done", True)] * 20)
        finally:
            server.should_exit = True
            thread.join()


@unittest.skipUnless(flask, "Flask isn't installed")
class Flask(unittest.TestCase):
    def test_a_view(self):
        app = flask.Flask("checkout")

        @app.route("/")
        def view():
            add(BAG.update([], {"tags": {"a"}}))

            def parts():
                yield BAG.text(current(), "id").value
                yield str(extract(flask.request.headers, Context()) == ID7)
            return app.response_class(flask.stream_with_context(parts()))

        app.wsgi_app = wsgi.Middleware(app.wsgi_app, BAG, Context.lost(), trusted=True)
        reply = app.test_client().get("/", headers={"Terncommode": to_header(ID7)})
        self.assertEqual(reply.get_data(), b"7True")
        self.assertEqual(extract(reply.headers, Context()), BAG.update([ID7], {"tags": {"a"}}))
        with app.test_client().get("/") as reply:
            self.assertEqual(extract(reply.headers, Context()), BAG.update([Context.lost()], {"tags": {"a"}}))


if __name__ == "__main__":
    unittest.main()
