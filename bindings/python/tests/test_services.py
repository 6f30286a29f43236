"""The middlewares."""
import asyncio
import contextvars
import io
import threading
import unittest
import urllib.request
import wsgiref.simple_server
import wsgiref.validate

from terncommode import Bag, Context, add, asgi, begin, branch, change, current, extract, extract_reply, request, to_header, wsgi

BAG = Bag("baggage table 1\n0 0 id scalar fixed32\n0 1 tags set string\n")
ID7, ID9 = Context(bytes.fromhex("02f800050000000007")), Context(bytes.fromhex("02f800050000000009"))
TAG = Context(bytes.fromhex("02f801020061"))
ILL = Context(bytes.fromhex("02f800020000"))


def adds_tag(context):
    return BAG.only("tags").update([context], {"tags": {"a"}})


class Wsgi(unittest.TestCase):
    """One request each, as a server makes it."""

    def asked(self, middleware, headers):
        environ = {"REQUEST_METHOD": "GET"}
        wsgiref.util.setup_testing_defaults(environ)
        environ.update(headers)
        answered = []
        body = middleware(environ, lambda status, headers, exc_info=None: answered.append(headers))
        try:
            parts = b"".join(body)
        finally:
            body.close()
        return answered[0], parts

    def test_a_request_and_its_reply(self):
        seen = []

        def app(environ, start_response):
            seen.append(current())
            self.assertTrue(change(adds_tag))
            start_response("200 OK", [("Content-Type", "text/plain")])
            self.assertFalse(add(ID9))
            return [b"a", b"b"]

        both = (ID7 | ID9).to_bytes(1)
        for absent in (Context(), Context.lost()):
            middleware = wsgi.Middleware(app, BAG, absent, trusted=True)
            headers, body = self.asked(middleware, {"HTTP_TERNCOMMODE": to_header(Context(both))})
            self.assertEqual((seen.pop(), body), (ID7, b"ab"))
            self.assertEqual(extract_reply(headers, to_header(Context(both))), ID7 | TAG)
            self.assertEqual(extract_reply(headers, to_header(ID7)), Context.lost())
            self.assertEqual(sorted(name for name, _ in headers), ["Cache-Control", "Content-Type", "terncommode", "terncommode-for"])
            self.asked(middleware, {})
            self.assertEqual(seen.pop(), absent)
            self.asked(middleware, {"HTTP_TERNCOMMODE": "damaged"})
            self.assertEqual(seen.pop(), Context.lost())
            self.asked(middleware, {"HTTP_TERNCOMMODE": to_header(ILL)})
            self.assertEqual(seen.pop(), ILL)
            self.asked(wsgi.Middleware(app, None, absent, trusted=True), {"HTTP_TERNCOMMODE": to_header(Context(both))})
            self.assertEqual(seen.pop(), Context(both))
        headers, _ = self.asked(wsgi.Middleware(app, BAG, Context(), trusted=True, budget=9), {"HTTP_TERNCOMMODE": to_header(ID7)})
        self.assertEqual(extract(headers, Context()), (ID7 | TAG).cut(9))
        with self.assertRaises(TypeError):
            wsgi.Middleware(app, BAG)
        with self.assertRaises(TypeError):
            wsgi.Middleware(app, BAG, None)

    def test_what_no_middleware_is_made_of(self):
        for middleware in (wsgi.Middleware, asgi.Middleware):
            for bag in (BAG.table, b"", 5, Context()):
                with self.assertRaisesRegex(TypeError, f"^bag is a Bag or None, not {type(bag).__name__}$"):
                    middleware(None, bag, Context())
            with self.assertRaisesRegex(TypeError, "^absent is a Context, not NoneType$"):
                middleware(None, BAG, None)
            with self.assertRaisesRegex(TypeError, "^a budget is an int, not str$"):
                middleware(None, BAG, Context(), budget="3000")
            with self.assertRaisesRegex(TypeError, "^trusted is a bool, not str$"):
                middleware(None, BAG, Context(), trusted="no")
            with self.assertRaisesRegex(ValueError, "^accept says what strangers may write"):
                middleware(None, BAG, Context(), trusted=True, accept=BAG)
            with self.assertRaises(TypeError):
                middleware(None, BAG, Context(), True)
            middleware(None, None, Context())

    def test_an_edge(self):
        seen = []

        def app(environ, start_response):
            seen.append((current(), sorted(key for key in environ if "TERN" in key.upper()), environ.get("HTTP_BAGGAGE")))
            add(TAG)
            start_response("200 OK", [("x", "y"), ("Terncommode", "inner"), ("terncommode-for", "AAAAAA"), ("TERNCOMMODE-BIN", "inner")])
            return []

        own = to_header(ID7)
        came = {"HTTP_TERNCOMMODE": own, "HTTP_TERNCOMMODE_BIN": own, "HTTP_TERNCOMMODE_FOR": own, "HTTP_TERNCOMMODE_STEP": "a.1"}
        for baggage, left in [(f"terncommode={own}", None), (f"a=b, terncommode={own};p=1,x=y", "a=b,x=y"), ("a=b, x=y", "a=b, x=y"), (f"Terncommode={own},%74erncommode={own},a=1", "a=1"),
                              (f"%2574erncommode={own},+%252574ERNCOMMODE%2B={own},%{'25' * 99}74=1,%6b=%74erncommode", "%6b=%74erncommode"),
                              ("terncommode", None), (f"terncommode-shop = {own},terncommodex=1", "terncommodex=1"), (None, None)]:
            headers, _ = self.asked(wsgi.Middleware(app, BAG, Context()), {**came, **({} if baggage is None else {"HTTP_BAGGAGE": baggage})})
            self.assertEqual((seen.pop(), headers), ((Context(), [], left), [("x", "y")]))
        for value, begins in [(own, ID7), (to_header(ID7 | TAG), ID7), (to_header(ILL), Context.lost()), ("damaged", Context.lost())]:
            headers, _ = self.asked(wsgi.Middleware(app, BAG, Context(), accept=BAG.only("id")), {"HTTP_TERNCOMMODE": value})
            self.assertEqual((seen.pop(), headers), ((begins, [], None), [("x", "y")]))
        self.asked(wsgi.Middleware(app, BAG, Context.lost(), accept=BAG.only("id")), {})
        self.assertEqual(seen.pop()[0], Context.lost())

    def test_parts_are_made_with_the_requests_context(self):
        closed = []

        def app(environ, start_response):
            def parts():
                try:
                    start_response("200 OK", [])
                    for _ in range(2):
                        yield current().to_bytes(1)
                        self.assertFalse(change(adds_tag))
                finally:
                    closed.append(current())
            return parts()

        with begin(ID9) as outer:
            headers, body = self.asked(wsgi.Middleware(app, BAG, Context(), trusted=True), {"HTTP_TERNCOMMODE": to_header(ID7)})
            self.assertEqual((request(), current()), (outer, ID9))
        self.assertEqual(body, bytes(ID7) + bytes(ID7 | TAG))
        self.assertEqual(extract(headers, Context()), ID7)
        self.assertEqual(closed, [ID7 | TAG])

    def test_a_body_has_the_length_that_it_had(self):
        def replies(body):
            def app(environ, start_response):
                start_response("200 OK", [])
                return body

            return wsgi.Middleware(app, BAG, Context())({}, lambda status, headers: None)

        class Parts:
            def __iter__(self):
                return iter([b"a", b"b", b"c"])

            def __len__(self):
                return 3

        for body, length, whole in [([], 0, b""), ([b"ab"], 1, b"ab"), ((b"a", b"b"), 2, b"ab"), (Parts(), 3, b"abc")]:
            found = replies(body)
            self.assertEqual((len(found), b"".join(found)), (length, whole))
        for body in ((part for part in [b"ab"]), iter([b"ab"]), wsgiref.util.FileWrapper(io.BytesIO(b"ab"))):
            found = replies(body)
            self.assertFalse(hasattr(found, "__len__"))
            self.assertEqual(b"".join(found), b"ab")

    def test_over_a_real_server(self):
        def app(environ, start_response):
            change(adds_tag)
            start_response("200 OK", [("Content-Type", "text/plain")])
            return [b"done"]

        class Handler(wsgiref.simple_server.WSGIRequestHandler):
            def log_message(self, *words):
                pass

        checked = wsgiref.validate.validator(wsgi.Middleware(wsgiref.validate.validator(app), BAG, Context.lost(), trusted=True))
        self.served(checked, Handler, None)
        self.served(wsgi.Middleware(app, BAG, Context.lost(), trusted=True), Handler, "4")

    def served(self, middleware, handler, length):
        """Asks a server twice; its reply has this Content-Length. A validator's body has no length."""
        server = wsgiref.simple_server.make_server("127.0.0.1", 0, middleware, handler_class=handler)
        thread = threading.Thread(target=server.serve_forever)
        thread.start()
        try:
            for sent, back in [({"Terncommode": to_header(ID7)}, ID7 | TAG), ({}, BAG.update([Context.lost()], {"tags": {"a"}}))]:
                request = urllib.request.Request(f"http://127.0.0.1:{server.server_port}/", headers=sent)
                with urllib.request.build_opener(urllib.request.ProxyHandler({})).open(request) as reply:
                    self.assertEqual((reply.read(), extract(reply.headers, Context()), reply.headers["Content-Length"]), (b"done", back, length))
        finally:
            server.shutdown()
            thread.join()
            server.server_close()


class Asgi(unittest.TestCase):
    def asked(self, middleware, kind, headers):
        sent = []

        async def send(message):
            sent.append(message)

        async def receive():
            return {"type": "http.request"}

        async def work():
            before = current()
            try:
                await middleware({"type": kind, "headers": headers}, receive, send)
            finally:
                self.assertEqual(current(), before)

        asyncio.run(work())
        return sent

    def test_a_request_and_its_reply(self):
        for kind, reply in [("http", "http.response.start"), ("websocket", "websocket.accept"), ("websocket", "websocket.http.response.start")]:
            seen = []

            async def app(scope, receive, send):
                seen.append(current())
                change(adds_tag)
                await send({"type": reply, "headers": [(b"X", b"y")]})
                await send({"type": "http.response.body", "body": b""})

            middleware = asgi.Middleware(app, BAG, Context(), trusted=True)
            sent = self.asked(middleware, kind, [(b"terncommode", to_header(ID7).encode()), (b"terncommode", to_header(ID9).encode())])
            self.assertEqual(seen.pop(), ID7)
            self.assertEqual([name for name, _ in sent[0]["headers"]], [b"x", b"terncommode", b"terncommode-for", b"cache-control"])
            self.assertEqual(extract_reply(sent[0]["headers"], to_header(ID7)), ID7 | TAG)
            self.assertNotIn("headers", sent[1])
            self.asked(middleware, kind, [])
            self.assertEqual(seen.pop(), Context())
            self.asked(asgi.Middleware(app, BAG, Context.lost(), trusted=True), kind, [(b"x", b"")])
            self.assertEqual(seen.pop(), Context.lost())
            sent = self.asked(asgi.Middleware(app, BAG, Context()), kind, [(b"terncommode", to_header(ID7).encode())])
            self.assertEqual((seen.pop(), sent[0]["headers"]), (Context(), [(b"x", b"y")]))

    def test_an_edge(self):
        seen = []

        async def app(scope, receive, send):
            seen.append((current(), scope["headers"]))

        own = to_header(ID7).encode()
        headers = [(b"x", b"y"), (b"terncommode", own), (b"terncommode-bin", own), (b"terncommode-for", own), (b"baggage", b"a=b,terncommode=" + own), (b"baggage", b"terncommode=" + own)]
        self.asked(asgi.Middleware(app, BAG, Context()), "http", headers)
        self.assertEqual(seen.pop(), (Context(), [(b"x", b"y"), (b"baggage", b"a=b")]))
        self.asked(asgi.Middleware(app, BAG, Context(), accept=BAG.only("id")), "http", headers)
        self.assertEqual(seen.pop(), (ID7, [(b"x", b"y"), (b"baggage", b"a=b")]))
        self.asked(asgi.Middleware(app, BAG, Context(), trusted=True), "http", headers)
        self.assertEqual(seen.pop(), (ID7, headers))

    def test_one_inside_of_another(self):
        async def inner(scope, receive, send):
            self.assertEqual(current(), ID7 | TAG)
            add(ID9)
            await send({"type": "http.response.start", "status": 200, "headers": []})
            await send({"type": "http.response.body", "body": b""})

        mounted = asgi.Middleware(inner, None, Context.lost(), trusted=True)

        async def outer(scope, receive, send):
            add(TAG)
            await mounted(scope, receive, send)

        sent = self.asked(asgi.Middleware(outer, None, Context(), trusted=True), "http", [(b"terncommode", to_header(ID7).encode())])
        self.assertEqual(extract_reply(sent[0]["headers"], to_header(ID7)), ID7 | TAG | ID9)

    def test_the_reply_is_that_of_the_visit_wherever_it_is_sent(self):
        async def sends(send):
            await send({"type": "http.response.start", "status": 200, "headers": []})
            await send({"type": "http.response.body", "body": b""})

        async def in_a_branch(scope, receive, send):
            add(TAG)
            with branch() as own:
                own.add(ID9)
                await sends(send)

        async def nowhere(scope, receive, send):
            add(TAG)
            await contextvars.Context().run(asyncio.ensure_future, sends(send))

        for app in (in_a_branch, nowhere):
            sent = self.asked(asgi.Middleware(app, None, Context(), trusted=True), "http", [(b"terncommode", to_header(ID7).encode())])
            self.assertEqual(extract_reply(sent[0]["headers"], to_header(ID7)), ID7 | TAG)

    def test_a_reply_that_says_something_already(self):
        """As that of a service of which the application is a proxy: it counts where it answers what came."""
        own, check = to_header(ID7).encode(), to_header(ID7)[-6:].encode()
        for headers, said in [([(b"terncommode", to_header(TAG).encode()), (b"terncommode-for", check)], TAG), ([(b"terncommode", to_header(TAG).encode())], Context.lost()),
                              ([(b"terncommode", to_header(TAG).encode()), (b"terncommode-for", b"AAAAAA")], Context.lost()),
                              ([(b"Terncommode", b"damaged"), (b"terncommode-for", check)], Context.lost()),
                              ([], Context())]:
            async def proxy(scope, receive, send):
                await send({"type": "http.response.start", "status": 200, "headers": headers})
                await send({"type": "http.response.body", "body": b""})

            sent = self.asked(asgi.Middleware(proxy, None, Context(), trusted=True), "http", [(b"terncommode", own)])
            self.assertEqual(extract_reply(sent[0]["headers"], own.decode()), ID7 | said)
            answered = []
            as_text = [(name.decode(), value.decode()) for name, value in headers]
            middleware = wsgi.Middleware(lambda environ, start_response: start_response("200 OK", as_text) or [], None, Context(), trusted=True)
            list(middleware({"HTTP_TERNCOMMODE": own.decode()}, lambda status, headers: answered.append(headers)))
            self.assertEqual(extract_reply(answered[0], own.decode()), ID7 | said)

    def test_the_head_waits_for_the_body(self):
        late = []

        async def app(scope, receive, send):
            await send({"type": "http.response.start", "status": 200, "headers": []})
            late.append(add(TAG))
            await send({"type": "http.response.body", "body": b"a", "more_body": True})
            late.append(add(ID9))
            await send({"type": "http.response.body", "body": b"b"})

        sent = self.asked(asgi.Middleware(app, BAG, Context(), trusted=True), "http", [(b"terncommode", to_header(ID7).encode())])
        self.assertEqual([message["type"] for message in sent], ["http.response.start", "http.response.body", "http.response.body"])
        self.assertEqual((extract_reply(sent[0]["headers"], to_header(ID7)), late), (ID7 | TAG, [True, False]))

        async def fails(scope, receive, send):
            await send({"type": "http.response.start", "status": 200, "headers": []})
            raise KeyError

        with self.assertRaises(KeyError):
            self.asked(asgi.Middleware(fails, BAG, Context(), trusted=True), "http", [])

    def test_headers_that_can_be_read_once(self):
        async def app(scope, receive, send):
            self.assertEqual(list(scope["headers"]), [(b"terncommode", to_header(ID7).encode())])
            self.assertEqual(current(), ID7)

        self.asked(asgi.Middleware(app, None, Context(), trusted=True), "http", iter([(b"terncommode", to_header(ID7).encode())]))

    def test_a_reply_without_headers(self):
        async def app(scope, receive, send):
            await send({"type": "http.response.start", "status": 200})

        sent = self.asked(asgi.Middleware(app, None, ID7, trusted=True), "http", [])
        self.assertEqual(sent[0]["headers"], [(b"terncommode", to_header(ID7).encode()), (b"cache-control", b'no-cache="terncommode"')])

    def test_other_scopes_pass(self):
        seen = []

        async def app(scope, receive, send):
            seen.append((scope["type"], current()))
            await send({"type": "lifespan.startup.complete"})

        async def send(message):
            seen.append(message)

        asyncio.run(asgi.Middleware(app, BAG, Context())({"type": "lifespan"}, None, send))
        self.assertEqual(seen, [("lifespan", Context.lost()), {"type": "lifespan.startup.complete"}])

    def test_requests_at_a_time(self):
        async def app(scope, receive, send):
            mine = current()
            await asyncio.sleep(0.001)
            self.assertEqual(current(), mine)
            await send({"type": "http.response.start", "headers": []})

        async def one(number):
            context = BAG.update([], {"id": number})
            back = []

            async def send(message):
                back.append(extract(message["headers"], Context()))

            await asgi.Middleware(app, BAG, Context.lost(), trusted=True)({"type": "http", "headers": [(b"terncommode", to_header(context).encode())]}, None, send)
            return back == [context]

        async def work():
            return await asyncio.gather(*map(one, range(50)))

        self.assertEqual(asyncio.run(work()), [True] * 50)


if __name__ == "__main__":
    unittest.main()
