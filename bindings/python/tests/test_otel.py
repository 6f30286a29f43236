"""The propagator, beside a stand-in for OpenTelemetry, which isn't in Debian."""
import contextvars
import importlib
import sys
import types
import unittest
from urllib.parse import quote_plus, unquote_plus

import terncommode.otel
from terncommode import Bag, Context, add, begin, branch, current, extract, from_header, to_header, wsgi

BAG = Bag("baggage table 1\n0 0 id scalar fixed32\n0 1 tags set string\n")
ID7, ID9 = Context(bytes.fromhex("02f800050000000007")), Context(bytes.fromhex("02f800050000000009"))
TAG = Context(bytes.fromhex("02f801020061"))


class Otel(unittest.TestCase):
    """The propagator, as the API of OpenTelemetry calls it."""

    def test_both_ways(self):
        for header, member, names in [(True, False, {"terncommode"}), (False, True, {"baggage"}), (True, True, {"terncommode", "baggage"})]:
            propagator = terncommode.otel.Propagator(Context(), trusted=True, header=header, member=member)
            carrier = {"baggage": "tenant=acme,terncommode=old;p=1 , x=%20y;q"}
            propagator.inject(carrier, terncommode.otel.put(ID7, {}))
            self.assertEqual(propagator.fields, names)
            self.assertEqual("terncommode" in carrier, header)
            self.assertEqual(carrier["baggage"].split(",")[member:], ["tenant=acme", "x=%20y;q"])
            self.assertEqual(terncommode.otel.get(propagator.extract(carrier, {})), ID7)
        with self.assertRaises(ValueError):
            terncommode.otel.Propagator(Context(), header=False)
        with self.assertRaises(TypeError):
            terncommode.otel.Propagator()
        with self.assertRaises(TypeError):
            terncommode.otel.Propagator(None)

    def test_what_arrives(self):
        propagator = terncommode.otel.Propagator(ID9, trusted=True, member=True)
        own, other = to_header(ID7), to_header(TAG)
        for carrier, context in [({}, ID9), ({"baggage": "a=b"}, ID9), ({"terncommode": own, "baggage": f"terncommode={other}"}, ID7 | TAG),
                                 ({"baggage": f"terncommode={own},terncommode={other}"}, ID7 | TAG), ({"baggage": f"bad key=1,\x80, terncommode = {own} ;p=q"}, ID7),
                                 ({"baggage": f"terncommode={own[:-1]}"}, Context.lost()), ({"baggage": "terncommode"}, Context.lost()), ({"baggage": f"Terncommode={own}"}, ID9),
                                 ([("Baggage", f"terncommode={own}"), ("baggage", f"x=y,terncommode={other}")], ID7 | TAG), ({"terncommode": ""}, Context.lost())]:
            with self.subTest(carrier=carrier):
                self.assertEqual(terncommode.otel.get(propagator.extract(carrier, {})), context)

    def test_getters_and_setters(self):
        class Getter:
            def get(self, carrier, key):
                return [value.decode() for name, value in carrier if name == key] or None

        class Setter:
            def set(self, carrier, key, value):
                carrier.append((key, value.encode()))

        carrier = [("baggage", b"a=b"), ("x", b"y")]
        propagator = terncommode.otel.Propagator(Context(), trusted=True, member=True)
        for context in (ID9, ID7):
            propagator.inject(carrier, terncommode.otel.put(context, {}), Setter())
        self.assertEqual(sorted(name for name, _ in carrier), ["baggage", "terncommode", "x"])
        self.assertEqual(terncommode.otel.get(propagator.extract(carrier, {}, Getter())), ID7)
        self.assertEqual(dict(carrier)["baggage"].split(b",")[1:], [b"a=b"])

        carrier = [(b"baggage", b"a=\x80")]
        propagator.inject(carrier, terncommode.otel.put(ID7, {}))
        self.assertEqual(dict(carrier)[b"baggage"].split(b",")[1:], [b"a=\x80"])

        class Closed:
            """A carrier that only its setter can write."""
            written = {}

        class ClosedSetter:
            def set(self, carrier, key, value):
                carrier.written[key] = value

        terncommode.otel.Propagator(Context(), trusted=True, header=False, member=True).inject(Closed(), terncommode.otel.put(ID7, {}), ClosedSetter())
        self.assertEqual(list(Closed.written), ["terncommode"])

    def test_no_sdk_drops_what_is_sent(self):
        long = BAG.update([], {"tags": {f"{number:0100}" for number in range(200)}})
        propagator = terncommode.otel.Propagator(Context(), trusted=True, member=True, budget=20_000)
        for letters in (0, 100, 5_000, 8_000, 8_150):
            carrier = {"baggage": "x=" + "y" * letters}
            propagator.inject(carrier, terncommode.otel.put(long, {}))
            own, _ = carrier["baggage"].split(",")
            self.assertLessEqual(len(own), 4_096)
            self.assertLessEqual(len(carrier["baggage"]), 8_192)
            self.assertGreater(len(own), min(4_090, 8_180 - letters) - 150)
            read = BAG.read(from_header(own.partition("=")[2]), "tags")
            self.assertFalse(read.exact)
            self.assertLess(read.value, BAG.read(long, "tags").value)

    def test_a_member_without_place_is_left_out(self):
        propagator = terncommode.otel.Propagator(Context.lost(), trusted=True, header=False, member=True)
        both, table = ID7 | TAG, BAG.only("tags")
        for context, least in [(Context(), "terncommode=.AAAAAA,"), (Context.lost(), "terncommode=AA.CHECK_,"), (both, "terncommode=AA.CHECK_,")]:
            for letters in range(8_100, 8_193):
                foreign = f"x={'y' * 4_000},z={'y' * (letters - 4_005)}"
                carrier = {"baggage": f"terncommode={to_header(both)},{foreign}"}
                propagator.inject(carrier, terncommode.otel.put(context, {}))
                sent = carrier["baggage"]
                self.assertTrue(len(sent) <= 8_192 and sent.endswith(foreign), (len(sent), letters))
                self.assertEqual(sent != foreign, letters + len(least) <= 8_192)
                arrived = terncommode.otel.get(propagator.extract(carrier, {}))
                self.assertTrue(arrived == context or not table.read(arrived, "tags").exact)
        for number in (62, 63, 64):
            carrier = {"baggage": ",".join(f"k{k}=1" for k in range(number))}
            propagator.inject(carrier, terncommode.otel.put(ID7, {}))
            self.assertEqual(len(carrier["baggage"].split(",")), min(number + 1, 64))

    def test_without_opentelemetry_the_current_context_is_sent(self):
        carrier = {}
        with begin(ID7):
            terncommode.otel.Propagator(Context(), trusted=True).inject(carrier)
        self.assertEqual(extract(carrier, Context()), ID7)
        terncommode.otel.Propagator(Context(), trusted=True).inject(carrier)
        self.assertEqual(extract(carrier, Context()), Context.lost())

    def test_an_edge(self):
        own = to_header(ID7)
        for carrier in ({"terncommode": own}, {"baggage": f"terncommode={own}"}, [("Terncommode", own)]):
            self.assertEqual(terncommode.otel.get(terncommode.otel.Propagator(Context()).extract(carrier, {})), Context())
            self.assertEqual(terncommode.otel.get(terncommode.otel.Propagator(Context(), trusted=True).extract(carrier, {})), ID7)
        with self.assertRaisesRegex(TypeError, "^trusted is a bool"):
            terncommode.otel.Propagator(Context(), trusted=None)

    def test_a_key_that_comes_twice(self):
        class Pairs:
            """Gives the first value of a key, as written."""
            def get(self, carrier, key):
                return next(([value] for name, value in carrier if name == key), None)

            def keys(self, carrier):
                return [name for name, _ in carrier]

        class All(Pairs):
            def get(self, carrier, key):
                return [value for name, value in carrier if name == key]

        class Mute(Pairs):
            def get(self, carrier, key):
                return None

        class Old(All):
            def keys(self, carrier):
                raise NotImplementedError

        propagator = terncommode.otel.Propagator(ID9, trusted=True)
        own, other = to_header(ID7), to_header(TAG)
        same, cased = [("terncommode", own), ("terncommode", other)], [("terncommode", own), ("x", "y"), ("TernCommode", other)]
        members = [("baggage", f"terncommode={own}"), ("Baggage", f"a=b,terncommode={other}")]
        for carrier, getter, context in [(same, All(), ID7 | TAG), (cased, All(), ID7 | TAG), (cased, Pairs(), ID7 | TAG), (same, Pairs(), ID7 | Context.lost()), (same, Old(), ID7 | TAG),
                                         (same[:1], Pairs(), ID7), (same[:1], Mute(), Context.lost()), ([], Pairs(), ID9), (members, Pairs(), ID7 | TAG), (members, All(), ID7 | TAG),
                                         (dict(cased), None, ID7 | TAG), (cased, None, ID7 | TAG)]:
            with self.subTest(carrier=carrier, getter=type(getter).__name__):
                self.assertEqual(terncommode.otel.get(propagator.extract(carrier, {}, getter)), context)


class FrozenContext(dict):
    """As opentelemetry.context.Context: nothing is set in it."""

    def __setitem__(self, key, value):
        raise ValueError


CURRENT = contextvars.ContextVar("current_context", default=FrozenContext())
BAGGAGE = "baggage-5f2"


def set_baggage(name, value, context=None):
    here = CURRENT.get() if context is None else context
    return FrozenContext({**here, BAGGAGE: {**here.get(BAGGAGE, {}), name: value}})


def remove_baggage(name, context=None):
    here = CURRENT.get() if context is None else context
    return FrozenContext({**here, BAGGAGE: {other: value for other, value in here.get(BAGGAGE, {}).items() if other != name}})


class W3C:
    """OpenTelemetry's propagator of baggage, as its package has it."""

    def extract(self, carrier, context=None, getter=None):
        context = CURRENT.get() if context is None else context
        for entry in carrier.get("baggage", "").split(","):
            name, sign, value = entry.partition("=")
            if sign:
                context = set_baggage(unquote_plus(name).strip(), unquote_plus(value.partition(";")[0]).strip(), context)
        return context

    def inject(self, carrier, context=None, setter=None):
        entries = (CURRENT.get() if context is None else context).get(BAGGAGE, {})
        if entries:
            carrier["baggage"] = ",".join(f"{name}={quote_plus(value)}" for name, value in entries.items())


class Beside(unittest.TestCase):
    """With OpenTelemetry's API."""

    def setUp(self):
        context, baggage, package = (types.ModuleType(name) for name in ("opentelemetry.context", "opentelemetry.baggage", "opentelemetry"))
        context.get_current = CURRENT.get
        baggage.get_all = lambda context=None: dict((CURRENT.get() if context is None else context).get(BAGGAGE, {}))
        baggage.set_baggage, baggage.remove_baggage = set_baggage, remove_baggage
        package.context, package.baggage = context, baggage
        modules = {"opentelemetry": package, "opentelemetry.context": context, "opentelemetry.baggage": baggage}
        self.kept = {name: sys.modules.get(name) for name in modules}
        sys.modules.update(modules)
        self.otel = importlib.reload(terncommode.otel)
        self.token = CURRENT.set(FrozenContext(other=1))

    def tearDown(self):
        CURRENT.reset(self.token)
        for name, module in self.kept.items():
            if module is None:
                del sys.modules[name]
            else:
                sys.modules[name] = module
        importlib.reload(terncommode.otel)

    def attached(self, context, work):
        """Runs something where this context of OpenTelemetry is the current one."""
        token = CURRENT.set(context)
        try:
            return work()
        finally:
            CURRENT.reset(token)

    def sent(self, context=None, **settings):
        carrier = {}
        self.otel.Propagator(Context(), trusted=True, **settings).inject(carrier, context)
        return extract(carrier, Context())

    def test_its_current_context_counts(self):
        put = self.otel.put(ID7)
        self.assertIs(type(put), FrozenContext)
        self.assertEqual((put["other"], self.otel.get(put), "other" in CURRENT.get()), (1, ID7, True))
        with begin(TAG):
            self.assertEqual((self.otel.get(), self.sent()), (TAG, TAG))
            # What is put inside of a request is a branch, and is what is sent: so a boundary holds.
            put = self.otel.put(ID7)
            self.assertEqual(self.attached(put, lambda: (self.otel.get(), self.sent(), current())), (ID7, ID7, TAG))
            self.assertEqual(self.sent(put), ID7)
            with branch() as inner:
                inner.add(ID9)
                self.assertEqual(self.sent(), TAG | ID9)
        self.assertEqual(self.sent(), Context.lost())
        self.assertEqual(self.sent(self.otel.Propagator(Context(), trusted=True).extract({"terncommode": to_header(ID7)})), ID7)

    def test_what_is_extracted_is_the_request(self):
        found = self.otel.Propagator(Context(), trusted=True).extract({"terncommode": to_header(ID7)})

        def work():
            self.assertEqual(current(), ID7)
            self.assertTrue(add(TAG))
            with branch() as inner:
                inner.add(ID9)
                self.assertEqual(self.sent(), ID7 | TAG | ID9)
            return self.sent()
        self.assertEqual(self.attached(found, work), ID7 | TAG)

    def test_a_middleware_and_a_propagator_have_one_request(self):
        """In either order: what the handler says goes out with calls and back with the reply, and the member that came is there."""
        propagator = self.otel.Propagator(Context.lost(), trusted=True)
        came = {"terncommode": to_header(ID7), "baggage": f"terncommode={to_header(TAG)}"}

        def handler(environ, start_response):
            self.assertEqual(current(), ID7 | TAG)
            add(ID9)
            self.assertEqual(self.sent(), ID7 | TAG | ID9)
            self.assertEqual(contextvars.Context().run(lambda: current()), Context.lost())
            start_response("200 OK", [])
            return []

        def instrumented(app):
            return lambda environ, start_response: self.attached(propagator.extract(came), lambda: app(environ, start_response))

        def within(app):
            return wsgi.Middleware(app, None, Context.lost(), trusted=True)

        for app in (within(instrumented(handler)), instrumented(within(handler))):
            said = []
            list(app({"HTTP_TERNCOMMODE": came["terncommode"]}, lambda status, headers: said.append(extract(headers, Context()))))
            self.assertEqual(said, [ID7 | TAG | ID9])

    def test_a_middleware_that_does_not_trust_what_the_propagator_has_read(self):
        found = self.otel.Propagator(Context.lost(), trusted=True).extract({"terncommode": to_header(ID7)})
        edge = wsgi.Middleware(lambda environ, start_response: [], None, Context())
        with self.assertRaisesRegex(RuntimeError, "say the same in both"):
            self.attached(found, lambda: edge({}, None))
        at_edge = self.otel.Propagator(Context()).extract({"terncommode": to_header(ID7)})
        self.attached(at_edge, lambda: edge({}, None))

    def test_other_messages_are_requests_of_their_own(self):
        propagator = self.otel.Propagator(Context(), trusted=True)
        with begin(TAG) as here:
            found = propagator.extract({"terncommode": to_header(ID7)})
            self.assertEqual((self.otel.get(found), here.context), (ID7, TAG))

    def test_its_own_baggage_has_no_member_of_ours(self):
        own = to_header(ID7)
        came = {"baggage": f"a=b,terncommode={own},%74erncommode-bin=1"}
        for propagator in (self.otel.Propagator(Context.lost(), trusted=True), self.otel.Propagator(Context())):
            found = propagator.extract(came, W3C().extract(came))
            self.assertEqual(found[BAGGAGE], {"a": "b"})
            # A boundary: what goes on is what was kept, and nothing beside it says more.
            kept = self.otel.put(Context(), found)
            carrier = {}
            W3C().inject(carrier, kept)
            propagator.inject(carrier, kept)
            self.assertEqual(carrier, {"baggage": "a=b", "terncommode": ".AAAAAA"})

    def test_the_wrong_order_is_refused(self):
        """Before the propagator of baggage, what is written would be undone by the member that came."""
        came = {"baggage": f"a=b,terncommode={to_header(ID7)}"}
        for settings in ({}, {"member": True}, {"member": True, "header": False}):
            propagator = self.otel.Propagator(Context.lost(), trusted=True, **settings)
            found = W3C().extract(came, propagator.extract(came))
            with self.assertRaisesRegex(RuntimeError, "stands before that of baggage"):
                propagator.inject({}, found)
            right = {}
            W3C().inject(right, found)
            propagator.inject(right, found)
            self.assertEqual(terncommode.otel.get(propagator.extract(right, {})), ID7)
            self.assertEqual(right["baggage"].count("terncommode"), int("member" in settings))


if __name__ == "__main__":
    unittest.main()
