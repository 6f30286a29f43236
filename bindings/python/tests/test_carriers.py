"""Contexts in headers and in metadata, and what strangers may send."""
import base64
import email.message
import random
import time
import unittest
import unittest.mock
import wsgiref.headers

import terncommode
from terncommode import Bag, Context, extract, extract_reply, from_binary, from_header, ingress, inject, inject_reply, to_binary, to_header
from terncommode import _library

ID7, TAG = Context(bytes.fromhex("02f800050000000007")), Context(bytes.fromhex("02f801020061"))
LETTERS = "ABCDEFGHIJKLMNOPQRSTUVWXYZabcdefghijklmnopqrstuvwxyz0123456789-_"


class Multi:
    """A mapping with several values for a name, whose call for all of them has one of the names that are in use."""

    def __init__(self, name, values):
        setattr(self, name, values)


class Headers(unittest.TestCase):
    def test_a_context_comes_back(self):
        self.assertEqual(to_header(Context()), ".AAAAAA")
        self.assertEqual(to_header(ID7), "AvgABQAAAAAH.Ktg3xw")
        draw = random.Random(1)
        for _ in range(300):
            bag = terncommode.Bag("baggage table 1\n0 0 x set bytes\n")
            context = bag.update([], {"x": {bytes(draw.choices(range(256), k=draw.randrange(20))) for _ in range(draw.randrange(5))}})
            text = to_header(context)
            self.assertTrue(set(text) <= set(LETTERS + "."))
            self.assertEqual(from_header(text), context)
            self.assertEqual(from_header(text.encode()), context)

    def test_what_is_cut_is_lost(self):
        context = ID7 | TAG
        text = to_header(context)
        for end in range(len(text)):
            self.assertEqual(from_header(text[:end]), Context.lost(), text[:end])
            self.assertEqual(from_header(text[end + 1:]), Context.lost(), text[end + 1:])

    def test_what_is_changed_is_lost(self):
        for context in (ID7, TAG, ID7 | TAG, Context()):
            text = to_header(context)
            for place in range(len(text)):
                for letter in LETTERS + ".+/=\r\n\0\x80":
                    if letter != text[place]:
                        changed = text[:place] + letter + text[place + 1:]
                        self.assertEqual(from_header(changed), Context.lost(), changed)

    def test_what_is_no_value_is_lost(self):
        text = to_header(ID7)
        for value in ["", " ", ".", "AA", text + "=", text + "\r", text + "\n", "\n" + text, text[:4] + " " + text[4:], text.replace(".", ".."), "A" + text, text + "A",
                      to_header(ID7).replace("H.", "I."), "é" + text, "\u20ac" + text, text + "\0", "AAA.AAAAAA", "gA.3sSUxA", ".AAAAAB"]:
            with self.subTest(value=value):
                self.assertEqual(from_header(value), Context.lost())
        for call in (from_binary, from_header, terncommode.Bag("baggage table 1\n").receive):
            with self.assertRaises(TypeError):
                call(5)

    def test_several_values_are_merged(self):
        first, second = to_header(ID7), to_header(TAG)
        self.assertEqual(from_header(f"{first},{second}"), ID7 | TAG)
        self.assertEqual(from_header(f" {first} ,\t{second}\t"), ID7 | TAG)
        self.assertEqual(from_header(f"{first},{second[:-1]}"), ID7 | Context.lost())
        self.assertEqual(from_header(f"{first},"), ID7 | Context.lost())
        self.assertEqual(from_header(f"{first}, é"), ID7 | Context.lost())
        self.assertEqual(from_header(f"{first},{first}"), ID7)

    def test_many_letters(self):
        context = terncommode.Bag("baggage table 1\n0 0 x set bytes\n").update([], {"x": {bytes([k]) * 300 for k in range(200)}})
        self.assertGreater(len(to_header(context)), 65_536)
        self.assertEqual(from_header(to_header(context)), context)
        self.assertEqual(from_header(to_header(context)[:65_536]), Context.lost())
        self.assertLessEqual(len("terncommode=" + to_header(context.cut(terncommode.REQUEST_BUDGET))), 4_096)

    def test_headers_of_all_kinds(self):
        message = email.message.Message()
        message["TERNCOMMODE"] = "old"
        message["Terncommode"] = "old"
        for headers in [{}, {"Terncommode": "old", "x": "y"}, [], [("TernCommode", "old"), ("x", "y")], [(b"x", b"y"), (b"terncommode", b"old")], message,
                        wsgiref.headers.Headers([("Terncommode", "old"), ("x", "y")])]:
            with self.subTest(headers=type(headers)):
                self.assertEqual(extract({}, ID7), ID7)
                inject(headers, TAG)
                inject(headers, ID7)
                self.assertEqual(extract(headers, TAG), ID7)
                pairs = headers if isinstance(headers, list) else list(headers.items())
                self.assertEqual(len([name for name, _ in pairs if (name.decode() if isinstance(name, bytes) else name).lower() == "terncommode"]), 1)
                self.assertEqual(len({type(name) for name, _ in pairs}), 1)

    def test_all_values_of_a_name_are_read(self):
        first, second = to_header(ID7), to_header(TAG)
        both = ID7 | TAG
        message = email.message.Message()
        message["Terncommode"], message["terncommode"] = first, second
        for headers in [[("Terncommode", first), ("x", ""), ("TERNCOMMODE", second)], [(b"terncommode", first.encode()), (b"terncommode", second.encode())],
                        {"terncommode": [first, second]}, {"Terncommode": f"{first}, {second}"}, message, wsgiref.headers.Headers([("terncommode", first), ("terncommode", second)]),
                        *(Multi(name, lambda name: [first, second]) for name in ("get_all", "getall", "getlist", "get_list"))]:
            self.assertEqual(extract(headers, Context.lost()), both)
        for name in ("get_all", "getall", "getlist", "get_list"):
            for absent in ([], None):
                self.assertEqual(extract(Multi(name, lambda name: absent), ID7), ID7)

        def missing(name):
            raise KeyError(name)
        self.assertEqual(extract(Multi("getall", missing), ID7), ID7)
        self.assertEqual(extract([("terncommode", "")], ID7), Context.lost())
        for headers in ({}, [], {"x": "y"}):
            with self.assertRaises(TypeError):
                extract(headers)
        for headers in ({}, {"terncommode": first}):
            for absent in (None, b"", "lost"):
                with self.assertRaisesRegex(TypeError, "^absent is a Context, not "):
                    extract(headers, absent)

    def test_only_a_context_is_sent(self):
        for wrong in (5, b"garbage", bytes(ID7), to_header(ID7), None, [ID7], bytearray(b"")):
            with self.assertRaisesRegex(TypeError, "^a Context is wanted, not "):
                to_header(wrong)
            for headers in ({"terncommode": "old"}, [("terncommode", "old")], {}):
                before = type(headers)(headers)
                with self.assertRaisesRegex(TypeError, "^a Context is wanted, not "):
                    inject(headers, wrong)
                self.assertEqual(headers, before)
        for headers in (None, (), 5, b""):
            with self.assertRaisesRegex(TypeError, "^headers are a mapping or a list of pairs, not "):
                inject(headers, ID7)

    def test_the_budgets_fit(self):
        # What HTTP/2 counts of an entry of metadata are its name, its value and 32 bytes; gRPC refuses more than 8 KiB of them.
        value = base64.b64encode(bytes(terncommode.GRPC_BUDGET))
        self.assertLess(len(terncommode.GRPC_KEY) + len(value) + 32, 8_192)
        self.assertEqual((terncommode.REQUEST_BUDGET, terncommode.REPLY_BUDGET, terncommode.GRPC_BUDGET), (3_000, 2_000, 4_000))
        self.assertFalse(hasattr(terncommode, "HEADER_BUDGET"))


class Binary(unittest.TestCase):
    """Carriers of bytes."""

    def test_form_two_is_sent_and_no_beginning_of_it_is_a_context(self):
        bag = Bag("baggage table 1\n0 0 id scalar fixed32\n0 1 tags set string\n0 2 hops counter\n")
        context = bag.update([ID7], {"tags": {"a", "bc"}, "hops": {"w": 300}})
        for sent in (context, Context(), Context.lost(), ID7):
            data = to_binary(sent)
            self.assertTrue(data.startswith(_library.MARK))
            self.assertEqual(from_binary(data), sent)
            for end in range(len(data)):
                self.assertEqual(from_binary(data[:end]), Context.lost(), end)

    def test_what_is_read(self):
        self.assertEqual(from_binary(b""), Context.lost())
        self.assertEqual(from_binary(bytes(ID7)), ID7)
        self.assertEqual(from_binary(b"\x80"), Context.lost())
        self.assertEqual(from_binary(_library.MARK + b"\0"), Context.lost())


class Replies(unittest.TestCase):
    """A reply says which request it answers, and that it isn't to be kept."""

    def test_a_reply_is_of_one_request(self):
        sent, other = to_header(ID7), to_header(ID7 | TAG)
        for kind in (dict, list):
            headers = kind()
            inject_reply(headers, TAG, {"Terncommode": sent})
            self.assertEqual(extract_reply(headers, sent), TAG)
            self.assertEqual(extract_reply(headers, other), Context.lost())
            self.assertEqual(extract_reply(headers, None), Context.lost())
        inject_reply(headers, TAG, {})
        self.assertEqual(extract_reply(headers, sent), Context.lost())
        self.assertEqual([name for name, _ in headers], ["Cache-Control", "terncommode"])
        inject_reply(headers, TAG, [(b"terncommode", f" {sent}\t, {other}".encode()), (b"terncommode", other.encode())])
        self.assertEqual(extract_reply(headers, sent), TAG)
        for check in ("", "AAAAAA", "Ktg3xw,Ktg3xw", "Ktg3x"):
            self.assertEqual(extract_reply({"terncommode": sent, "Terncommode-For": check}, sent), Context.lost())
        self.assertEqual(extract_reply([("terncommode-for", "Ktg3xw"), ("terncommode-for", "Ktg3xw"), ("terncommode", sent)], sent), Context.lost())
        self.assertEqual(extract_reply({"Terncommode-For": "Ktg3xw"}, sent), Context.lost())
        self.assertEqual(extract_reply({"Terncommode-For": "", "Terncommode": sent}, "damaged"), Context.lost())
        for came in ("", "x", "x.y", "é.AAAAAA", ".AAAAAA\r\nx: y", "AAAAAA", "..AAAAAA"):
            headers = {}
            inject_reply(headers, TAG, {"terncommode": came})
            self.assertNotIn("terncommode-for", headers, came)

    def test_no_shared_cache_keeps_it(self):
        ours = 'no-cache="terncommode"'
        for before, after in [([], ours), (["max-age=60"], f"max-age=60, {ours}"), (["public", "max-age=60"], f"public, max-age=60, {ours}"), (["no-store"], f"no-store, {ours}"),
                              ([f"public, {ours}"], None), (['public, No-Cache = "Set-Cookie, Terncommode"'], None), (['no-cache="terncommode-for"'], f'no-cache="terncommode-for", {ours}'),
                              ([""], ours), (["x-no-cache=\"terncommode\""], f'x-no-cache="terncommode", {ours}')]:
            headers = [("Cache-Control", value) for value in before]
            inject_reply(headers, TAG, {})
            inject_reply(headers, TAG, {})
            found = [value for name, value in headers if name.lower() == "cache-control"]
            self.assertEqual(found, before if after is None else [after])
        headers = [(b"cache-control", b"private")]
        inject_reply(headers, TAG, {})
        self.assertEqual(dict(headers)[b"cache-control"], f"private, {ours}".encode())


class Costs(unittest.TestCase):
    """What a stranger can make this package do."""

    def test_equal_parts_are_read_once_and_all_in_one_call(self):
        text = to_header(ID7)
        with unittest.mock.patch.object(_library, "join", wraps=_library.join) as join:
            self.assertEqual(from_header(",".join([text, to_header(TAG)] * 50)), ID7 | TAG)
            self.assertEqual(join.call_count, 2)  # the merge, and that of the line above
            self.assertEqual([len(call[0][1]) for call in join.call_args_list], [2, 2])
            join.reset_mock()
            self.assertEqual(from_header("," * 1_000 + text), ID7 | Context.lost())
            self.assertEqual([len(call[0][1]) for call in join.call_args_list], [2, 2])

    def test_commas_cost_little(self):
        began = time.process_time()
        self.assertEqual(extract([("terncommode", "," * 1_000_000)], ID7), Context.lost())
        self.assertLess(time.process_time() - began, 1)

    def test_parts_that_are_no_contexts(self):
        bad = base64.urlsafe_b64encode(b"\x80").rstrip(b"=").decode() + ".3sSUxA"
        self.assertEqual(from_header(f"{bad},{to_header(ID7)}"), ID7 | Context.lost())
        self.assertEqual(from_header(f"{bad},{to_header(ID7)},.AAAAAA"), ID7 | Context.lost())
        self.assertEqual(from_header(bad), Context.lost())


class Ingress(unittest.TestCase):
    """What strangers may write."""
    bag = Bag("baggage table 1\n0 0 id scalar fixed32\n0 1 tags set string\n0 2 by map string counter\n0 3 debug taint\n")
    accept = bag.only("id", "tags", "by")

    def read(self, context):
        return {path: (field.value, field.exact) for path, field in self.bag.read_all(context).items()}

    def test_only_what_the_bag_names_comes_in(self):
        context = self.bag.update([], {"id": 5, "tags": {"a"}, "by": {"k": {"w": 2}}, "debug": True})
        found = ingress([to_header(context)], self.accept)
        self.assertEqual(self.read(found), {"id": (5, True), "tags": (frozenset({"a"}), True), "by": ({"k": {b"w": 2}}, True), "debug": (False, True)})
        junk = Context(bytes.fromhex("02f80005000000126704f16a6a6a"))
        self.assertEqual(bytes(ingress([to_header(junk)], self.accept)).hex(), "02f800050000001267")
        self.assertEqual(ingress([], self.accept), Context())
        self.assertEqual(ingress([".AAAAAA"], self.accept), Context())

    def test_what_is_not_whole_is_partial_or_dropped(self):
        whole, long = to_header(self.bag.update([], {"id": 5})), to_header(self.bag.update([], {"id": 5, "tags": {"x" * 1_025, "é" * 513, "ok"}}))
        ill = to_header(Context(bytes.fromhex("02f800020000")))
        other = [to_header(self.bag.update([], {"id": number})) for number in range(20)]
        for values, value in [([whole[:-1]], None), ([whole + ",x"], 5), ([whole, ""], 5), ([ill], None), ([long], 5), (other, 0), (["x" * 8_193], None), ([whole, b"x" * 8_192], None),
                              ([to_header(Context.lost())], None), ([to_header(self.bag.update([], {"id": 5, "tags": {"y"}}).cut(13))], 5)]:
            found = ingress(values, self.accept)
            self.assertEqual({exact for _, exact in self.read(found).values()}, {False}, values)
            self.assertEqual(self.read(found)["id"][0], value)
            self.assertEqual(ingress(values, self.accept, drop_partial=True), Context())
        self.assertEqual(self.read(ingress([long], self.accept))["tags"][0], {"ok"})
        self.assertTrue(self.read(ingress(other, self.accept, parts=20))["id"][1])
        self.assertTrue(self.read(ingress([long], self.accept, text=1_026))["tags"][1])
        many = to_header(self.bag.update([], {"id": 5, "tags": {f"{number:0100}" for number in range(40)}}))
        found = ingress([many], self.accept)
        self.assertLessEqual(len(found), terncommode.REQUEST_BUDGET)
        self.assertEqual((self.read(found)["id"], self.read(found)["tags"][1]), ((5, False), False))
        self.assertEqual(ingress([many], self.accept, drop_partial=True), Context())
        for wrong in (lambda: ingress([whole], self.accept, budget="x"), lambda: ingress([5], self.accept)):
            with self.assertRaises(TypeError):
                wrong()

    def test_hostile_headers(self):
        draw, partial, whole = random.Random(7), 0, 0
        for number in range(3_000):
            context = self.bag.update([], {"id": draw.randrange(2**32), "tags": {"x" * draw.choice([0, 1, 30, 1_500])}, "by": {"k": {bytes([number % 256]): number}}, "debug": True})
            values = [damaged(draw, to_header(context)) for _ in range(draw.choice([1, 1, 2, 20]))]
            found = ingress(values, self.accept)
            self.assertLessEqual(len(found), terncommode.REQUEST_BUDGET)
            read = self.read(found)
            self.assertEqual(read["debug"][0], False)
            self.assertTrue(all(len(tag) <= 1_024 for tag in read["tags"][0]))
            self.assertEqual(self.accept.update([], {path: read[path][0] for path in self.accept.slots if read[path][0] is not None}) | Context.lost(), found | Context.lost())
            exact = {exact for _, exact in read.values()}
            self.assertEqual(len(exact), 1)
            partial, whole = partial + (exact == {False}), whole + (exact == {True})
        self.assertGreater(min(partial, whole), 300)


def damaged(draw, text):
    """A header's value as a stranger may send it."""
    at = draw.randrange(len(text))
    junk = Context(bytes.fromhex("02f8000500000000070300ff6a6a"[:18])).cut(9)
    return draw.choice([text, text, text, text[:at], text[at:], text[:at] + draw.choice("A.,=é\0 ") + text[at:], "," * 200 + text, f"{text},{to_header(junk)}", text * 5, "",
                        to_header(Context(bytes.fromhex("02f800020000"))), to_header(Context.lost()), to_header(Context(bytes.fromhex("02f80005000000126704f16a6a6a")))])


if __name__ == "__main__":
    unittest.main()
