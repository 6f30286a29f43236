"""Contexts, bags and their refusals."""
import copy
import ctypes
import doctest
import json
import os
import pickle
import subprocess
import sys
import threading
import unittest

import terncommode
from terncommode import Bag, BadTable, BadWrite, Context, Error, Fault, IllTyped, NoField, TooLong, printable
from terncommode import _library

TABLE = "baggage table 1\n0 0 id scalar fixed32\n0 1 tags set string\n0 2 hops counter\n0 3 debug taint\n0 4 load map string scalar uint32\n"
ID7, ID9 = bytes.fromhex("02f800050000000007"), bytes.fromhex("02f800050000000009")


def made(digits):
    return Context(bytes.fromhex(digits))


class Contexts(unittest.TestCase):
    def test_a_join_is_the_merge(self):
        first, second = Context(ID7), Context(ID9)
        both = made("02f800050000000007050000000009")
        self.assertEqual(first | second, both)
        self.assertEqual(second | first, both)
        self.assertEqual(first | first, first)
        self.assertEqual(Context.join([first, second, first]), both)
        self.assertEqual(Context.join(iter([first])), first)
        self.assertEqual(Context.join([]), Context())
        self.assertEqual(Context() | first, first)
        self.assertNotEqual(Context.lost() | first, first)

    def test_a_context_is_a_value(self):
        first, again = Context(ID7), Context(bytearray(ID7))
        self.assertEqual(hash(first), hash(again))
        self.assertEqual({first: 1}[again], 1)
        self.assertEqual((len(first), bytes(first), len(Context()), bool(Context())), (9, ID7, 0, False))
        self.assertNotEqual(first, ID7)
        self.assertEqual([copy.copy(first), copy.deepcopy(first), pickle.loads(pickle.dumps(first)), Context(memoryview(ID7))], [first] * 4)
        self.assertEqual([repr(first), repr(Context()), repr(Context.lost())], ["<Context 9 bytes, check Ktg3xw>", "<Context 0 bytes, check AAAAAA>", "<Context lost>"])
        secret = Bag(TABLE).update([], {"tags": {"secret"}})
        self.assertNotIn(b"secret".hex(), repr(secret))
        with self.assertRaises(AttributeError):
            first.data = b""
        for wrong in ("", 5, None, [1]):
            with self.assertRaises(TypeError):
                Context(wrong)
        with self.assertRaises(TypeError):
            first | ID9
        with self.assertRaises(TypeError):
            Context.join([ID7])

    def test_it_goes_through_json_and_pickle(self):
        first = Context(ID7)
        kept = json.loads(json.dumps({"baggage": first.to_json()}))
        self.assertEqual((kept, Context.from_json(kept["baggage"])), ({"baggage": "AvgABQAAAAAH.Ktg3xw"}, first))
        self.assertEqual(Context.from_json(Context().to_json()), Context())
        for wrong in (None, "", {}, [], 5, b"AvgABQAAAAAH.Ktg3xw", "AvgABQAAAAAH.Ktg3xx", "AvgABQAAAAAH.Ktg3xw,", "\u20ac", "gA.3sSUxA"):
            self.assertEqual(Context.from_json(wrong), Context.lost(), wrong)
        with self.assertRaises(TypeError):
            json.dumps(first)
        for protocol in range(pickle.HIGHEST_PROTOCOL + 1):
            self.assertEqual(pickle.loads(pickle.dumps(first, protocol)), first)
        self.assertEqual(first.__reduce__()[1][0][:4].hex(), "ffffff02")

    def test_both_forms_are_one_context(self):
        two = bytes.fromhex("ffffff02000000000000000902f800050000000007")
        self.assertEqual(Context(two), Context(ID7))
        self.assertEqual(bytes(Context(two)), ID7)
        self.assertEqual(Context(ID7).to_bytes(2), two)
        self.assertEqual(Context().to_bytes(2), two[:4] + bytes(8))
        for form, error in [(0, ValueError), (3, ValueError), (2**32 + 1, ValueError), (10**5000, ValueError), ("1", TypeError), (None, TypeError),
                            (1.0, TypeError), (True, TypeError)]:
            for call in (lambda form: Context(ID7).to_bytes(form), lambda form: Context(ID7).cut(5, form), lambda form: Bag(TABLE).report(Context(), form),
                         lambda form: Bag(TABLE).update([], form=form), lambda form: Bag(TABLE).keep([], form=form)):
                with self.assertRaisesRegex(error, "^a form is "):
                    call(form)

    def test_an_atom_that_is_too_long_for_form_one(self):
        bag = Bag("baggage table 1\n0 0 id scalar fixed32\n0 1 blob set bytes\n")
        long = b"x" * 70_000
        with self.assertRaises(BadWrite) as caught:
            bag.update([], {"id": 7, "blob": {b"", b"a", long}})
        self.assertEqual(caught.exception.line, 2)
        context = bag.update([], {"id": 7, "blob": {long}}, form=2)
        self.assertTrue(bytes(context).startswith(b"\xff\xff\xff\x02"))
        self.assertEqual(bag.read(context, "blob").value, {long})
        self.assertEqual(bytes(context.cut(69_000)), ID7 + bytes.fromhex("02f80100"))
        self.assertEqual(context.cut(30, 2).to_bytes(2)[12:], ID7 + bytes.fromhex("02f80100"))

    def test_a_cut_says_what_it_took(self):
        context = Context(ID7) | made("02f801020061")
        self.assertEqual(context.cut(15), context)
        self.assertEqual(context.cut(14), Context(ID7) | made("02f80100"))
        self.assertEqual([context.cut(budget) for budget in (1, 0, -5)], [Context.lost()] * 3)
        self.assertEqual([context.cut(budget, 2) for budget in (13, 12, 0)], [Context.lost()] * 3)
        self.assertEqual([context.cut(budget) for budget in (2**64 - 1, 2**64, 2**70)], [context] * 3)
        self.assertEqual(Context().cut(0), Context())
        for budget, name in [(1.5, "float"), (5.0, "float"), ("3", "str"), (True, "bool"), (b"", "bytes")]:
            for call in (context.cut, lambda budget: Bag(TABLE).update([context], (), budget), lambda budget: Bag(TABLE).keep([context], budget)):
                with self.assertRaisesRegex(TypeError, f"^a budget is an int, not {name}$"):
                    call(budget)
        with self.assertRaisesRegex(TypeError, "^a budget is an int, not NoneType$"):
            context.cut(None)
        self.assertEqual(Bag(TABLE).update([context], (), None), context)
        self.assertEqual(context.cut(26, 2).to_bytes(2)[12:], bytes.fromhex("02f80005000000000702f80100"))
        self.assertEqual(context.cut(24, 2).to_bytes(2)[12:], bytes.fromhex("02f80005000000000700"))

    def test_bytes_that_are_no_context(self):
        for digits, fault in [("80", (0, 0, "CutLength")), ("02f8000205", (0, 3, "CutBody")), ("03f80000020000", (0, 0, "BadIndex")), ("0102", (0, 0, "BadPrefix")),
                              ("02f00000", (0, 0, "LevelJump")), ("02f80102f800", (0, 3, "OutOfOrder")), ("8100", (0, 0, "LongForm")),
                              ("ffffff02", (0, 4, "CutLength")), ("ffffff0200000000000000010000", (0, 4, "BadCount")), ("ffffff", (0, 0, "AtomTooLong"))]:
            with self.subTest(digits=digits):
                with self.assertRaises(Fault) as caught:
                    made(digits)
                self.assertEqual((caught.exception.input, caught.exception.offset, caught.exception.code), fault)
        self.assertEqual(str(Fault(1, 6, "CutBody")), "context 1: CutBody at byte 6")
        self.assertIsInstance(Fault(0, 0, ""), (Error, ValueError))


class Bags(unittest.TestCase):
    bag = Bag(TABLE)

    def test_updates_are_the_steps_of_a_service(self):
        both = made("02f800050000000007050000000009")
        hops = self.bag.only("hops")
        self.assertEqual(self.bag.update([both]), Context(ID7))
        self.assertEqual(self.bag.update([]), Context())
        self.assertEqual(bytes(self.bag.update([both], {"id": 5, "hops": {"w": 3}})).hex(), "02f80005000000000502f80202f177020003")
        self.assertEqual(bytes(self.bag.update([made("02f80202f177020003")], {"hops": {"w": 5}})).hex(), "02f80202f177020005")
        self.assertEqual(bytes(self.bag.update([both], [("tags", {"a"})], 13)).hex(), "02f80005000000000702f80100")
        doubled = both | made("02f80202f177020003020005")
        self.assertEqual(bytes(hops.update([doubled])).hex(), "02f80005000000000705000000000902f80202f177020005")
        self.assertEqual(self.bag.update([both], 'id 5\nhops "w":3\n'), self.bag.update([both], b'id 5\nhops "w":3\n'))
        self.assertEqual(self.bag.write(both, "id", 5), self.bag.update([both], {"id": 5}))
        self.assertEqual(self.bag.update([both], (), 0), Context.lost())

    def test_what_is_refused(self):
        ill = made("02f800020000050000000007")
        for inputs, writes, error, numbers in [
                ([Context(ID7), ill], (), IllTyped, (1, 3)), ([], "id\n", BadWrite, (1,)), ([], "\n", NoField, (1,)), ([], "id 5\nidd 4\n", NoField, (2,)),
                ([], "id 5\nid 6", BadWrite, (2,)), ([], {"id": 5, "idd": 4}, NoField, (2,)), ([], [("id", 5), ("id", -6)], BadWrite, (2,))]:
            with self.subTest(writes=writes):
                with self.assertRaises(error) as caught:
                    self.bag.update(inputs, writes)
                self.assertEqual(caught.exception.args[:len(numbers)], numbers)
        self.assertEqual(self.bag.only("hops").update([ill]), ill)
        for path in ("idd", "load.eur", "", "id "):
            for call in (self.bag.read, self.bag.text, lambda context, path: self.bag.only(path), lambda context, path: self.bag.write(context, path, 1)):
                with self.assertRaises(NoField) as caught:
                    call(Context(), path)
                self.assertEqual(caught.exception.path, path)
        with self.assertRaises(IllTyped):
            self.bag.read(ill, "tags")
        self.assertEqual(self.bag.only("tags").read(ill, "tags").value, frozenset())
        with self.assertRaises(TypeError):
            self.bag.update(Context(ID7))

    def test_what_is_no_context(self):
        for wrong in (None, ID7, 5, "id"):
            for call in (lambda wrong: self.bag.update([wrong]), lambda wrong: self.bag.keep([wrong]), lambda wrong: self.bag.read(wrong, "id"),
                         lambda wrong: self.bag.text(wrong, "id"), self.bag.read_all, self.bag.report, terncommode.begin, terncommode.to_header, terncommode.to_binary):
                with self.assertRaisesRegex(TypeError, f"^a Context is wanted, not {type(wrong).__name__}$"):
                    call(wrong)

    def test_a_refused_write_says_its_field(self):
        for writes, error, path, said in [
                ("id 5\nidd 4\n", NoField, "idd", "write 2: no field 'idd'"), ("\n", NoField, "", "write 1: no field ''"),
                (b"\xff 4\n", NoField, "\\xff", r"write 1: no field '\\xff'"), ({"id": 5, "idd": 4}, NoField, "idd", "write 2: no field 'idd'"),
                ("id 5\nid x\n", BadWrite, "id", "write 2: id: no write to scalar fixed32: 'x'"),
                ("id\n", BadWrite, "id", "write 1: id: no blank and no value after the path"),
                ("id 5", BadWrite, "id", "write 1: id: no line feed ends the line"), ("id 5\nid 6", BadWrite, "id", "write 2: id: no line feed ends the line"),
                ("load x\u009b\u202e\n", BadWrite, "load", r"write 1: load: no write to map string scalar uint32: 'x\x9b\u202e'"),
                ("tags " + "x" * 65_535 + "\n", BadWrite, "tags", "write 1: tags: no write to set string, or longer than 65,534 bytes"),
                ({"id": "x"}, BadWrite, "id", "write 1: id: not an int from 0 to 4294967295: 'x'"),
                ({"id": 5, "tags": {"a", "b" * 65_535}}, BadWrite, "tags", "write 2: tags: longer than 65,534 bytes"),
                ([("hops", {"a" * 65_535: 1})], BadWrite, "hops", "write 1: hops: longer than 65,534 bytes"),
                ({"load": {"a" * 65_535: 1}}, BadWrite, "load", "write 1: load: longer than 65,534 bytes")]:
            with self.subTest(said=said):
                with self.assertRaises(error) as caught:
                    self.bag.update([], writes)
                self.assertEqual((str(caught.exception), getattr(caught.exception, "path", None)), (said, path))
        with self.assertRaises(BadWrite) as caught:
            self.bag.update([], {"tags": {"a" * 1_048_576}}, form=2)
        self.assertEqual(str(caught.exception), "write 1: tags: longer than 1,048,575 bytes")
        self.assertTrue(self.bag.update([], {"tags": {"a" * 65_534}, "hops": {"a" * 65_534: 1}, "load": {"a" * 65_534: 1}}))
        self.assertLess(len(str(NoField(1, "x" * 10_000))), 120)

    def test_lines_that_are_no_utf8(self):
        for writes, error, line in [('tags "\ud800"\n', BadWrite, 1), ('id 5\ntags "\ud83d\ude00"\n', BadWrite, 2), ('id x\ntags "\ud800"\n', BadWrite, 1),
                                    ("\ud800 5\n", NoField, 1), ("tags \udcff\n", BadWrite, 1), (b'tags "\xff"\n', BadWrite, 1)]:
            with self.subTest(writes=writes):
                with self.assertRaises(error) as caught:
                    self.bag.update([], writes)
                self.assertEqual(caught.exception.line, line)

    def test_lines_of_any_bytes(self):
        context = self.bag.update([], b"id 5\n")
        self.assertEqual([self.bag.update([], kind(b"id 5\n")) for kind in (bytearray, memoryview)], [context] * 2)
        self.assertEqual(self.bag.update([], [["id", 5]]), context)
        for writes, said in [(["id 5\n"], "'id 5"), ([("id",)], r"\('id',\)"), ([("id", 5, 6)], r"\('id', 5, 6\)"), ([5], "5"), (["x" * 10_000], "'x")]:
            with self.assertRaisesRegex(TypeError, f"^a write is a pair of a name path and a value, not {said}") as caught:
                self.bag.update([], writes)
            self.assertLess(len(str(caught.exception)), 150)
        for writes in (5, None):
            with self.assertRaises(TypeError):
                self.bag.update([], writes)

    def test_tables(self):
        for text, line, code in [("", 1, "Head"), ("baggage table 2\n", 1, "Head"), (TABLE[:-1], 6, "Form"), (TABLE + "0 4 x taint\n", 7, "Order"),
                                 (TABLE + "0 5 id taint\n", 7, "DuplicateField"), (TABLE + "1 5 x taint\n", 7, "Depth"), (TABLE + "0 5 \u00e9 taint\n", 7, "Form"),
                                 (TABLE + "0 5 \ud800 taint\n", 7, "Form")]:
            with self.subTest(text=text):
                with self.assertRaises(BadTable) as caught:
                    Bag(text)
                self.assertEqual((caught.exception.line, caught.exception.code), (line, code))
        with self.assertRaises(TypeError):
            Bag(TABLE.encode())
        self.assertEqual(self.bag.slots, ("id", "tags", "hops", "debug", "load"))
        self.assertEqual(self.bag.table, TABLE)
        self.assertEqual((self.bag, hash(self.bag)), (Bag(TABLE), hash(Bag(TABLE))))
        self.assertEqual(pickle.loads(pickle.dumps(self.bag)), self.bag)
        self.assertNotEqual(self.bag, self.bag.only("id"))

    def test_excerpts(self):
        lines = ["0 0 a bag", "1 0 x taint", "1 1 e bag", "1 2 m map string bag", "2 0 y taint", "2 1 b bag", "3 0 z counter", "1 3 w counter", "0 1 q taint"]
        bag = Bag("\n".join(["baggage table 1", *lines, ""]))
        self.assertEqual(bag.slots, ("a.x", "a.m", "a.w", "q"))
        for paths, kept in [((), []), (("a",), [0, 1, 2, 3, 4, 5, 6, 7]), (("a.e",), [0, 2]), (("a.m",), [0, 3, 4, 5, 6]), (("q", "a.w"), [0, 7, 8]), (("a.x", "a.x", "a"), range(8))]:
            with self.subTest(paths=paths):
                self.assertEqual(bag.only(*paths).table.split("\n")[1:-1], [lines[line] for line in kept])
        for path in ("a.m.y", "m", "a.", ".a", "a.m.b", "A"):
            with self.assertRaises(NoField):
                bag.only(path)

    def test_what_leaves(self):
        context = made("02f80005000000000702f80102006102f80202f17702000502f803010002f80402f1780300812c")
        bag = self.bag.only("id", "debug")
        left = bag.keep([context])
        self.assertEqual([(field.value, field.exact) for field in self.bag.read_all(left).values()],
                         [(7, True), (frozenset(), False), ({}, False), (True, False), ({}, False)])
        unsaid = bag.keep([context], cut=False)
        self.assertEqual(bytes(unsaid).hex(), "02f80005000000000702f8030100")
        self.assertEqual(bag.keep([context], 10), bag.keep([context]).cut(10))

    def test_texts_have_a_limit(self):
        bag = Bag("baggage table 1\n0 0 by map string bag\n" + "".join(f"1 {number} field{number} counter\n" for number in range(100)))
        context = bag.update([], {"by": {f"{number:03}": {"field0": {"w": 1}} for number in range(100)}})
        self.assertLess(len(context), 2_000)
        calls = [lambda limit: bag.report(context, limit=limit), lambda limit: bag.read(context, "by", limit), lambda limit: bag.text(context, "by", limit),
                 lambda limit: bag.read_all(context, limit)]
        for call in calls:
            with self.assertRaises(TooLong) as caught:
                call(50_000)
            self.assertEqual((caught.exception.limit, caught.exception.length > 50_000), (50_000, True))
            self.assertIn("longer than its limit of 50,000", str(caught.exception))
            self.assertTrue(call(10_000_000))
            for wrong in (1.5, None, True, "1"):
                with self.assertRaisesRegex(TypeError, "^a limit is an int, not "):
                    call(wrong)
        length = len(bag.report(context, limit=10_000_000))
        self.assertEqual(len(bag.report(context, limit=length)), length)
        with self.assertRaises(TooLong):
            bag.report(context, limit=length - 1)
        self.assertEqual(terncommode.REPORT_LIMIT, 1_048_576)
        small = Bag("baggage table 1\n0 0 id scalar string\n")
        with self.assertRaises(TooLong):
            small.report(small.update([], {"id": "\1" * 300_000}, form=2))

    def test_texts_for_people(self):
        said = "a\x9b31m\u202eb\u2028\x85\x00\x7f\u2066\u00e9"
        self.assertEqual(printable(said), r"a\x9b31m\u202eb\u2028\x85\x00\x7f\u2066" + "\u00e9")
        self.assertEqual(str(BadWrite(1, "no " + said, "id")), "write 1: id: no " + printable(said))
        field = repr(terncommode.Field(said, True))
        self.assertFalse(set(field) & set("\x9b\u202e\u2028\x85\x00\x7f\u2066"))

    def test_threads(self):
        contexts = [self.bag.update([], {"tags": {f"t{number}"}}) for number in range(8)]
        found = []

        def work():
            merged = Context()
            for _ in range(50):
                for context in contexts:
                    merged = self.bag.update([merged, context])
            found.append(merged)

        threads = [threading.Thread(target=work) for _ in range(8)]
        for thread in threads:
            thread.start()
        for thread in threads:
            thread.join()
        self.assertEqual(found, [Context.join(contexts)] * 8)


def load_tests(loader, tests, pattern):
    """The examples of the package and of its page are tests, too."""
    tests.addTests(doctest.DocTestSuite(terncommode))
    tests.addTests(doctest.DocFileSuite("../README.md", globs={"TABLE": TABLE}))
    return tests


class Library(unittest.TestCase):
    def test_no_input_is_a_null_pointer(self):
        for inputs in ([], [b""], [b"", b""]):
            spans, count = _library._spans(inputs)
            self.assertEqual(count, len(inputs))
            self.assertTrue(ctypes.cast(spans, ctypes.c_void_p).value)
            for span in spans[:count]:
                self.assertTrue(ctypes.cast(ctypes.c_char_p(span.bytes), ctypes.c_void_p).value)

    def test_a_library_that_is_not_there_or_another_one(self):
        for name, said in [("/nowhere/libbaggage.so.2", "TERNCOMMODE_LIBRARY"), ("libc.so.6", "isn't the library")]:
            ran = subprocess.run([sys.executable, "-c", "import terncommode"], env=dict(os.environ, TERNCOMMODE_LIBRARY=name), capture_output=True, text=True)
            self.assertEqual(ran.returncode, 1)
            self.assertIn("ImportError", ran.stderr)
            self.assertIn(said, ran.stderr)

    def test_a_status_that_nobody_knows(self):
        for status, error in [(3, MemoryError), (4, ValueError), (5, Error), (99, Error)]:
            with self.assertRaises(error):
                _library.refuse(_library.Answer(status=status))


if __name__ == "__main__":
    unittest.main()
