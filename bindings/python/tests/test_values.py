"""Values and their texts, over random tables; what is compared comes from the second implementation (vectors/second.py)."""
import os
import random
import sys
import unittest

sys.path.insert(0, os.path.join(os.path.dirname(os.path.abspath(__file__)), "..", "..", "tests"))

from drawing import Draw, is_whole, second, table_of  # noqa: E402
from terncommode import Bag, BadWrite, Context, IllTyped, NoField  # noqa: E402

TABLES = int(os.environ.get("TABLES", "150"))


class Texts(unittest.TestCase):
    def test_values_and_texts_go_both_ways(self):
        draw, texts = Draw(random.Random(1)), 0
        for _ in range(TABLES):
            fields = draw.fields()
            bag = Bag(table_of(fields))
            for _ in range(10):
                for path, _, shape in second.slots_of(fields):
                    text = second.value_text(shape, draw.value(shape)).decode()
                    self.assertEqual(bag.text_of(path, bag.value_of(path, text)), text)
                    texts += 1
        self.assertGreater(texts, 10 * TABLES)

    def test_contexts_read_as_the_formats_say(self):
        draw, ill = Draw(random.Random(2)), 0
        for _ in range(TABLES):
            fields = draw.fields()
            bag = Bag(table_of(fields))
            for _ in range(6):
                atoms, form = draw.context(fields), draw.chance.choice([1, 2])
                data = second.write_list(form, atoms)
                place = second.first_ill_typed(fields, atoms)
                if place is not None:
                    with self.assertRaises(IllTyped) as caught:
                        bag.receive(data)
                    self.assertEqual((caught.exception.input, caught.exception.offset), (0, second.offset_of(form, atoms, place)))
                    ill += 1
                    continue
                block = b"".join(line + b"\n" for line in second.block_lines(fields, 1, atoms)).decode()
                context = Context(data)
                self.assertEqual(bag.report(context), block)
                found = bag.read_all(context)
                lines = [f"{path} {'exact' if field.exact else 'partial'} {bag.text_of(path, field.value)}" for path, field in found.items()]
                self.assertEqual(lines, block.split("\n")[1:-1])
                if not found:
                    continue
                path = draw.chance.choice(bag.slots)
                self.assertEqual(bag.read(context, path), found[path])
                self.assertEqual(bag.only(path).read(context, path), found[path])
        self.assertGreater(ill, 0)

    def test_values_are_written_as_they_were_read(self):
        draw, rebuilt = Draw(random.Random(3)), 0
        for _ in range(TABLES):
            fields = draw.fields()
            bag = Bag(table_of(fields))
            values = {path: draw.value(shape) for path, _, shape in second.slots_of(fields)}
            slots = {path: (at, shape) for path, at, shape in second.slots_of(fields)}
            atoms = second.merge([second.encoding(shape, at, values[path]) for path, (at, shape) in slots.items()])
            context = Context(second.write_list(1, atoms))
            writes = {path: field.value for path, field in bag.read_all(context).items()}
            if all(is_whole(shape, values[path]) for path, (_, shape) in slots.items()):
                self.assertEqual(bag.update([], writes), context)
                self.assertEqual(bag.update([], list(writes.items())), context)
                rebuilt += 1
            else:
                with self.assertRaises(BadWrite):
                    bag.update([], writes)
        self.assertGreater(rebuilt, TABLES // 10)

    def test_types_are_pythons_own(self):
        bag = Bag("baggage table 1\n0 0 flag scalar bool\n0 1 ids set uint32\n0 2 who scalar (string,bytes,sint64)\n0 3 hops counter\n"
                  "0 4 debug taint\n0 5 by map bool bag\n1 0 seen set (bool,bytes)\n1 1 last greatest string\n")
        context = bag.update([], {"flag": False, "ids": {7, 2**32 - 1}, "who": ("é\0", b"\0\xff", -5), "hops": {"w": 3, b"\xff": 2**64 - 1},
                                  "debug": True, "by": {True: {"seen": {(False, b"")}}}})
        found = {path: field.value for path, field in bag.read_all(context).items()}
        self.assertEqual(found, {"flag": False, "ids": frozenset({7, 2**32 - 1}), "who": ("é\0", b"\0\xff", -5), "hops": {b"w": 3, b"\xff": 2**64 - 1},
                                 "debug": True, "by": {True: {"seen": frozenset({(False, b"")}), "last": None}}})
        self.assertIs(type(found["flag"]), bool)
        self.assertIs(type(found["ids"]), frozenset)
        self.assertIs(type(found["who"]), tuple)
        self.assertEqual(bag.text_of("hops", found["hops"]), "18446744073709551618{0x77:3,0xff:18446744073709551615}")

    def test_what_a_field_cannot_hold_is_refused(self):
        bag = Bag("baggage table 1\n0 0 n scalar uint32\n0 1 s set string\n0 2 t taint\n0 3 c counter\n0 4 p scalar (bool,bytes)\n"
                  "0 5 m map string bag\n1 0 x taint\n0 6 b scalar bool\n")
        for path, value in [("n", -1), ("n", 2**32), ("n", "7"), ("n", True), ("n", 1.0), ("s", "ab"), ("s", {1}), ("s", {b"a"}), ("s", {"\ud800"}),
                            ("t", 1), ("t", None), ("c", {"w": -1}), ("c", {"w": 2**64}), ("c", {1: 1}), ("c", 3), ("c", {"w": True}), ("p", (True,)),
                            ("p", (True, "a")), ("p", [1, b""]), ("m", {"k": {"y": True}}), ("m", {"k": {}}), ("m", {"k": {"x": False}}), ("m", {1: {"x": True}}),
                            ("m", [("k", {"x": True})]), ("b", 0), ("b", "true")]:
            with self.subTest(path=path, value=value):
                with self.assertRaises(BadWrite) as caught:
                    bag.update([], [("t", True), (path, value)])
                self.assertEqual(caught.exception.line, 2)
        for path in ("t", "n"):
            with self.assertRaisesRegex(BadWrite, f"^write 1: {path}: not "):
                bag.update([], {path: "x"})
        for path, value in [("n", None), ("s", frozenset()), ("t", False), ("c", {}), ("m", {}), ("p", None), ("b", None)]:
            self.assertEqual(bag.update([], {path: value}), Context())

    def test_messages_are_short(self):
        bag = Bag("baggage table 1\n0 0 n scalar uint64\n0 1 s set string\n0 2 c counter\n0 3 p scalar (bool,bytes)\n0 4 m map string taint\n"
                  "0 5 b map string bag\n1 0 x taint\n")
        large = 10**5000

        class Strange:
            def __repr__(self):
                raise RuntimeError

        for path, value in [("n", large), ("n", "7" * 10_000), ("n", Strange()), ("s", {large}), ("s", large), ("s", {"\ud800" * 10_000}), ("c", large),
                            ("c", {"w": large}), ("c", {large: 1}), ("p", (large, large, large)), ("m", {"k" * 10_000: False}), ("b", {"k": {"y" * 10_000: True}}),
                            ("b", {"k": {large: True}})]:
            with self.subTest(path=path):
                with self.assertRaises(BadWrite) as caught:
                    bag.update([], {path: value})
                self.assertEqual(caught.exception.line, 1)
                self.assertLess(len(str(caught.exception)), 200)
                self.assertTrue(str(caught.exception).startswith(f"write 1: {path}: "))
                with self.assertRaises(BadWrite):
                    bag.lines_of(path, value)

    def test_what_is_no_text_of_a_value(self):
        bag = Bag("baggage table 1\n0 0 n scalar uint64\n0 1 s set string\n0 2 c counter\n0 3 p scalar (bool,bytes)\n0 4 m map string taint\n")
        for path in bag.slots:
            for text in ["x", "", "{", "-1x", "9" * 5000, '{"', "1{0x77:" + "9" * 5000 + "}", "(true,0x0)", "(true,0x,1)", '{"a":of}']:
                with self.assertRaisesRegex(ValueError, "^not the text of a value") as caught:
                    bag.value_of(path, text)
                self.assertLess(len(str(caught.exception)), 120)
            for text in (None, b"-", 5):
                with self.assertRaisesRegex(TypeError, "^the text of a value is a str, not "):
                    bag.value_of(path, text)
        with self.assertRaises(NoField):
            bag.value_of("nope", "-")
        many = {number.to_bytes(2, "big"): 2**64 - 1 for number in range(200)}
        self.assertEqual(bag.value_of("c", bag.text_of("c", many)), many)


if __name__ == "__main__":
    unittest.main()
