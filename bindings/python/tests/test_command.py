"""The command `terncommode`: what headers and lines of logs carry, at a terminal."""
import contextlib
import io
import json
import os
import random
import subprocess
import sys
import tempfile
import unittest

from terncommode import Bag, Context, to_header
from terncommode.__main__ import main
from terncommode._atoms import atoms_of

TABLE = (
    "baggage table 1\n0 0 id scalar fixed32\n0 1 tags set string\n0 2 hops counter\n0 3 debug taint\n0 4 load map string scalar uint32\n"
    "0 5 sub bag\n1 0 ok scalar bool\n1 1 at taint\n"
)
BAG = Bag(TABLE)


def ran(*arguments, data=b""):
    """The status of the command, and what it writes."""
    out, said = io.StringIO(), io.StringIO()
    stdin, sys.stdin = sys.stdin, io.TextIOWrapper(io.BytesIO(data))
    try:
        with contextlib.redirect_stdout(out), contextlib.redirect_stderr(said):
            status = main(arguments)
    except SystemExit as ended:
        status = ended.code
    finally:
        sys.stdin = stdin
    return status, out.getvalue(), said.getvalue()


class Commands(unittest.TestCase):
    def setUp(self):
        folder = tempfile.TemporaryDirectory()
        self.addCleanup(folder.cleanup)
        self.table = os.path.join(folder.name, "table")
        with open(self.table, "w", encoding="ascii") as file:
            file.write(TABLE)
        self.context = BAG.update([], {"id": 7, "tags": {"a", "b"}, "sub.ok": True})
        self.header = to_header(self.context)

    def test_fields_are_shown_with_their_states(self):
        status, out, said = ran("show", "--table", self.table, to_header(self.context.cut(14)))
        self.assertEqual((status, said), (0, ""))
        fields = [line.split(None, 2) for line in out.splitlines()[1:]]
        self.assertEqual(fields[:3], [["id", "exact", "7"], ["tags", "partial", "{}"], ["hops", "partial", "0{}"]])
        self.assertIn("something may have been cut off", out)

    def test_atoms_are_shown_without_a_table(self):
        status, out, _ = ran("show", self.header)
        self.assertEqual(status, 0)
        self.assertEqual(
            out.splitlines(),
            [f"{len(self.context)} bytes, 8 atoms, nothing cut off", "field 0", "  datum 00000007", "field 1", '  datum 61 "a"', '  datum 62 "b"', "field 5"]
            + ["  field 0", "    datum 01"],
        )

    def test_hexadecimal_digits_are_a_context(self):
        self.assertEqual(ran("show", bytes(self.context).hex()), ran("show", self.header))
        status, _, said = ran("show", "02f80003")
        self.assertEqual(status, 1)
        self.assertIn("CutBody at byte 3", said)

    def test_lines_of_a_log_are_searched(self):
        log = f'GET / api.server terncommode="{self.header}" 200\nnothing\n\xff\xfe {self.header}\n{self.header}, {self.header}\n'.encode("latin-1")
        status, out, said = ran("show", "--json", "-", data=log)
        found = [json.loads(line) for line in out.splitlines()]
        self.assertEqual([one["where"] for one in found], ["line 1", "line 3", "line 4"])
        self.assertEqual({one["header"] for one in found}, {self.header})
        self.assertEqual((status, said), (1, "terncommode: line 2: no context stands there\n"))

    def test_what_is_damaged_is_told_and_never_shown_as_a_context(self):
        for damaged in (self.header[:-1], self.header[1:], self.header.replace(".", "x."), f"{self.header},", "", "x"):
            for command in ("show", "size", "join"):
                status, out, said = ran(command, damaged)
                self.assertEqual((status, out), (1, ""), damaged)
                self.assertTrue(said.startswith("terncommode: "), said)

    def test_json_has_fields_and_whether_they_are_exact(self):
        _, out, _ = ran("show", "--json", "--table", self.table, to_header(Context.lost() | self.context))
        said = json.loads(out)
        self.assertEqual(said["fields"]["tags"], {"text": '{"a","b"}', "exact": False})
        self.assertTrue(said["cut"])

    def test_sizes_add_up(self):
        status, out, _ = ran("size", "--table", self.table, self.header, to_header(BAG.update([], "debug on\n")))
        rows = [line.split() for line in out.splitlines()]
        self.assertEqual(status, 0)
        self.assertEqual({row[3]: int(row[0]) for row in rows[:-1]}, {"id": 9, "tags": 9, "sub.ok": 9, "debug": 5})
        self.assertEqual(rows[-1], ["32", "bytes", "in", "2", "contexts"])

    def test_a_difference_is_told_by_field(self):
        other = to_header(BAG.update([self.context], {"tags": {"c"}}))
        status, out, _ = ran("diff", "--table", self.table, self.header, other)
        self.assertEqual((status, out), (1, '- tags exact {"a","b"}\n+ tags exact {"a","b","c"}\n'))
        self.assertEqual(ran("diff", "--table", self.table, other, other), (0, "", ""))
        status, out, _ = ran("diff", self.header, other)
        self.assertEqual((status, out), (1, '+ 1 datum 63 "c"\n'))

    def test_what_the_table_has_not_is_told(self):
        wider = BAG.update([self.context], {"sub.at": True})
        narrow = os.path.join(os.path.dirname(self.table), "narrow")
        with open(narrow, "w", encoding="ascii") as file:
            file.write(BAG.only("id").table)
        _, out, _ = ran("diff", "--table", narrow, self.header, to_header(wider))
        self.assertEqual(out, "+ 5.1 datum of no bytes\n")

    def test_join_and_cut_write_headers(self):
        other = BAG.update([], {"id": 5})
        self.assertEqual(ran("join", self.header, to_header(other))[1], f"{to_header(self.context | other)}\n")
        self.assertEqual(ran("cut", "9", self.header)[1], f"{to_header(self.context.cut(9))}\n")
        self.assertEqual(ran("cut", "--form", "2", "21", self.header)[1], f"{to_header(self.context.cut(21, 2))}\n")

    def test_a_value_may_begin_as_an_option(self):
        context = Context(bytes([0xF8, 0x01, 0xF9]) + b"k" * 247)
        self.assertTrue(to_header(context).startswith("-"))
        self.assertEqual(ran("join", to_header(context))[1], f"{to_header(context)}\n")

    def test_bad_command_lines_end_with_2(self):
        for words in ([], ["show"], ["cut", "0", self.header], ["cut", "x", self.header], ["show", "--table", "/nowhere", "x"], ["show", "--table", "/etc/hostname", "x"]):
            self.assertEqual(ran(*words)[0], 2, words)
        self.assertEqual(ran("diff", self.header, f"{self.header} and {self.header}")[0], 2)

    def test_atoms_have_the_size_of_the_context(self):
        draw = random.Random(5)
        for _ in range(200):
            context = BAG.update([], [("tags", {draw.randbytes(draw.choice((0, 1, 127, 128, 16_384))).hex() for _ in range(3)}), ("load", {"k\0": draw.randrange(2**32)})])
            self.assertEqual(sum(atom.size for atom in atoms_of(context)), len(context))
            self.assertEqual(sum(atom.size for atom in atoms_of(context.cut(50))), len(context.cut(50)))

    def test_any_line_gets_an_answer(self):
        draw = random.Random(7)
        lines = b"".join(draw.randbytes(draw.randrange(60)) + draw.choice((b"\n", b".\n", self.header.encode())) for _ in range(300))
        status, _, said = ran("show", "--table", self.table, "-", data=lines)
        self.assertEqual(status, 1)
        self.assertNotIn("Traceback", said)

    def test_a_line_that_was_chosen_to_take_long_takes_one_pass(self):
        for unit in (" ", "\t", ",", " ,", "  ,  ", ". ", " .", "a", "-", ".", "a.", "ab  ", "a ", ".AAAAA ", ".AAAAAA , "):
            lines = "".join(f"{start}{unit * (20_000 // len(unit))}{end}\n" for start in ("", ".AAAAAA", "ab") for end in ("", "!", " ."))
            command = [sys.executable, "-m", "terncommode", "size", "-"]
            ran = subprocess.run(command, input=lines.encode(), stdout=subprocess.PIPE, stderr=subprocess.PIPE, check=False, timeout=30)
            self.assertIn(ran.returncode, (0, 1), unit)

    def test_a_reader_that_has_enough_ends_it(self):
        process = subprocess.Popen(
            [sys.executable, "-m", "terncommode", "show", "-"], stdin=subprocess.PIPE, stdout=subprocess.PIPE, stderr=subprocess.PIPE
        )
        process.stdout.close()
        _, said = process.communicate(f"{self.header}\n".encode() * 3000)
        self.assertEqual(said, b"")


if __name__ == "__main__":
    unittest.main()
