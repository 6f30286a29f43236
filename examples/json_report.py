#!/usr/bin/env python3
"""Reads the JSON of `baggage runjson` with a reader that was written apart, Python's, and compares it with the report of `baggage run`.

usage: examples/json_report.py [PROGRAM]     from the top of the repository; PROGRAM is ./baggage where none is named
"""

import json
import os
import subprocess
import sys
import tempfile

sys.dont_write_bytecode = True
sys.path.append(f"{os.path.dirname(os.path.dirname(os.path.realpath(__file__)))}/tools")
import usage  # noqa: E402

PROGRAM = usage.taken(__doc__)[0] or "./baggage"
CHECKOUT = ["examples/checkout.bdl", "Checkout"]

# A field of every shape and every scalar word, with a write to it.
FIELDS = [
    ("taint", "on"), ("bool", "true"), ("int32", "-5"), ("int64", "-9223372036854775808"), ("sint32", "7"), ("sint64", "-1"),
    ("uint32", "4294967295"), ("uint64", "18446744073709551615"), ("fixed32", "0"), ("fixed64", "9"), ("sfixed32", "-2"),
    ("sfixed64", "3"), ("string", '"\\x00\\"é"'), ("bytes", "0x00ff"), ("Pair", '("a\\x00",-1)'), ("set<Pair>", '("b",2)'),
    ("set<bytes>", "0x"), ("counter", '"w":3'), ("map<string, counter>", '"k":"w":1'), ("map<int32, set<string>>", '-3:"x"'),
    ("map<uint32, map<bool, taint>>", "1:true:on"),
]

# Strings with each control character, with what JSON escapes, and with text beyond ASCII.
TEXTS = ["".join(f"\\x{code:02x}" for code in range(32)), '\\"\\\\/', "\\x7f é ü € 𝄞", "</script>"]


def graph_of(texts):
    lines = ["service a all", "service n none", "start 0 a"]
    for text in texts:
        lines.append(f'set {len(lines) - 2} {len(lines) - 3} tags "{text}"')
    last = len(lines) - 3
    lines.append(f"forward {last + 1} {last} n")
    lines.append(f"trim {last + 2} {last + 1} 20")
    lines += [f"show {step}" for step in range(last + 3)]
    return "\n".join(lines) + "\n"


def output_of(command, definition, graph):
    words = [PROGRAM, command, *definition]
    return subprocess.run(words, input=graph.encode(), stdout=subprocess.PIPE, check=True).stdout.decode()


def report_of(steps):
    """The report with the data of these objects."""
    text = ""
    for step in steps:
        assert list(step) == ["bytes", "fields", "step"], step
        text += f"step {step['step']}\nbytes {step['bytes']}\n"
        for field in step["fields"]:
            assert list(field) == ["path", "state", "text"], field
            text += f"{field['path']} {field['state']} {field['text']}\n"
    return text


def definition_of_all():
    fields = " ".join(f"{shape} f{number} = {number};" for number, (shape, _) in enumerate(FIELDS))
    return f"struct Pair {{ string s; int32 n; }} bag Inner {{ bool ok = 0; }} bag All {{ {fields} Inner inner = 900; }}"


def graph_of_all():
    lines = ["service a all", "start 0 a"]
    for number, (_, write) in enumerate(FIELDS):
        lines.append(f"set {number + 1} {number} f{number} {write}")
    last = len(FIELDS) + 1
    lines += [f"set {last} {last - 1} inner.ok false", f"trim {last + 1} {last} 60", "show 0", f"show {last}", f"show {last + 1}"]
    return "\n".join(lines) + "\n"


def agrees(definition, graph):
    text = output_of("runjson", definition, graph)
    steps = json.loads(text)
    assert text == json.dumps(steps, separators=(",", ":"), ensure_ascii=False) + "\n", "not compact"
    assert report_of(steps) == output_of("run", definition, graph), "other data"


def main():
    with open("examples/checkout.graph", encoding="utf-8") as file:
        graphs = [file.read(), graph_of(TEXTS), "service a all\n"]
    for graph in graphs:
        agrees(CHECKOUT, graph)
    with tempfile.TemporaryDirectory() as folder:
        path = os.path.join(folder, "all.bdl")
        with open(path, "w", encoding="utf-8") as file:
            file.write(definition_of_all())
        agrees([path, "All"], graph_of_all())
    print(f"{len(graphs) + 1} reports agree")


main()
