"""Contexts at a terminal: what a header or a log line carries.

A TEXT is a header's value, hexadecimal digits of a context's bytes, or any text that a header's value stands in, such as a line of a log.
`-` takes the lines of standard input, each as a TEXT. Without a table it says what can be said without one: the atoms, and from where
on something may have been cut off. The table is the text that `baggage table` prints.

The status is 0; 1 where a TEXT has no context in it, or one that can't be read, and where `diff` finds a difference; 2 where the command
line, the table, or standard input can't be read."""

from __future__ import annotations

import argparse
import io
import json
import os
import re
import sys
from collections import Counter
from typing import Any, Dict, Iterator, List, NamedTuple, NoReturn, Optional, Sequence, Tuple

from . import __version__
from ._atoms import Atom, Header, atoms_of, path_of
from ._bag import Bag
from ._context import Context, data_of_part
from ._errors import Error, IllTyped, printable, shown
from .carriers import from_header, to_header

_PART = r"[A-Za-z0-9_-]*\.[A-Za-z0-9_-]{6}"
_WHOLE = re.compile(_PART)
_INSIDE = re.compile(rf"(?<![A-Za-z0-9_.-]){_PART}(?![A-Za-z0-9_-])")
_DIGITS = re.compile(r"(?:[0-9A-Fa-f]{2}[ \t]*)+")


class _Refused(Exception):
    """What ends the command with status 2."""


def main(arguments: Optional[Sequence[str]] = None) -> int:
    """Runs the command, and gives its status."""
    # A value may begin as an option does.
    given = [f" {word}" if word.startswith("-") and _is_value(word) else word for word in (sys.argv[1:] if arguments is None else arguments)]
    words = _parser().parse_args(given)
    try:
        status: int = words.run(words)
        sys.stdout.flush()
        return status
    except _Refused as refused:
        print(f"terncommode: {refused}", file=sys.stderr)
        return 2
    except MemoryError:
        print("terncommode: there is no memory for what these texts say", file=sys.stderr)
        return 2
    except KeyboardInterrupt:
        return 130
    except BrokenPipeError:
        # Who reads has enough; nothing more is written, also not at the end.
        os.dup2(os.open(os.devnull, os.O_WRONLY), sys.stdout.fileno())
        return 0


def _parser() -> argparse.ArgumentParser:
    parser = argparse.ArgumentParser("terncommode", description=__doc__, formatter_class=argparse.RawDescriptionHelpFormatter)
    parser.add_argument("--version", action="version", version=f"terncommode {__version__}")
    commands = parser.add_subparsers(metavar="COMMAND", required=True)
    for name, run, says in (
        ("show", _show, "what a context says: each field of the table, or its atoms"),
        ("size", _size, "how many bytes each field takes"),
        ("diff", _diff, "where two contexts say different things"),
        ("join", _join, "the header's value of the merge of all"),
        ("cut", _cut, "the header's value of a context within a budget of bytes"),
    ):
        command = commands.add_parser(name, help=says, description=says)
        command.set_defaults(run=run)
        if name == "cut":
            command.add_argument("budget", metavar="BUDGET", type=_budget, help="how many bytes the context may have, from 1 on; in form two from 13 on")
            command.add_argument("--form", type=int, choices=(1, 2), default=1, help="the form in which the budget holds")
        if name in ("show", "size", "diff"):
            command.add_argument("--table", metavar="FILE", type=_table, help="the table of a service, as `baggage table` prints it")
        if name == "show":
            command.add_argument("--json", action="store_true", help="one object a context, a line each")
        command.add_argument("texts", metavar="TEXT", nargs=2 if name == "diff" else 1 if name == "cut" else "+", help="see above")
    return parser


def _budget(text: str) -> int:
    if not re.fullmatch(r"[0-9]{1,18}", text) or int(text) < 1:
        raise argparse.ArgumentTypeError(f"a budget is a number of bytes from 1 on, not {shown(text)}")
    return int(text)


def _table(name: str) -> Bag:
    try:
        with open(name, "rb") as file:
            return Bag(file.read(1 << 20).decode("ascii", "replace"))
    except OSError as error:
        raise argparse.ArgumentTypeError(f"{printable(name)} can't be read: {error.strerror}") from None
    except Error as refused:
        raise argparse.ArgumentTypeError(f"{printable(name)} isn't a table: {refused}. `baggage table FILE.bdl BAG` prints one") from None


# ---- what a text carries


class _Found(NamedTuple):
    """A context in a text."""

    where: str
    """Which of the texts it is, where there are several."""
    context: Context
    fault: Optional[str]
    """Why it is lost; None where it was read."""


def _texts(words: Sequence[str]) -> Iterator[Tuple[str, str]]:
    """All texts, and which each is."""
    for number, word in enumerate(words, 1):
        if word != "-":
            yield (f"text {number}" if len(words) > 1 else ""), word
            continue
        try:
            for line, read in enumerate(sys.stdin.buffer, 1):
                yield f"line {line}", read.decode("latin-1").rstrip("\r\n")
        except OSError as error:
            raise _Refused(f"standard input can't be read: {error.strerror}") from None


def _contexts_in(text: str) -> Iterator[Tuple[Context, Optional[str]]]:
    """Each context in a text, and why it can't be read. A text that is a header's value as a whole is one."""
    if _DIGITS.fullmatch(text):
        try:
            yield Context(bytes.fromhex(text)), None
        except Error as refused:
            yield Context.lost(), str(refused)
    elif _is_value(text):
        lost = next((part for part in dict.fromkeys(text.split(",")) if not _carries_context(part)), None)
        yield from_header(text), None if lost is None else f"the check isn't that of the bytes, or they are no context's: {printable(shown(lost))}"
    else:
        yield from ((from_header(part), None) for part in _INSIDE.findall(text) if _carries_context(part))


def _is_value(text: str) -> bool:
    """Whether a text is a header's value as a whole: parts with commas between, of which some may be blank, and not all."""
    return "." in text and all(_WHOLE.fullmatch(part) for part in (part.strip(" \t") for part in text.split(",")) if part)


def _carries_context(part: str) -> bool:
    """Whether a part of a header's value carries a context."""
    data = data_of_part(part.strip(" \t").encode("ascii"))
    try:
        return data is not None and Context(data) is not None
    except Error:
        return False


def _found(words: Sequence[str]) -> Iterator[_Found]:
    """All contexts of all texts. A text without one is told on standard error."""
    for where, text in _texts(words):
        count = 0
        for count, (context, fault) in enumerate(_contexts_in(text), 1):
            yield _Found(where if count == 1 else f"{where}, context {count}".lstrip(", "), context, fault)
        if not count:
            yield _Found(where, Context.lost(), "no context stands there")


def _told(found: _Found) -> bool:
    """Whether a context was read. If not, standard error says why."""
    if found.fault is not None:
        print(f"terncommode: {found.where + ': ' if found.where else ''}{found.fault}", file=sys.stderr)
    return found.fault is None


def _all_read(words: Sequence[str]) -> Optional[List[Context]]:
    """The contexts, None where one can't be read."""
    found = list(_found(words))
    return [one.context for one in found] if all([_told(one) for one in found]) else None


# ---- commands


def _show(words: argparse.Namespace) -> int:
    status = 0
    for number, found in enumerate(_found(words.texts)):
        if not _told(found):
            status = 1
            continue
        if words.json:
            print(json.dumps(_described(found, words.table)))
            continue
        if found.where:
            print(f"{chr(10) if number else ''}{found.where}:")
        print("\n".join(_lines(found.context, words.table)))
    return status


def _lines(context: Context, bag: Optional[Bag]) -> Iterator[str]:
    """What is shown of a context."""
    yield _summary(context)
    if bag is None:
        yield from map(_atom_line, atoms_of(context))
        return
    try:
        fields = bag.report(context).split("\n")[1:-1]
    except IllTyped as refused:
        yield f"{refused}, so the table can't read it; its atoms are:"
        yield from map(_atom_line, atoms_of(context))
        return
    except Error as refused:
        yield str(refused)
        return
    yield from _columns([line.split(" ", 2) for line in fields])
    slots = _Slots(bag)
    others = sum(atom.size for atom in atoms_of(context) if atom.kind == "datum" and slots.owner(atom) is None)
    if others:
        yield f"{others} bytes are of fields that the table hasn't"


def _columns(rows: List[List[str]]) -> Iterator[str]:
    """Fields, states and values in columns."""
    widest = max((len(path) for path, _, _ in rows), default=0)
    for path, state, text in rows:
        yield printable(f"{path:{widest}}  {state:7}  {text}")


def _summary(context: Context) -> str:
    atoms = list(atoms_of(context))
    cut = any(atom.kind == "marker" for atom in atoms)
    return f"{len(context)} bytes, {len(atoms)} {'atom' if len(atoms) == 1 else 'atoms'}, {'something may have been cut off' if cut else 'nothing cut off'}"


def _atom_line(atom: Atom) -> str:
    """An atom, indented below its headers."""
    if atom.kind == "marker":
        return "marker: what stands behind what is before it may have been cut off"
    if atom.kind == "datum":
        return f"{'  ' * len(atom.way)}datum {_bytes_shown(atom.payload)}"
    last = atom.way[-1]
    said = f"key {_bytes_shown(last)}" if isinstance(last, bytes) else f"field {last}"
    return "  " * (len(atom.way) - 1) + said


def _bytes_shown(data: bytes) -> str:
    """Bytes as digits, and as text where they are one."""
    if not data:
        return "of no bytes"
    try:
        text = data.decode("utf-8")
    except UnicodeDecodeError:
        return data.hex()
    return f"{data.hex()} {json.dumps(text, ensure_ascii=False)}" if text.isprintable() else data.hex()


def _described(found: _Found, bag: Optional[Bag]) -> Dict[str, Any]:
    """A context as an object of JSON."""
    context = found.context
    atoms = list(atoms_of(context))
    said: Dict[str, Any] = {"where": found.where} if found.where else {}
    said.update({"header": to_header(context), "bytes": len(context), "atoms": len(atoms), "cut": any(atom.kind == "marker" for atom in atoms)})
    if bag is None:
        said["tree"] = [{"way": path_of(atom.way), "kind": atom.kind, "data": atom.payload.hex()} for atom in atoms]
        return said
    try:
        rows = [line.split(" ", 2) for line in bag.report(context).split("\n")[1:-1]]
        said["fields"] = {path: {"text": text, "exact": state == "exact"} for path, state, text in rows}
    except Error as refused:
        said["refused"] = str(refused)
    return said


def _size(words: argparse.Namespace) -> int:
    contexts = _all_read(words.texts)
    if contexts is None:
        return 1
    sizes: Counter[str] = Counter()
    for context in contexts:
        sizes.update(_sizes(context, words.table))
    total = sum(sizes.values())
    for name, size in sorted(sizes.items(), key=lambda found: (-found[1], found[0])):
        print(printable(f"{size:9}  {100 * size / total:5.1f} %  {name}"))
    print(f"{total:9}  bytes in {len(contexts)} {'context' if len(contexts) == 1 else 'contexts'}")
    return 0


def _sizes(context: Context, bag: Optional[Bag]) -> Dict[str, int]:
    """How many bytes stand below each field. A header that leads to several fields counts to the first of them."""
    sizes: Counter[str] = Counter()
    slots = _Slots(bag)
    waiting = 0
    for atom in atoms_of(context):
        if atom.way in slots.bags:
            waiting += atom.size
            continue
        owner = slots.owner(atom) or ("marker" if atom.kind == "marker" else f"(field {path_of(atom.way[:1])})")
        sizes[owner] += atom.size + waiting
        waiting = 0
    if waiting:
        sizes["(bags alone)"] += waiting
    return sizes


class _Slots:
    """The fields of a table, by the numbers that lead to each."""

    def __init__(self, bag: Optional[Bag]) -> None:
        self.paths: Dict[Tuple[Header, ...], str] = {}
        self.bags: Dict[Tuple[Header, ...], str] = {}
        way: List[Tuple[int, str]] = []
        known = frozenset(bag.slots) if bag else frozenset()
        for line in bag.table.split("\n")[1:-1] if bag else []:
            depth, number, name = line.split(" ")[:3]
            way = way[:int(depth)] + [(int(number), name)]
            path = ".".join(name for _, name in way)
            (self.paths if path in known else self.bags)[tuple(number for number, _ in way)] = path

    def owner(self, atom: Atom) -> Optional[str]:
        """The field that an atom stands in; None where the table hasn't got it."""
        for length in range(1, len(atom.way) + 1):
            if atom.way[:length] in self.paths:
                return self.paths[atom.way[:length]]
        return None


def _diff(words: argparse.Namespace) -> int:
    contexts = _all_read(words.texts)
    if contexts is None:
        return 1
    if len(contexts) != 2:
        raise _Refused(f"diff takes two contexts, and these texts have {len(contexts)}")
    one, other = (list(_said(context, words.table)) for context in contexts)
    gone, new = set(one) - set(other), set(other) - set(one)
    lines = [f"- {line}" for line in one if line in gone] + [f"+ {line}" for line in other if line in new]
    sys.stdout.writelines(f"{line}\n" for line in lines)
    return int(bool(lines))


def _said(context: Context, bag: Optional[Bag]) -> Iterator[str]:
    """What a context says, a line each: the fields of the table, and all atoms that it hasn't."""
    slots = _Slots(bag)
    try:
        if bag is not None:
            yield from map(printable, bag.report(context).split("\n")[1:-1])
    except Error as refused:
        yield str(refused)
        slots = _Slots(None)
    for atom in atoms_of(context):
        if atom.kind == "datum" and slots.owner(atom) is None:
            yield f"{path_of(atom.way)} datum {_bytes_shown(atom.payload)}"
        elif atom.kind == "marker" and not slots.paths:
            yield "marker"


def _join(words: argparse.Namespace) -> int:
    contexts = _all_read(words.texts)
    if contexts is None:
        return 1
    print(to_header(Context.join(contexts)))
    return 0


def _cut(words: argparse.Namespace) -> int:
    contexts = _all_read(words.texts)
    if contexts is None:
        return 1
    for context in contexts:
        print(to_header(context.cut(words.budget, words.form)))
    return 0


def run() -> NoReturn:
    """The command that the package installs."""
    for stream in (sys.stdout, sys.stderr):
        if isinstance(stream, io.TextIOWrapper):
            stream.reconfigure(errors="backslashreplace")
    sys.exit(main())


if __name__ == "__main__":
    run()
