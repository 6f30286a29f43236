"""The steps of a service in Python, each recorded by a line of its log (docs/AUDITING.md)."""
import contextlib
import itertools
import os
import re
import secrets
import string
import sys
import threading
from typing import Dict, Iterable, List, NamedTuple, Optional, Sequence

from terncommode import Bag, Context, IllTyped

STEP = "Terncommode-Step"
"""The header that names the step whose context a message carries: NAME:CHECK."""

_NAMED = re.compile(r"([A-Za-z0-9_.-]{1,63}):([0-9a-f]{8})")


class Step(NamedTuple):
    """A context, and the name of the step that made it; the name is empty where nothing is recorded."""

    name: str
    context: Context

    def within(self, budget: int) -> bool:
        """Whether it can be sent over a channel with this budget."""
        return len(bytes(self.context)) <= budget


def _sum(name: str) -> str:
    """FNV-1a of 32 bits of a name."""
    found = 2166136261
    for byte in name.encode():
        found = (found ^ byte) * 16777619 & 0xFFFFFFFF
    return f"{found:08x}"


def names_of(step: Step) -> Dict[str, str]:
    """The header that names the step whose context a message carries; none where nothing is recorded."""
    return {STEP: f"{step.name}:{_sum(step.name)}"} if step.name else {}


def new_writer() -> str:
    """The writer of one visit's counts: eight random bytes, which no two visits share."""
    return f"0x{secrets.token_hex(8)}"


def sender_of(values: Sequence[str]) -> Optional[str]:
    """The step that a message names. A name that came twice, or was cut or changed on the way, names none."""
    found = _NAMED.fullmatch(values[0]) if len(values) == 1 else None
    return found[1] if found and _sum(found[1]) == found[2] else None


class Recorder:
    """What a service does with contexts, each step recorded by one write to a file that only grows.

    The instance's name ends in eight letters that nobody can foretell, so no stranger names a step to come. A line that can't be written whole
    is the last one: the service goes on without its log.
    """

    def __init__(self, service: str, bag: Bag) -> None:
        letters = "".join(secrets.choice(string.ascii_lowercase + "234567") for _ in range(8))
        self.service, self.instance, self.bag = service, f"{service}-{letters}", bag
        self.numbers, self.lock = itertools.count(1), threading.Lock()
        self.log = self._opened(os.environ.get("RECORDING"))

    def start(self) -> Step:
        """A request begins here."""
        return self._record("start", [], "-", Context())

    def receive(self, context: Context, sender: Optional[str], is_single: bool) -> Step:
        """A message came with this context. Where it names no step, or hasn't one context that can be read, it is recorded as one from outside."""
        act = "forward" if sender and is_single and context != Context.lost() else "recv"
        return self._record(act, [sender] if sender else [], bytes(context).hex() or "-", self._update([context]))

    def set(self, step: Step, write: str) -> Step:
        """Writes a line `PATH TEXT`."""
        return self._record("set", [step.name], write, self._update([step.context], f"{write}\n"))

    def join(self, steps: Iterable[Step]) -> Step:
        """Merges what came together here."""
        steps = list(steps)
        return self._record("join", [step.name for step in steps], "-", self._update([step.context for step in steps]))

    def cut(self, step: Step, budget: int) -> Step:
        """What is sent over a channel with a budget: the step itself where it fits."""
        if step.within(budget):
            return step
        return self._record("trim", [step.name], str(budget), step.context.cut(budget))

    def _update(self, contexts: List[Context], write: str = "") -> Context:
        """A step of the bag. What isn't typed as the table says stays as it is, as at a service that doesn't know the field, beside what is written here."""
        try:
            return self.bag.update(contexts, write)
        except IllTyped:
            return Context.join([*contexts, self.bag.update([], write)])

    def _opened(self, folder: Optional[str]) -> Optional[int]:
        """The log, which its owner alone can read: it has contexts whole."""
        try:
            return os.open(f"{folder}/{self.instance}.log", os.O_WRONLY | os.O_APPEND | os.O_CREAT, 0o600) if folder else None
        except OSError as error:
            self._tell(f"nothing is recorded: {error}")
            return None

    def _tell(self, what: str) -> None:
        with contextlib.suppress(OSError):
            print(f"{self.service}: {what}", file=sys.stderr, flush=True)

    def _record(self, act: str, parents: Sequence[str], rest: str, context: Context) -> Step:
        name = f"{self.instance}.{next(self.numbers)}"
        words = [name, act, " ".join(parents) or "-", rest, bytes(context).hex() or "-"]
        return Step(name if self._append(("\t".join(words) + "\n").encode()) else "", context)

    def _append(self, line: bytes) -> bool:
        """Appends a line; whether it is recorded."""
        with self.lock:
            if self.log is None:
                return False
            try:
                if os.write(self.log, line) == len(line):
                    return True
                why = "a line was written in part"
            except OSError as error:
                why = str(error)
            os.close(self.log)
            self.log = None
        self._tell(f"the log can't be written, and nothing more is recorded: {why}")
        return False
