"""Ways in which a message of HTTP is damaged between two services: what is delivered of it, and how the connection ends then."""
import re
from typing import Callable, Dict, List, NamedTuple

CLOSE, RESET, HOLD = "close", "reset", "hold"
HEADER = re.compile(rb"(?im)^terncommode: *([^\r\n]*)\r\n")
ANSWERS = re.compile(rb"(?im)^terncommode-for: *([^\r\n]*)\r\n")
STEP = re.compile(rb"(?im)^terncommode-step: *([^\r\n]*)\r\n")


class Delivery(NamedTuple):
    """What is handed on of a message; where it is held, nothing more comes and the connection stays open."""

    message: bytes
    end: str = CLOSE


class Message(NamedTuple):
    """A message, one of another request over the same way (nothing where there was none yet), and the number of this one."""

    whole: bytes
    other: bytes
    number: int

    @property
    def value(self) -> bytes:
        """The text of its context."""
        found = HEADER.search(self.whole)
        return found[1] if found else b""

    def with_value(self, value: bytes) -> Delivery:
        return self.with_line(b"Terncommode: " + value + b"\r\n")

    def with_line(self, line: bytes) -> Delivery:
        """The message with this line in place of that of the context."""
        return Delivery(HEADER.sub(lambda _: line, self.whole, count=1))

    def with_more(self, lines: bytes) -> Delivery:
        """The message with more lines in its head."""
        first, rest = self.whole.split(b"\r\n", 1)
        return Delivery(first + b"\r\n" + lines + rest)

    def place(self, length: int) -> int:
        """A place in something of this length, each time another one; not its end."""
        return self.number * 7919 % max(length, 1)


Way = Callable[[Message], Delivery]
# What a way leaves as it is: nobody reads less than all.
HARMLESS: Dict[str, Way] = {}
HARMFUL: Dict[str, Way] = {}
# A head breaks off, or is long: one client takes what stands in it, and another one doesn't.
UNSURE: Dict[str, Way] = {}
# Nothing of a message is delivered, so it never came; or it comes too late, and for that services have to wait in vain.
SILENT: Dict[str, Way] = {}
SLOW: Dict[str, Way] = {}


def _way(ways: Dict[str, Way]) -> Callable[[Way], Way]:
    def take(way: Way) -> Way:
        ways[way.__name__] = way
        return way
    return take


@_way(HARMLESS)
def whole(it: Message) -> Delivery:
    return Delivery(it.whole)


@_way(HARMLESS)
def doubled(it: Message) -> Delivery:
    return it.with_more(b"Terncommode: " + it.value + b"\r\n")


@_way(HARMLESS)
def doubled_by_a_comma(it: Message) -> Delivery:
    return it.with_value(it.value + b" ,\t" + it.value)


@_way(HARMLESS)
def in_capitals(it: Message) -> Delivery:
    return it.with_line(b"TERNCOMMODE:" + it.value + b"\r\n")


@_way(HARMLESS)
def with_blanks(it: Message) -> Delivery:
    return it.with_value(b"\t  " + it.value + b" \t ")


@_way(HARMLESS)
def with_an_empty_one(it: Message) -> Delivery:
    return it.with_value(it.value + b",.AAAAAA")


@_way(HARMLESS)
def without_its_step(it: Message) -> Delivery:
    return Delivery(STEP.sub(b"", it.whole))


@_way(HARMLESS)
def with_a_cut_step(it: Message) -> Delivery:
    return Delivery(STEP.sub(lambda found: b"Terncommode-Step: " + found[1][:it.place(len(found[1]))] + b"\r\n", it.whole))


@_way(HARMFUL)
def cut(it: Message) -> Delivery:
    return it.with_value(it.value[:it.place(len(it.value))])


@_way(HARMFUL)
def cut_before_its_check(it: Message) -> Delivery:
    return it.with_value(it.value[:-7])


@_way(HARMFUL)
def dropped(it: Message) -> Delivery:
    return it.with_line(b"")


@_way(HARMFUL)
def changed(it: Message) -> Delivery:
    place = it.place(len(it.value))
    return it.with_value(it.value[:place] + (b"B" if it.value[place:place + 1] != b"B" else b"C") + it.value[place + 1:])


@_way(HARMFUL)
def blank(it: Message) -> Delivery:
    return it.with_value(b"")


@_way(HARMFUL)
def with_a_comma(it: Message) -> Delivery:
    return it.with_value(it.value + b",")


@_way(HARMFUL)
def quoted(it: Message) -> Delivery:
    return it.with_value(b'"' + it.value + b'"')


@_way(HARMFUL)
def padded(it: Message) -> Delivery:
    return it.with_value(it.value.replace(b".", b"=="[:1 + it.number % 2] + b"."))


@_way(HARMFUL)
def folded(it: Message) -> Delivery:
    place = it.place(len(it.value))
    return it.with_value(it.value[:place] + b"\r\n " + it.value[place:])


@_way(HARMFUL)
def folded_with_another(it: Message) -> Delivery:
    return it.with_value(it.value + b"\r\n\t," + it.value[:-1])


@_way(HARMFUL)
def with_a_null(it: Message) -> Delivery:
    place = it.place(len(it.value))
    return it.with_value(it.value[:place] + b"\0" + it.value[place:])


@_way(HARMFUL)
def without_a_colon(it: Message) -> Delivery:
    return it.with_line(b"Terncommode " + it.value + b"\r\n")


@_way(HARMFUL)
def with_a_blank_before_the_colon(it: Message) -> Delivery:
    return it.with_line(b"Terncommode : " + it.value + b"\r\n")


@_way(HARMFUL)
def doubled_and_cut(it: Message) -> Delivery:
    return it.with_more(b"Terncommode: " + it.value[:-1] + b"\r\n")


@_way(HARMFUL)
def doubled_without_a_colon(it: Message) -> Delivery:
    return it.with_more(b"Terncommode " + it.value + b"\r\n")


@_way(UNSURE)
def cut_in_its_head(it: Message) -> Delivery:
    return Delivery(it.whole[:1 + it.place(it.whole.index(b"\r\n\r\n"))])


@_way(UNSURE)
def cut_before_its_last_line(it: Message) -> Delivery:
    return Delivery(it.whole[:it.whole.index(b"\r\n\r\n") + 2])


@_way(UNSURE)
def cut_and_reset(it: Message) -> Delivery:
    return Delivery(it.whole[:1 + it.place(it.whole.index(b"\r\n\r\n"))], RESET)


@_way(HARMFUL)
def after_garbage(it: Message) -> Delivery:
    return Delivery(b"\x16\x03\x01 no HTTP\r\n\r\n" + it.whole)


@_way(HARMFUL)
def with_many_lines(it: Message) -> Delivery:
    return it.with_more(b"".join(b"X-%d: y\r\n" % number for number in range(110)))


@_way(HARMFUL)
def with_a_long_line(it: Message) -> Delivery:
    return it.with_more(b"X: " + b"y" * 70_000 + b"\r\n")


@_way(UNSURE)
def with_long_lines(it: Message) -> Delivery:
    return it.with_more(b"".join(b"X-%d: %s\r\n" % (number, b"y" * 6000) for number in range(15)))


@_way(HARMFUL)
def of_another_request(it: Message) -> Delivery:
    return Delivery(it.other or it.whole[:1])


@_way(HARMFUL)
def for_nobody(it: Message) -> Delivery:
    return Delivery(ANSWERS.sub(b"", it.whole))


@_way(HARMFUL)
def for_another(it: Message) -> Delivery:
    return Delivery(ANSWERS.sub(b"Terncommode-For: AAAAAA\r\n", it.whole))


@_way(HARMFUL)
def for_two(it: Message) -> Delivery:
    return Delivery(ANSWERS.sub(lambda found: found[0] * 2, it.whole))


@_way(HARMFUL)
def by_a_proxy_that_fails(it: Message) -> Delivery:
    return Delivery(b"HTTP/1.1 502 Bad Gateway\r\nContent-Length: 0\r\nConnection: close\r\n\r\n")


@_way(SILENT)
def closed_before_a_byte(it: Message) -> Delivery:
    return Delivery(b"")


@_way(SILENT)
def reset_before_a_byte(it: Message) -> Delivery:
    return Delivery(b"", RESET)


@_way(SLOW)
def held(it: Message) -> Delivery:
    return Delivery(b"", HOLD)


@_way(SLOW)
def held_in_its_head(it: Message) -> Delivery:
    return Delivery(it.whole[:1 + it.place(it.whole.index(b"\r\n\r\n"))], HOLD)


ALL: Dict[str, Way] = {**HARMLESS, **HARMFUL, **UNSURE, **SILENT, **SLOW}
# Ways of replies alone: a request names no other one.
OF_REPLIES: List[str] = ["for_nobody", "for_another", "for_two", "by_a_proxy_that_fails", "of_another_request"]
