"""What strangers may do to the shop's services: whatever they send, and however long they are silent, the services go on."""
import base64
import concurrent.futures
import contextlib
import itertools
import os
import re
import resource
import socket
import stat
import time
import zlib
from typing import IO, Dict, Iterator, List

from started import Scarcity, Services

SERVERS = ["gateway", "proxy", "cart", "pricing", "partner"]
THREADED = ["gateway", "proxy", "pricing", "partner"]
WAIT_SECONDS = 2
SILENT = 80
# Field 0 has three bytes in place of four, and each of fields 2 and 4 a datum that no count and no number begins with.
ILL_TYPED = [bytes.fromhex(digits) for digits in ("02f8000400010203", "02f80202f161030003ff", "02f80404f1657572030003ff")]
# What the services write into what they answer with.
WRITES: Dict[str, List[bytes]] = {"proxy": [b"coupon", b"eur"], "cart": [b"coupon"], "pricing": [b"eur"], "partner": []}
GOES_ON = 300
REPLY_BUDGET = 2_000


class Refuted(Exception):
    """What a service does that it ought not to."""


def talk(port: int, message: bytes) -> bytes:
    """What comes back of a message until the service closes; nothing where the connection breaks."""
    with socket.create_connection(("127.0.0.1", port), timeout=GOES_ON) as connection:
        with contextlib.suppress(OSError):
            connection.sendall(message)
        parts = []
        with contextlib.suppress(ConnectionError):
            parts = list(iter(lambda: connection.recv(65536), b""))
        return b"".join(parts)


def head(lines: List[str], path: str = "/checkout/7") -> bytes:
    return "\r\n".join([f"GET {path} HTTP/1.1", "Host: localhost", "Connection: close", *lines, "", ""]).encode("latin-1")


def status(reply: bytes) -> str:
    return reply[9:12].decode("latin-1")


def expect(what: str, found: object, *wanted: object) -> None:
    if found not in wanted:
        raise Refuted(f"{what}: {found!r}, and not {' or '.join(map(repr, wanted))}")


def try_heads(shop: Services) -> None:
    """Heads with as many lines and bytes as may be, and with more."""
    few, many = [f"X-{k}: y" for k in range(90)], [f"X-{k}: y" for k in range(102)]
    long, longer = [f"X-{k}: {'y' * 6000}" for k in range(10)], [f"X-{k}: {'y' * 700}" for k in range(98)]
    for name in SERVERS:
        port = shop.ports[name]
        for what, lines, wanted in (("90 lines", few, ("200", "204")), ("104 lines", many, ("431",)), ("60,000 bytes", long, ("200", "204")), ("69,000 bytes", longer, ("431",))):
            expect(f"{name}, a head of {what}", status(talk(port, head(lines))), *wanted)
    for name in ("proxy", "pricing", "partner"):
        expect(f"{name}, a line that goes on", status(talk(shop.ports[name], head(["Terncommode: .AAAAAA", "  , AA"]))), "431")


def try_types(shop: Services) -> None:
    """Contexts that aren't typed as the table says: each service answers, and keeps what came and what it writes itself."""
    for came, name in itertools.product(ILL_TYPED, WRITES):
        reply = talk(shop.ports[name], head([f"Terncommode: {text_of(came)}"], "/"))
        expect(f"{name}, ill typed {came.hex()}", status(reply), "200", "204")
        context = context_in(reply)
        for said in WRITES[name]:
            if said not in context or came[-2:] not in context:
                raise Refuted(f"{name} answers an ill-typed {came.hex()} with {context.hex()}, in which {said!r} or what came is missing")


def try_sizes(shop: Services) -> None:
    """Contexts that are longer than what is sent: of what doesn't fit nothing is exact, and it isn't taken for a reply that never came."""
    for count in (200, 800, 3000):
        came = bytes.fromhex("02f801") + b"".join(b"\x06\0%05d" % tag for tag in range(count))
        for name in ("proxy", "cart", "pricing"):
            context = context_in(talk(shop.ports[name], head([f"Terncommode: {text_of(came)}"], "/")))
            is_whole = all(said in context for said in (came[3:], *WRITES[name]))
            if not 0 < len(context) <= REPLY_BUDGET or not is_whole and not has_marker(context):
                raise Refuted(f"{name} answers {len(came)} bytes with {len(context)} bytes, in which something is missing, and no marker says so")


def has_marker(context: bytes) -> bool:
    """Whether something was cut off of a context in form one."""
    at = 0
    while at < len(context):
        length = shift = 0
        is_more = True
        while is_more:
            length, is_more = length | (context[at] & 0x7F) << shift, context[at] >= 0x80
            at, shift = at + 1, shift + 7
        if not length:
            return True
        at += length
    return False


def _letters(data: bytes) -> bytes:
    return base64.urlsafe_b64encode(data).rstrip(b"=")


def text_of(context: bytes) -> str:
    """DATA.CHECK of bytes that a package wouldn't send."""
    return (_letters(context) + b"." + _letters(zlib.crc32(context).to_bytes(4, "big"))).decode()


def context_in(reply: bytes) -> bytes:
    """The bytes of the context that a reply brings."""
    found = re.search(rb"(?im)^terncommode: ([A-Za-z0-9_-]*)\.", reply)
    return base64.urlsafe_b64decode(found[1] + b"=" * (-len(found[1]) % 4)) if found else b""


def processor_seconds(shop: Services, name: str) -> float:
    with open(f"/proc/{shop.processes[name].pid}/stat", encoding="ascii") as file:
        words = file.read().rpartition(")")[2].split()
    return (int(words[11]) + int(words[12])) / os.sysconf("SC_CLK_TCK")


def descriptors(shop: Services, name: str) -> int:
    return len(os.listdir(f"/proc/{shop.processes[name].pid}/fd"))


@contextlib.contextmanager
def silence(ports: List[int]) -> Iterator[List[socket.socket]]:
    """Connections over which nothing is said."""
    with contextlib.ExitStack() as all_of_them:
        silent = [socket.socket() for port in ports for _ in range(SILENT)]
        for number, connection in enumerate(silent):
            all_of_them.enter_context(connection)
            connection.setblocking(False)
            connection.connect_ex(("127.0.0.1", ports[number // SILENT]))
        yield silent


def answers(shop: Services, name: str) -> str:
    """The status of a plain request, which may take until the silent ones are gone; where it came too slowly itself, it is sent again."""
    until = time.monotonic() + GOES_ON
    found = ""
    while not found and time.monotonic() < until:
        found = status(talk(shop.ports[name], head([])))
    return found


def try_silence(shop: Services, names: List[str]) -> None:
    """Many connections say nothing: the services answer others, take no processor meanwhile, and keep no socket in the end."""
    before = {name: (descriptors(shop, name), processor_seconds(shop, name)) for name in names}
    since = time.monotonic()
    with silence([shop.ports[name] for name in names]), concurrent.futures.ThreadPoolExecutor(len(names)) as pool:
        found = dict(zip(names, pool.map(lambda name: answers(shop, name), names)))
        took = time.monotonic() - since
    for name in names:
        expect(f"{name} after silent connections", found[name], "200", "204")
        used = processor_seconds(shop, name) - before[name][1]
        if used > 0.2 + took / 2:
            raise Refuted(f"{name} takes {used:.1f} s of a processor in {took:.1f} s, while connections say nothing")
    until = time.monotonic() + GOES_ON
    for name in names:
        while descriptors(shop, name) > before[name][0] + 2:
            if time.monotonic() > until:
                raise Refuted(f"{name} keeps {descriptors(shop, name)} descriptors, and had {before[name][0]}")
            time.sleep(0.1)


def try_names(shop: Services, folder: str) -> None:
    """Names of steps that are damaged, foreign or come twice: the step that they come to is one from outside."""
    value, good = "Terncommode: .AAAAAA", "gateway-abcdefgh.1:" + sum_of("gateway-abcdefgh.1")
    for lines in ([good[:-1]], [good.replace(".1:", ".2:")], [good, good], ["gateway-abcdefgh.1"], ["x\ty:" + sum_of("x\ty")], ["a" * 64 + ":" + sum_of("a" * 64)], [""]):
        for name in ("proxy", "cart", "pricing", "partner"):
            talk(shop.ports[name], head([value, *(f"Terncommode-Step: {line}" for line in lines)], "/"))
    for path in logs(folder):
        with open(path, encoding="utf-8") as file:
            for line in file:
                words = line.split("\t")
                if "abcdefgh" in line or words[1] == "forward" and words[2].count("-") != 1:
                    raise Refuted(f"{path}: a name that was damaged is taken: {line}")


def sum_of(name: str) -> str:
    found = 2166136261
    for byte in name.encode():
        found = (found ^ byte) * 16777619 & 0xFFFFFFFF
    return f"{found:08x}"


def logs(folder: str) -> List[str]:
    return [f"{folder}/{name}" for name in sorted(os.listdir(folder)) if name.endswith(".log")]


def try_logs(folder: str) -> None:
    for path in logs(folder):
        expect(f"the mode of {path}", oct(stat.S_IMODE(os.stat(path).st_mode)), "0o600")


def try_full_disk(shop: Services, folder: str) -> None:
    """The logs can't grow: what is recorded stays whole but for the last line, and the services say what they say without a log."""
    replies = [talk(shop.ports["gateway"], head([], f"/checkout/{number}")).decode() for number in range(1, 9)]
    for reply in replies:
        for said in ("id exact ", 'tags exact {"coupon"}', "hops exact 7{" if "stock" in shop.built else "hops exact 6{"):
            if said not in reply:
                raise Refuted(f"with a full disk the gateway says\n{reply}\nand not {said}")
    for path in logs(folder):
        with open(path, "rb") as file:
            lines = file.read().split(b"\n")
        if not 1 < len(lines) < 10 or any(line.count(b"\t") != 4 for line in lines[:-1]):
            raise Refuted(f"{path} has a line that was written in part, or went on: {lines}")


def try_threads(shop: Services) -> None:
    """Every third thread is missing: a connection may be closed without an answer, and an answer is what it is else."""
    for name in THREADED:
        replies = [talk(shop.ports[name], head([])) for _ in range(12)]
        expect(f"{name} with few threads", set(map(status, replies)) <= {"200", "204", ""}, True)
        answered = [reply for reply in replies if reply]
        if len(answered) < 6:
            raise Refuted(f"{name} with few threads answers {len(answered)} of {len(replies)} requests")
        if name == "gateway" and not any(b'tags exact {"coupon"}' in reply for reply in answered):
            raise Refuted(f"with few threads the gateway says\n{answered[0].decode()}")


def try_all(built: Dict[str, List[str]], environment: Dict[str, str], folder: str, few_threads: str, said: IO[bytes]) -> None:
    """Tries it all over services that are started for it, whose logs are in the folder, and who say to a file what they miss. `few_threads` is what
    build.few_threads made."""
    environment = {**environment, "WAIT_SECONDS": str(WAIT_SECONDS)}

    def started(name: str, scarce: List[str], scarcity: Scarcity) -> Services:
        os.makedirs(f"{folder}/{name}")
        return Services(built, {**environment, "RECORDING": f"{folder}/{name}"}, dict.fromkeys(scarce, scarcity), said)

    with started("silence", SERVERS, Scarcity({resource.RLIMIT_NOFILE: 48})) as shop:
        try_silence(shop, SERVERS)
    environment["WAIT_SECONDS"] = "300"
    with started("heads", [], Scarcity()) as shop:
        try_heads(shop)
        try_names(shop, f"{folder}/heads")
        try_types(shop)
        try_sizes(shop)
        try_logs(f"{folder}/heads")
    with started("threads", THREADED, Scarcity(loaded=few_threads)) as shop:
        try_threads(shop)
    with started("disk", list(built), Scarcity({resource.RLIMIT_FSIZE: 700})) as shop:
        try_full_disk(shop, f"{folder}/disk")
