"""The services of examples/services with a relay on each way between two of them, and what the gateway may say then."""
import http.client
import os
import re
import subprocess
import sys
import time
import urllib.request
from typing import Dict, List, NamedTuple, Optional

HERE = os.path.dirname(os.path.abspath(__file__))
TOP = os.path.abspath(f"{HERE}/../../../..")
SERVICES = f"{TOP}/examples/services"
sys.path.insert(0, SERVICES)
import build  # noqa: E402
import started  # noqa: E402
from relays import Pipe, Plan, Relay  # noqa: E402

NAMES = [f"{TOP}/examples/checkout.bdl", "Checkout"]
# Each way between two services, by the one that answers; that to the stock is over gRPC.
HOPS = ("proxy", "cart", "pricing", "partner")


class Answer(NamedTuple):
    """What the gateway said of a request; `fields` is empty where it said nothing."""

    number: int
    fields: Dict[str, "tuple[str, str]"]


class Shop(started.Services):
    """All services in a chain. `plans` is what becomes of messages, by hop; the stock's is a file for grpc_relay.py."""

    def __init__(self, built: Dict[str, List[str]], environment: Dict[str, str], folder: str, plans: Optional[Dict[str, Plan]] = None,
                 is_hasty: bool = False) -> None:
        said = open(f"{folder}/said", "ab")
        environment = {**environment, "PYTHONPATH": f"{environment['PYTHONPATH']}:{HERE}"}
        super().__init__(built, environment, errors=said)
        self.folder, self.plans, self.said, self.is_hasty = folder, plans or {}, said, is_hasty
        self.relays: Dict[str, Relay] = {}
        self.pipe: Optional[Pipe] = None

    def __enter__(self) -> "Shop":
        try:
            self.relays = {hop: Relay(0, self.plans.get(hop), self.is_hasty) for hop in (*HOPS, "gateway")}
            self.pipe = Pipe(0)
            for name in ("stock", "pricing", "partner", "cart", "proxy", "gateway"):
                self.begin(name)
        except BaseException:
            self.__exit__(None)
            raise
        return self

    def __exit__(self, *_: object) -> None:
        self.stop()
        for relay in [*self.relays.values(), *([self.pipe] if self.pipe else [])]:
            relay.close()
        self.said.close()

    def begin(self, name: str) -> None:
        """Starts a service, or starts it again, and lets its relay know."""
        if name == "stock":
            self._begin_stock()
            return
        words = {"cart": [self.pipe.port] if "stock" in self.built else [], "proxy": [self.relays[hop].port for hop in ("cart", "pricing", "partner")],
                 "gateway": [self.relays["proxy"].port]}.get(name, [])
        self.relays[name].to = self.start(name, *map(str, words))

    def _begin_stock(self) -> None:
        if "stock" not in self.built:
            return
        port = self.start("stock")
        if "grpc_relay" in self.built and "grpc_relay" not in self.processes:
            port = self.start("grpc_relay", str(port), f"{self.folder}/stock_plan", f"{self.folder}/stock_notes")
        assert self.pipe
        self.pipe.to = port

    def end(self, name: str) -> None:
        """Kills a service; nobody listens then."""
        if name == "stock":
            self.pipe.to = 0
        else:
            self.relays[name].to = 0
        self.kill(name)

    def ask(self, number: int) -> Answer:
        """What the gateway says of a request."""
        try:
            with urllib.request.urlopen(f"http://127.0.0.1:{self.relays['gateway'].port}/checkout/{number}", timeout=600) as reply:
                lines = reply.read().decode().split("\n")[1:-1]
        except (OSError, http.client.HTTPException):
            return Answer(number, {})
        return Answer(number, {path: (state, text) for path, state, text in (line.split(" ", 2) for line in lines)})

    def settle(self) -> None:
        """Waits until no relay is at work."""
        until = time.monotonic() + 600
        while any(relay.open for relay in self.relays.values()) and time.monotonic() < until:
            time.sleep(0.02)

    def began(self, hop: str, number: int) -> bool:
        return number in self.relays[hop].began

    def truth(self, number: int, has_stock: bool) -> Dict[str, str]:
        """What was written on the ways to the gateway, as far as a byte of a reply was delivered on each of them. The hops are their sum alone, as a
        writer is a visit and has a name of its own."""
        has_proxy = self.began("proxy", number)
        has_cart, has_pricing = has_proxy and self.began("cart", number), has_proxy and self.began("pricing", number)
        has_stock = has_stock and has_cart
        load = (['"eur":1299'] if has_pricing else []) + (['"items":2'] if has_stock else [])
        return {"id": str(number), "tags": '{"coupon"}' if has_cart else "{}", "hops": str(2 + 3 * has_cart + has_pricing + has_stock), "debug": "off",
                "load": "{" + ",".join(load) + "}"}


def falsehoods(answer: Answer, *truths: Dict[str, str]) -> List[str]:
    """What an answer says is exact, and isn't one of the truths."""
    found = []
    for path, (state, text) in answer.fields.items():
        said = re.sub(r"\{.*", "", text) if path == "hops" else text
        if state == "exact" and said not in [truth[path] for truth in truths]:
            found.append(f"request {answer.number}: {path} exact {text}, and not {' or '.join(truth[path] for truth in truths)}")
    return found


def is_all_exact(answer: Answer) -> bool:
    return bool(answer.fields) and all(state == "exact" for state, _ in answer.fields.values())


def environment(prefix: str, folder: str, wait: int) -> Dict[str, str]:
    """What the services are told."""
    with open(f"{folder}/table", "w", encoding="ascii") as file:
        subprocess.run([sys.executable, f"{TOP}/vectors/second.py", "table", *NAMES], stdout=file, check=True)
    return {"TABLE": file.name, "RECORDING": folder, "TERNCOMMODE_LIBRARY": f"{prefix}/lib/libbaggage.so.2", "PYTHONPATH": f"{TOP}/bindings/python",
            "PYTHONDONTWRITEBYTECODE": "1", "WAIT_SECONDS": str(wait)}
