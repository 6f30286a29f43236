"""The shop's services, started and stopped."""
import ctypes
import os
import resource
import selectors
import signal
import subprocess
from typing import IO, Dict, List, Optional, Type

import relay

WAIT = 300
_libc = ctypes.CDLL(None)


class NotStarted(Exception):
    """A service that doesn't start."""


class Scarcity:
    """What a service has too little of: how much it may have of a resource, by the numbers of the module resource, and a library that is loaded before it."""

    def __init__(self, limits: Optional[Dict[int, int]] = None, loaded: str = "") -> None:
        self.limits, self.variables = limits or {}, {"LD_PRELOAD": loaded} if loaded else {}

    def begin(self) -> None:
        """What the new process does first. That a file may not grow is no reason to end; so it is with a full disk."""
        _libc.prctl(1, signal.SIGKILL)  # PR_SET_PDEATHSIG
        signal.signal(signal.SIGXFSZ, signal.SIG_IGN)
        for kind, most in self.limits.items():
            resource.setrlimit(kind, (most, most))


class Services:
    """All services, each in a process of its own, with a relay between the proxy and pricing. At the end all are stopped."""

    def __init__(self, built: Dict[str, List[str]], environment: Dict[str, str], scarce: Optional[Dict[str, Scarcity]] = None,
                 errors: Optional[IO[bytes]] = None) -> None:
        self.built, self.scarce, self.errors = built, scarce or {}, errors
        self.processes: "Dict[str, subprocess.Popen[bytes]]" = {}
        self.ports: Dict[str, int] = {}
        self.environment = {**os.environ, **environment}

    def __enter__(self) -> "Services":
        try:
            stock = [str(self.start("stock"))] if "stock" in self.built else []
            self.relay = relay.Relay(self.start("pricing"))
            others = [self.start("cart", *stock), self.relay.server_address[1], self.start("partner")]
            self.gateway = self.start("gateway", str(self.start("proxy", *map(str, others))))
        except BaseException:
            self.stop()
            raise
        return self

    def __exit__(self, kind: Optional[Type[BaseException]], *_: object) -> None:
        self.stop()
        self.relay.shutdown()
        self.relay.server_close()

    def start(self, name: str, *words: str) -> int:
        """Starts a service, and gives the port that it prints."""
        scarcity = self.scarce.get(name, Scarcity())
        process = subprocess.Popen([*self.built[name], *words], stdin=subprocess.DEVNULL, stdout=subprocess.PIPE, stderr=self.errors,
                                   env={**self.environment, **scarcity.variables}, preexec_fn=scarcity.begin)
        self.processes[name] = process
        assert process.stdout
        with selectors.DefaultSelector() as selector:
            selector.register(process.stdout, selectors.EVENT_READ)
            line = process.stdout.readline() if selector.select(WAIT) else b""
        if not line.strip().isdigit():
            raise NotStarted(f"{name} tells no port")
        self.ports[name] = int(line)
        return int(line)

    def kill(self, name: str) -> None:
        """Ends one service at once."""
        process = self.processes.pop(name)
        process.kill()
        process.communicate()

    def stop(self) -> None:
        """Ends all that run."""
        for name in list(self.processes):
            self.kill(name)
