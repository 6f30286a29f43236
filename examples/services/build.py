"""Builds the shop's services over a library."""
import os
import shutil
import subprocess
from typing import Dict, List, Optional

HERE = os.path.dirname(os.path.abspath(__file__))
TOP = os.path.dirname(os.path.dirname(HERE))
GO_PACKAGES = "/usr/share/gocode"
WARNINGS = ["-O2", "-Wall", "-Wextra", "-Werror"]


class Missing(Exception):
    """A tool that isn't here."""


class NotBuilt(Exception):
    """A service that isn't built, with what its compiler says."""


def _run(words: List[str], folder: str = HERE, environment: Optional[Dict[str, str]] = None) -> None:
    ran = subprocess.run(words, cwd=folder, env={**os.environ, **(environment or {})}, stdin=subprocess.DEVNULL, stdout=subprocess.PIPE,
                         stderr=subprocess.STDOUT, check=False)
    if ran.returncode:
        raise NotBuilt(f"{' '.join(words)}\n{ran.stdout.decode(errors='replace')[-4000:]}")


def proxy(prefix: str, out: str, sources: str = HERE, carriers: str = f"{TOP}/bindings/c") -> str:
    flags = [*WARNINGS, *os.environ.get("CFLAGS", "").split(), f"-I{carriers}", f"-I{prefix}/include"]
    _run(["gcc", "-std=c11", *flags, f"{sources}/proxy.c", f"{prefix}/lib/libbaggage.a", "-pthread", "-o", f"{out}/proxy"])
    return f"{out}/proxy"


def partner(prefix: str, out: str) -> str:
    flags = [*WARNINGS, *os.environ.get("CXXFLAGS", "").split(), f"-I{TOP}/bindings/cpp", f"-I{TOP}/bindings/c", f"-I{prefix}/include"]
    _run(["g++", "-std=c++17", *flags, "partner.cc", f"{prefix}/lib/libbaggage.a", "-pthread", "-o", f"{out}/partner"])
    return f"{out}/partner"


def few_threads(out: str) -> str:
    """What lets threads be missing in the services that it is loaded before."""
    _run(["gcc", "-std=c11", *WARNINGS, "-shared", "-fPIC", "few_threads.c", "-ldl", "-o", f"{out}/few_threads.so"])
    return f"{out}/few_threads.so"


def pricing(prefix: str, out: str) -> str:
    environment = {"TERNCOMMODE_DIR": prefix, "CARGO_TARGET_DIR": f"{out}/cargo"}
    _run(["cargo", "build", "--offline", "--locked", "--quiet", "--release"], f"{HERE}/pricing", environment)
    return f"{out}/cargo/release/pricing"


def cart(prefix: str, out: str, has_stock: bool) -> str:
    """The packages of gRPC are Debian's, which are found by GOPATH; without them go.mod is enough."""
    tags, environment = [], {"GOCACHE": os.environ.get("GOCACHE", f"{out}/go-cache"), "GOTMPDIR": out, "CGO_LDFLAGS": f"-Wl,-rpath,{prefix}/lib"}
    if shutil.which("pkg-config"):
        environment["PKG_CONFIG_PATH"] = f"{prefix}/lib/pkgconfig"
    else:
        tags.append("terncommode_flags")
        environment.update(CGO_CFLAGS=f"-I{prefix}/include", CGO_LDFLAGS=f"-L{prefix}/lib -lbaggage -Wl,-rpath,{prefix}/lib")
    folder = f"{HERE}/cart"
    if has_stock:
        tags.append("grpc")
        environment.update(GO111MODULE="off", GOPATH=f"{out}/gopath:{GO_PACKAGES}")
        folder = _linked(f"{out}/gopath/src")
    _run(["go", "build", "-tags", ",".join(tags), "-o", f"{out}/cart", "."], folder, environment)
    return f"{out}/cart"


def _linked(sources: str) -> str:
    """The folder of the cart as GOPATH has it, beside the binding."""
    os.makedirs(sources, exist_ok=True)
    for name, folder in (("terncommode", f"{TOP}/bindings/go"), ("cart", f"{HERE}/cart")):
        if os.path.lexists(f"{sources}/{name}"):
            os.unlink(f"{sources}/{name}")
        os.symlink(folder, f"{sources}/{name}")
    return f"{sources}/cart"


def python_with_grpc() -> Optional[str]:
    """Debian's packages are for its own python3, which needn't be the first one."""
    for python in ("python3", "/usr/bin/python3"):
        if shutil.which(python) and not subprocess.run([python, "-c", "import grpc"], capture_output=True, check=False).returncode:
            return python
    return None


def all_services(prefix: str, out: str) -> Dict[str, List[str]]:
    """The command of each service. The stock is among them where gRPC is there for Go and for Python."""
    missing = [tool for tool in ("gcc", "g++", "cargo", "go", "python3") if not shutil.which(tool)]
    if missing:
        raise Missing(f"no {', no '.join(missing)}")
    if not os.path.exists(f"{prefix}/lib/libbaggage.so.2"):
        raise Missing(f"no library at {prefix}; `make_library {prefix}` places it there")
    wants_stock = os.environ.get("STOCK") != "0"
    python = python_with_grpc() if wants_stock and os.path.isdir(f"{GO_PACKAGES}/src/google.golang.org/grpc") else None
    if wants_stock and python is None and os.environ.get("STRICT") == "1":
        raise Missing("no gRPC for Go, or none for Python")
    built = {"gateway": ["python3", f"{HERE}/gateway.py"], "proxy": [proxy(prefix, out)], "partner": [partner(prefix, out)],
             "pricing": [pricing(prefix, out)], "cart": [cart(prefix, out, python is not None)]}
    if python is None:
        print("the call to the stock is skipped: no gRPC for Go, or none for Python")
    else:
        built["stock"] = [python, f"{HERE}/stock.py"]
    return built


def mistakes(path: str = f"{HERE}/planted") -> Dict[str, List[str]]:
    """The planted mistakes, by name: the file, and how sed changes it."""
    with open(path, encoding="utf-8") as file:
        lines = [line.split(" ", 2) for line in file.read().splitlines() if line and not line.startswith("#")]
    return {name: change for name, *change in lines}


def planted(prefix: str, out: str, name: str, file: str, change: str) -> str:
    """The proxy with this mistake in it, or in what it includes."""
    folder = f"{out}/{name}"
    os.makedirs(folder, exist_ok=True)
    for source in (f"{HERE}/proxy.c", f"{HERE}/http.h", f"{TOP}/bindings/c/baggage_carriers.h"):
        shutil.copy(source, folder)
    with open(f"{folder}/{file}", "rb") as before:
        text = before.read()
    _run(["sed", "-i", "-e", change, file], folder)
    with open(f"{folder}/{file}", "rb") as after:
        if after.read() == text:
            raise NotBuilt(f"planted {name}: {change} changes nothing in {file}")
    return proxy(prefix, folder, folder, folder)
