"""Makes wheels of the package, with the shared library inside: for `make_wheel`, and for pip by pyproject.toml, where TERNCOMMODE_DIR says
where `make_library` placed the library. It needs Python alone and no network; the same files give the same wheel, byte for byte."""

from __future__ import annotations

import base64
import hashlib
import os
import re
import zipfile
from typing import Any, Dict, Iterator, List, Optional, Tuple

HERE = os.path.dirname(os.path.abspath(__file__))
LIBRARY = "libbaggage.so.2"
MACHINES = {62: "x86_64", 183: "aarch64"}
# The oldest glibc that an index knows of each processor, and the older name of each such tag.
POLICIES = {"x86_64": {5: "manylinux1", 12: "manylinux2010", 17: "manylinux2014"}, "aarch64": {17: "manylinux2014"}}


def platforms(library: bytes) -> List[str]:
    """The platforms that a shared library runs on: its processor, and the oldest glibc that has the versions of names that it asks for. One that asks for none
    runs with musl too."""
    if library[:5] != b"\x7fELF\x02":
        raise SystemExit("make_wheel: the library isn't an ELF file of 64 bits")
    machine = MACHINES[int.from_bytes(library[18:20], "little")]
    wanted = max((int(minor) for minor in re.findall(rb"GLIBC_2\.(\d+)", library)), default=0)
    policies = POLICIES[machine]
    oldest = min((minor for minor in policies if minor >= wanted), default=wanted)
    names = [f"manylinux_2_{oldest}"] + ([policies[oldest]] if oldest in policies else []) + ([] if wanted else ["musllinux_1_1"])
    return [f"{name}_{machine}" for name in names]


def metadata(version: str) -> str:
    """What an installer reads."""
    with open(os.path.join(HERE, "README.md"), encoding="utf-8") as file:
        page = file.read()
    return (
        f"Metadata-Version: 2.1\nName: terncommode\nVersion: {version}\nSummary: Baggage contexts that merge, and that say what was cut off\n"
        "Requires-Python: >=3.8\nClassifier: Operating System :: POSIX :: Linux\nClassifier: Typing :: Typed\n"
        f"Description-Content-Type: text/markdown\n\n{page}"
    )


def package() -> Iterator[Tuple[str, bytes]]:
    """The files of the package, by their names in the wheel."""
    folders = [folder for folder, _, _ in os.walk(os.path.join(HERE, "terncommode")) if not folder.endswith("__pycache__")]
    paths = sorted(os.path.join(folder, name) for folder in folders for name in os.listdir(folder) if name.endswith(".py") or name == "py.typed")
    for path in paths:
        with open(path, "rb") as file:
            yield os.path.relpath(path, HERE), file.read()


def recorded(name: str, data: bytes) -> str:
    """A file's line in the record."""
    digest = base64.urlsafe_b64encode(hashlib.sha256(data).digest()).rstrip(b"=").decode()
    return f"{name},sha256={digest},{len(data)}\n"


def make(prefix: str, folder: str) -> str:
    """Writes the wheel over the library at this prefix into the folder, and gives its path."""
    files: Dict[str, bytes] = dict(package())
    version = re.search(r'^__version__ = "(.*)"$', files["terncommode/__init__.py"].decode(), re.M)[1]  # type: ignore[index]
    with open(os.path.join(prefix, "lib", LIBRARY), "rb") as file:
        files[f"terncommode/{LIBRARY}"] = file.read()
    runs_on = platforms(files[f"terncommode/{LIBRARY}"])
    tags = "".join(f"Tag: py3-none-{platform}\n" for platform in runs_on)
    info = f"terncommode-{version}.dist-info"
    files[f"{info}/METADATA"] = metadata(version).encode()
    files[f"{info}/WHEEL"] = f"Wheel-Version: 1.0\nGenerator: make_wheel\nRoot-Is-Purelib: false\n{tags}".encode()
    files[f"{info}/entry_points.txt"] = b"[console_scripts]\nterncommode = terncommode.__main__:run\n"
    files[f"{info}/RECORD"] = ("".join(recorded(name, data) for name, data in files.items()) + f"{info}/RECORD,,\n").encode()
    os.makedirs(folder, exist_ok=True)
    wheel = os.path.join(folder, f"terncommode-{version}-py3-none-{'.'.join(runs_on)}.whl")
    with zipfile.ZipFile(wheel, "w", zipfile.ZIP_DEFLATED) as archive:
        for name, data in files.items():
            entry = zipfile.ZipInfo(name, (1980, 1, 1, 0, 0, 0))
            entry.compress_type, entry.external_attr = zipfile.ZIP_DEFLATED, (0o755 if name.endswith(LIBRARY) else 0o644) << 16
            archive.writestr(entry, data)
    return wheel


# ---- what pip calls


def build_wheel(wheel_directory: str, config_settings: Any = None, metadata_directory: Optional[str] = None) -> str:
    prefix = os.environ.get("TERNCOMMODE_DIR")
    if not prefix:
        raise SystemExit("terncommode: TERNCOMMODE_DIR isn't set. Place the library with `make_library DIR`, and set it to DIR")
    return os.path.basename(make(prefix, wheel_directory))


def build_sdist(sdist_directory: str, config_settings: Any = None) -> str:
    raise SystemExit("terncommode: there is no source distribution: the library is proved and built by make_library alone")
