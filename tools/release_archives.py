"""Archives that have the same bytes whenever the same files are put into them: sorted, of root, at one time."""
import gzip
import io
import lzma
import tarfile
import zipfile
from typing import NamedTuple, Union


class File(NamedTuple):
    """A file of an archive."""

    data: bytes
    mode: int = 0o644


class Link(NamedTuple):
    """A symbolic link."""

    target: str


Files = dict[str, Union[File, Link]]


def read(path, mode=0o644):
    with open(path, "rb") as file:
        return File(file.read(), mode)


def sub(prefix, files):
    """The files below a folder of this name."""
    return {f"{prefix}/{name}": it for name, it in files.items()}


def folders(files):
    """The folders in which the files lie, outermost first."""
    found = set()
    for name in files:
        parts = name.split("/")[:-1]
        found |= {"/".join(parts[:k]) for k in range(1, len(parts) + 1)}
    return sorted(found - {"", "."})


def tar(files, time, with_folders=False):
    """A tar of the files."""
    out = io.BytesIO()
    with tarfile.open(fileobj=out, mode="w", format=tarfile.GNU_FORMAT) as archive:
        entries = {name: None for name in folders(files)} if with_folders else {}
        entries.update(files)
        for name in sorted(entries):
            it, entry = entries[name], tarfile.TarInfo(name)
            entry.mtime, entry.uname, entry.gname = time, "root", "root"
            if it is None:
                entry.type, entry.mode = tarfile.DIRTYPE, 0o755
            elif isinstance(it, Link):
                entry.type, entry.linkname, entry.mode = tarfile.SYMTYPE, it.target, 0o777
            else:
                entry.mode, entry.size = it.mode, len(it.data)
            archive.addfile(entry, io.BytesIO(it.data) if isinstance(it, File) else None)
    return out.getvalue()


def gzipped(data):
    out = io.BytesIO()
    with gzip.GzipFile(filename="", mode="wb", compresslevel=9, fileobj=out, mtime=0) as file:
        file.write(data)
    return out.getvalue()


def zipped(files):
    """A zip of the files; its times are the earliest that a zip can have."""
    out = io.BytesIO()
    with zipfile.ZipFile(out, "w", zipfile.ZIP_DEFLATED, compresslevel=9) as archive:
        for name in sorted(files):
            entry = zipfile.ZipInfo(name, (1980, 1, 1, 0, 0, 0))
            entry.compress_type, entry.external_attr, entry.create_system = zipfile.ZIP_DEFLATED, files[name].mode << 16, 3
            archive.writestr(entry, files[name].data)
    return out.getvalue()


def ar(members, time):
    """An archive of the program ar, as a package of Debian's is one."""
    out = b"!<arch>\n"
    for name, data in members:
        out += f"{name:<16}{time:<12}{0:<6}{0:<6}{'100644':<8}{len(data):<10}`\n".encode() + data + b"\n" * (len(data) % 2)
    return out


def deb(control, files, time):
    """A package of Debian's: what dpkg reads, and what it installs."""
    def packed(what):
        return lzma.compress(tar({f"./{name}": it for name, it in what.items()}, time, with_folders=True), preset=9, check=lzma.CHECK_CRC32)
    return ar([("debian-binary", b"2.0\n"), ("control.tar.xz", packed(control)), ("data.tar.xz", packed(files))], time)
