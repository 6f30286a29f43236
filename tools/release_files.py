"""The packages of a release, each as its name and its bytes, over what tools/build_targets has built."""
import hashlib
import importlib.util
import os
import re
import shutil
import subprocess
import tempfile

import libraries
from release_archives import File, Link, deb, gzipped, read, sub, tar, zipped

TOP = libraries.TOP
SHORT = "contexts that follow a request: merged, cut and read"
LONG = """ A context is what a request carries along through services. Where branches of
 a request join, their contexts are merged; where a channel has a budget, a
 context is cut to it. A field that reads as exact is exactly the join of all
 that was written on the ways to it. What the library answers is proved."""


class Release:
    """What all packages of a release share: its version, when its commit was made and by whom, and where what was built lies."""

    def __init__(self, version, commit, built):
        self.version, self.commit, self.built = version, commit, built
        said = subprocess.run(["git", "-C", os.environ.get("TREE", TOP), "show", "-s", "--format=%ct%n%an <%ae>%n%cD", commit], stdout=subprocess.PIPE, text=True, check=True)
        time, self.maker, self.date = said.stdout.splitlines()
        self.time = int(time)
        self.targets = [line.split() for line in self.run("tools/targets").splitlines() if os.path.isdir(f"{built}/{line.split()[0]}")]

    @staticmethod
    def run(*words, **how):
        return subprocess.run([f"{TOP}/{words[0]}", *words[1:]], stdout=subprocess.PIPE, text=True, check=True, **how).stdout

    @staticmethod
    def column(triple, name):
        return Release.run("tools/targets", triple, name).strip()


def stripped(release, triple, path):
    """A shared library without the names that no one needs to link."""
    tool = release.column(triple, "tools") + "strip"
    with tempfile.TemporaryDirectory() as folder:
        subprocess.run([tool, "--strip-unneeded", "-o", f"{folder}/it", path], check=True)
        return read(f"{folder}/it", 0o755)


def headers(release):
    """The header of the library, and the packages over it for C and C++."""
    place = f"{release.built}/{release.targets[0][0]}/include"
    return {name: read(f"{place}/{name}") for name in sorted(os.listdir(place))}


def shared_library(release, triple):
    """The shared library and its links."""
    name, major = f"libbaggage.so.{release.version}", release.version.split(".")[0]
    return {name: stripped(release, triple, f"{release.built}/{triple}/lib/{name}")._replace(mode=0o644), f"libbaggage.so.{major}": Link(name)}


def development(release, triple):
    """What a compiler needs, below the folder of libraries."""
    place = f"{release.built}/{triple}/lib"
    return {"libbaggage.so": Link(f"libbaggage.so.{release.version.split('.')[0]}"), "libbaggage.a": read(f"{place}/libbaggage.a"),
            "pkgconfig/baggage.pc": read(f"{place}/pkgconfig/baggage.pc"),
            **{f"cmake/baggage/{name}": read(f"{place}/cmake/baggage/{name}") for name in sorted(os.listdir(f"{place}/cmake/baggage"))}}


def calls():
    with open(f"{TOP}/include/baggage.h", encoding="utf-8") as file:
        return sorted(set(re.findall(r"(?m)^(?:BAGGAGE_NODISCARD )?(?:static inline )?[\w ]+?\*? ?(baggage_[a-z_]+)\(", file.read())))


def pages(folder, packed):
    """The pages of section 3: the library's, and a link to it for each call."""
    end = ".gz" if packed else ""
    page = read(f"{TOP}/docs/libbaggage.3")
    return {f"{folder}/libbaggage.3{end}": File(gzipped(page.data)) if packed else page, **{f"{folder}/{name}.3{end}": Link(f"libbaggage.3{end}") for name in calls()}}


# ---- an archive for each processor

def plain(release, triple):
    machine, place = release.column(triple, "machine"), f"{release.built}/{triple}"
    files = {**sub("include", headers(release)), **sub("lib", {**shared_library(release, triple), **development(release, triple)}), **pages("share/man/man3", False),
             "share/baggage/VERSION": read(f"{place}/share/baggage/VERSION")}
    if os.path.isfile(f"{place}/bin/baggage"):
        files |= {"bin/baggage": read(f"{place}/bin/baggage", 0o755), "share/man/man1/baggage.1": read(f"{TOP}/docs/baggage.1"),
                  "share/bash-completion/completions/baggage": read(f"{TOP}/docs/baggage.completion")}
    name = f"terncommode-{release.version}-linux-{machine}"
    return f"{name}.tar.gz", gzipped(tar(sub(name, files), release.time))


# ---- Debian

def documents(release, package):
    """The two files that each package has: no licence has been chosen, and there is one entry of changes."""
    changes = f"terncommode ({release.version}-1) unstable; urgency=medium\n\n  * Commit {release.commit}.\n\n -- {release.maker}  {release.date}\n"
    rights = "No licence has been chosen for Terncommode yet, so no rights are given.\nCopyright: the authors of its commits.\n"
    return {f"usr/share/doc/{package}/changelog.Debian.gz": File(gzipped(changes.encode())), f"usr/share/doc/{package}/copyright": File(rights.encode())}


def package(release, triple, name, section, depends, what, files, **others):
    """A package of Debian's. `others` are further files that dpkg reads."""
    files = {**files, **documents(release, name)}
    architecture = release.column(triple, "debian")
    size = sum(len(it.data) if isinstance(it, File) else 1 for it in files.values()) // 1024 + 1
    multi = "foreign" if section == "utils" else "same"
    control = (f"Package: {name}\nSource: terncommode\nVersion: {release.version}-1\nArchitecture: {architecture}\nMaintainer: {release.maker}\nInstalled-Size: {size}\n"
               f"Depends: {depends}\nSection: {section}\nPriority: optional\nMulti-Arch: {multi}\nDescription: {what}\n{LONG}\n")
    sums = "".join(f"{hashlib.md5(it.data).hexdigest()}  {path}\n" for path, it in sorted(files.items()) if isinstance(it, File))
    meta = {"control": File(control.encode()), "md5sums": File(sums.encode()), **{path: File(text.encode()) for path, text in others.items()}}
    return f"{name}_{release.version}-1_{architecture}.deb", deb(meta, files, release.time)


def debian(release, triple):
    """The packages of a processor: the library, what a compiler needs, and the program."""
    multiarch = release.column(triple, "tools").rstrip("-")
    place, major, lib = f"{release.built}/{triple}", release.version.split(".")[0], f"usr/lib/{multiarch}"
    name = f"libbaggage{major}"
    yield package(release, triple, name, "libs", "libc6", f"{SHORT} (library)", sub(lib, shared_library(release, triple)),
                  shlibs=f"libbaggage {major} {name} (>= {release.version})\n", triggers="activate-noawait ldconfig\n")
    files = {**sub("usr/include", headers(release)), **sub(lib, development(release, triple)), **pages("usr/share/man/man3", True)}
    described = files[f"{lib}/pkgconfig/baggage.pc"].data.decode().replace("prefix=${pcfiledir}/../..\nlibdir=${prefix}/lib", f"prefix=/usr\nlibdir=${{prefix}}/lib/{multiarch}")
    files[f"{lib}/pkgconfig/baggage.pc"] = File(described.encode())
    yield package(release, triple, "libbaggage-dev", "libdevel", f"{name} (= {release.version}-1)", f"{SHORT} (headers)", files)
    if os.path.isfile(f"{place}/bin/baggage"):
        yield package(release, triple, "baggage", "utils", "libc6 (>= 2.34)", f"{SHORT}", {
            "usr/bin/baggage": stripped(release, triple, f"{place}/bin/baggage"), "usr/share/man/man1/baggage.1.gz": File(gzipped(read(f"{TOP}/docs/baggage.1").data)),
            "usr/share/bash-completion/completions/baggage": read(f"{TOP}/docs/baggage.completion")})


# ---- Python

def wheel(release, triple):
    spec = importlib.util.spec_from_file_location("wheels", f"{TOP}/bindings/python/wheels.py")
    wheels = importlib.util.module_from_spec(spec)
    spec.loader.exec_module(wheels)
    with tempfile.TemporaryDirectory() as folder:
        os.makedirs(f"{folder}/lib")
        library = shared_library(release, triple)[f"libbaggage.so.{release.version}"]
        with open(f"{folder}/lib/{wheels.LIBRARY}", "wb") as file:
            file.write(library.data)
        made = wheels.make(folder, folder)
        return os.path.basename(made), read(made).data


# ---- Node

def npm(release):
    """The tarball that npm packs, with the module."""
    with tempfile.TemporaryDirectory() as folder:
        made = release.run("bindings/js/pack", folder, f"{release.built}/baggage.wasm").strip()
        return os.path.basename(made), read(made).data


# ---- Java

def jar(release):
    """The jar, with the library for each processor inside."""
    name = f"terncommode-{release.version}.jar"
    with tempfile.TemporaryDirectory() as folder:
        release.run("bindings/java/make_jar", f"{folder}/{name}", *(f"{release.built}/{row[0]}" for row in release.targets))
        return name, read(f"{folder}/{name}").data


# ---- Rust

def crate(release, name):
    """A crate as cargo packs it, with the archive of each processor inside: it may lie in a folder of vendored crates."""
    place, files = f"{TOP}/bindings/rust/{name}", {}
    for folder, _, names in os.walk(place):
        files |= {os.path.relpath(f"{folder}/{it}", place): read(f"{folder}/{it}") for it in names}
    described = files["Cargo.toml"].data.decode()
    for key, value in re.findall(r'(?m)^([a-z-]+) = (".*")$', read(f"{TOP}/bindings/rust/Cargo.toml").data.decode()):
        described = re.sub(rf"(?m)^{key}\.workspace = true$", f"{key} = {value}", described)
    files["Cargo.toml"] = File(described.replace('path = "../terncommode-sys", ', "").encode())
    files[".cargo-checksum.json"] = File(b'{"files":{}}\n')
    if name == "terncommode-sys":
        files |= {f"lib/{row[0]}/libbaggage.a": read(f"{release.built}/{row[0]}/lib/libbaggage.a") for row in release.targets}
    full = f"{name}-{release.version}"
    return f"{full}.crate", gzipped(tar(sub(full, files), release.time))


# ---- Go

def go_module(release):
    """The module, which finds the archive of each processor in itself in place of by pkg-config."""
    place, files = f"{TOP}/bindings/go", {}
    for folder, inner, names in os.walk(place):
        inner[:] = [it for it in inner if folder != place or it != "tests"]
        files |= {os.path.relpath(f"{folder}/{it}", place): read(f"{folder}/{it}") for it in names}
    lines = "".join(f"// #cgo linux,{release.column(row[0], 'debian')} LDFLAGS: ${{SRCDIR}}/lib/{row[0]}/libbaggage.a\n" for row in release.targets)
    files["pkgconfig.go"] = File(f'//go:build !terncommode_flags\n\npackage terncommode\n\n// #cgo CFLAGS: -I${{SRCDIR}}/include\n{lines}import "C"\n'.encode())
    files |= {f"lib/{row[0]}/libbaggage.a": read(f"{release.built}/{row[0]}/lib/libbaggage.a") for row in release.targets}
    files |= sub("include", headers(release))
    return f"terncommode-go-{release.version}.zip", zipped(sub("terncommode", files))


def can_make(what, tool):
    """Whether a package's own tool is here; what isn't made without it is said in a line."""
    if not shutil.which(tool):
        print(f"release: {what} is skipped: there is no {tool}")
        return False
    return True


def all_of(release):
    """Each package of the release."""
    for row in release.targets:
        yield plain(release, row[0])
        yield from debian(release, row[0])
        yield wheel(release, row[0])
    yield crate(release, "terncommode-sys")
    yield crate(release, "terncommode")
    yield go_module(release)
    if can_make("the jar", "javac"):
        yield jar(release)
    if os.path.isfile(f"{release.built}/baggage.wasm"):
        if can_make("the tarball for npm", "npm"):
            yield npm(release)
        yield "baggage.wasm", read(f"{release.built}/baggage.wasm").data
