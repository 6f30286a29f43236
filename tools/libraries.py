"""The libraries that `rt ci` has left in this tree, and the words by which rattle checks a crate over them.

`rt ci` proves every crate from nothing and leaves what it proved of each library in crates/NAME/out/rlib; of a program and of a static library it
leaves nothing of the kind. What is checked over these libraries rests on that gate's proofs of them."""
import os
import subprocess

TOP = os.path.dirname(os.path.dirname(os.path.realpath(__file__)))
SOURCES = ("src", "specs", "proofs")


def kit():
    """The folder of the toolchain."""
    return os.path.dirname(subprocess.run(["rt", "doc"], stdout=subprocess.PIPE, text=True, check=True).stdout.strip())


def listed():
    """What crates.txt says: of each crate the libraries that it stands on, those of the kit too."""
    uses = {}
    with open(f"{TOP}/crates.txt", encoding="utf-8") as file:
        for line in file:
            head, _, names = line.partition("#")[0].partition(":")
            if head.strip():
                uses[head.split()[0]] = names.split()
    return uses


def below(uses, name):
    """The crates of this repository below a crate, each after those that it stands on."""
    found = []
    for it in uses[name]:
        if it in uses:
            found += [each for each in (*below(uses, it), it) if each not in found]
    return found


def newest_source(name):
    """When a source of the crate, or a folder of sources, was last changed. The clock is that of changes, which no copy keeps."""
    places = [f"{TOP}/crates/{name}/{part}" for part in SOURCES]
    return max(os.stat(path).st_ctime for place in places for folder, _, files in os.walk(place) for path in (folder, *(f"{folder}/{file}" for file in files)))


def lack(crates, sources):
    """Why the libraries of these crates that lie in the tree needn't be those that a gate proved of these sources, or None. A library that rt ci has kept
    from an earlier run, by the checksums of all that it read, has files of that time, and a folder of the time when it was laid into this tree. A crate that
    stands on no other needs none."""
    made = {}
    for name in crates:
        folder = f"{TOP}/crates/{name}/out/rlib"
        try:
            os.stat(f"{folder}/{name}.rlib/format")
            made[name] = os.stat(f"{folder}/{name}.rlib").st_mtime
        except OSError:
            return f"rt ci has left no library {name} in this tree"
        if os.path.exists(f"{folder}/stamp"):
            return f"the library {name} is of another check than rt ci's: remove crates/{name}/out/rlib, and run rt ci"
    if not made:
        return None
    first = min(made.values())
    changed = [name for name in sources if newest_source(name) >= first]
    if changed or os.stat(f"{TOP}/crates.txt").st_ctime >= first:
        return f"{changed[0] if changed else 'crates.txt'} was changed after rt ci began"
    return None


def words(folder, uses, name):
    """What rattle is told of a crate and of the libraries below it, as `rt` tells it; the toolchain is in this folder."""
    root = "main" if os.path.isfile(f"{TOP}/crates/{name}/src/main.rt") else "lib"
    said = ["--crate-name", name, f"src/{root}.rt"]
    for it in ["std", *(it for it in uses[name] if it not in uses)]:
        said += ["--extern", f"{it}={folder}/rlibs/{it}.rlib"]
    said += ["-L", f"dependency={folder}/rlibs"]
    for it in (it for it in uses[name] if it in uses):
        said += ["--extern", f"{it}={TOP}/crates/{it}/out/rlib/{it}.rlib"]
    for it in below(uses, name):
        said += ["-L", f"dependency={TOP}/crates/{it}/out/rlib"]
    return said + ["--antt-project", f"{folder}/rattle/logic/antt-project.json", "--logic-built", f"{folder}/logic_built", "--links", f"{name}="]
