#!/usr/bin/env python3
"""Holds the documents to the tree: prints a line for each thing that a document says and the tree doesn't have, and ends with
status 1 where there is one. It proves nothing and takes some seconds. Where the program is built, the shell examples are run too.

usage: docs/check.py [--mend]

With --mend the counts that documents state, and the lines to which HEADLINE leads, are written anew first.
"""

import os
import re
import shutil
import subprocess
import sys
import tempfile

TOP = os.path.dirname(os.path.dirname(os.path.abspath(__file__)))
sys.dont_write_bytecode = True
sys.path.append(f"{TOP}/tools")
import usage  # noqa: E402
import where  # noqa: E402

DOCUMENTS = ["README.md", "SECURITY.md", "CHANGELOG.md"] + sorted(f"docs/{name}" for name in os.listdir(f"{TOP}/docs") if name.endswith(".md"))

# What two crates define alike.
ALIKE = {"bag_values", "is_letter", "left", "name_code", "right"}

# Types of code that have one name in several crates, with these crates; DECISIONS says why.
ALIKE_TYPES = {
    "Change": {"def_evolve", "table_calls"},
    "Pick": {"bag_model", "set_map_types"},
    "Place": {"atom_list", "baggage_cli", "place_calls"},
    "Span": {"bag_scan", "byte_calls"},
}

# What begins a sentence that can't be read without the one before it.
PRONOUNS = r"(?:They|Them|These|Those|This|That|It|Its|Such|Their|The same|Each of them|All of them|None of them|Both|Then|So|And|But|Likewise)\b"

# How long a line of a document may be, outside of tables and code.
LINE_MAX = 160

# What the examples in C take as given.
C_EXAMPLE = """#include "baggage_carriers.h"
#include <stdio.h>
#include <string.h>
void send(int channel, const void *bytes, size_t size, int flags);
void send_header(const char *name, const char *letters, size_t size);
void use(const uint8_t *bytes, size_t size);
void example(baggage_answer answer, const uint8_t *first, size_t first_len, const uint8_t *second, size_t second_len, const char *table,
             size_t table_len, const uint8_t *context, size_t context_len, const baggage_span *received, size_t received_count,
             const char *writes, size_t writes_len, const char *value, size_t value_len, uint64_t budget, int channel) {
    uint8_t room[1024];
    (void)room;
    {
%s    }
}
"""

usage.help(__doc__)
mends = sys.argv[1:] == ["--mend"]
if sys.argv[1:] and not mends:
    usage.refuse(__doc__)
texts, files = {}, {}
bad = []


def text_of(path):
    if path not in texts:
        with open(f"{TOP}/{path}", encoding="utf-8") as file:
            texts[path] = file.read()
    return texts[path]


def holds(document, pattern, right, what):
    """What the group of the pattern has in a document is right, or is made so."""
    text = text_of(document)
    found = re.search(pattern, text)
    if found and found.group(1) == right:
        return
    if found and mends:
        texts[document] = text[:found.start(1)] + right + text[found.end(1):]
        with open(f"{TOP}/{document}", "w", encoding="utf-8") as file:
            file.write(texts[document])
    else:
        bad.append(f"{document}: {what} is {right}" + ("" if found else ", and isn't told"))


def sources(*endings):
    """The paths of the files of all crates that end so, those that are made left out."""
    return sources_of("crates", *endings)


def sources_of(top, *endings):
    """The paths of the files below a folder that end so, those that are made left out."""
    if top not in files:
        files[top] = []
        for folder, folders, names in os.walk(f"{TOP}/{top}"):
            folders[:] = [name for name in folders if name != "out"]
            files[top] += [os.path.relpath(f"{folder}/{name}", TOP) for name in names]
    return [path for path in files[top] if path.endswith(endings)]


def crate_of(path):
    """The crate whose file it is, or whose wrong bodies."""
    return path.split("/")[1].removesuffix(".edits")


def defines(path, name):
    """Whether the file has a definition, a function or a type of that name; of an edit, whether it is the edit."""
    text, word = text_of(path), re.escape(name)
    if path.endswith(".edit"):
        return os.path.basename(path) == f"{name}.edit"
    if path.endswith(".edits"):
        return re.search(rf"(?m)^edit: {word}$", text)
    if path.endswith(".antt"):
        return re.search(rf"(?m)^\s*(?:(?:abbrev|unfoldable|mutual|pub|data|record) )*{word} ?[:({{]", text)
    return re.search(rf'(?m)^\s*(?:pub(?:\(crate\))? )?(?:extern "C" )?(?:fn|trait|enum|struct) {word}\b', text)


def anchors_of(path):
    """The anchors of a document's headings."""
    prose = re.sub(r"(?ms)^```.*?^```", "", text_of(path))
    return {re.sub(r"[^\w -]", "", heading.lower()).replace(" ", "-") for heading in re.findall(r"(?m)^#+ (.*)$", prose)}


def check_links():
    """Each link leads to a file, and to a heading of it where it says one; one whose text is a name to a file that has it."""
    for document in DOCUMENTS:
        for text, target in re.findall(r"\[([^\]]*)\]\(([^)]*)\)", text_of(document)):
            if re.match(r"[a-z]+:", target):
                continue
            name, _, anchor = target.partition("#")
            path = os.path.normpath(os.path.join(os.path.dirname(document), name)) if name else document
            if not os.path.exists(f"{TOP}/{path}"):
                bad.append(f"{document}: {target} isn't there")
            elif anchor and path.endswith(".md") and anchor not in anchors_of(path):
                bad.append(f"{document}: {path} has no heading for #{anchor}")
            elif re.fullmatch(r"`\w+`", text) and path.startswith(("crates/", "planted/")) and not defines(path, text.strip("`")):
                bad.append(f"{document}: {path} has no {text}")


def check_headline():
    """Each name in HEADLINE's table leads to the line that defines it; those of Rattle's std lead nowhere."""
    for names in re.findall(r"(?m)^\| ([^|]*`[^|]*) \| [^|]* \| [^|]* \|$", text_of("docs/HEADLINE.md").partition("| name | in | says |")[2].partition("\n\n")[0]):
        if "](" not in names and "Appends" not in names:
            bad.append(f"docs/HEADLINE.md: {names} leads to no definition")
        for name, path in re.findall(r"\[`(\w+)`\]\(\.\./([^)#]*)", names):
            found = os.path.exists(f"{TOP}/{path}") and defines(path, name)
            if found:
                line = text_of(path).count("\n", 0, found.end()) + 1
                holds("docs/HEADLINE.md", rf"\[`{name}`\]\(\.\./{re.escape(path)}([^)]*)\)", f"#L{line}", f"the line of {name}")


def check_lines():
    """No line of a document is so long that a diff of it can't be read, but in tables and in code."""
    for document in DOCUMENTS:
        prose = re.sub(r"(?ms)^ *```.*?^ *```", lambda block: "\n" * block.group(0).count("\n"), text_of(document))
        for number, line in enumerate(prose.split("\n"), 1):
            if LINE_MAX < len(line) and not line.lstrip().startswith("|"):
                bad.append(f"{document}:{number}: the line has {len(line)} characters; {LINE_MAX} are the most")


def check_names():
    """Each name of a definition or a call in MODEL, HEADLINE and PROMISES stands somewhere in the crates."""
    known = set()
    for path in sources(".antt", ".rt", ".edit") + sources_of("planted", ".edits"):
        known.update(re.findall(r"\w+", text_of(path)))
        known.update((os.path.basename(path).rsplit(".", 1)[0], crate_of(path)))
    for document in ["docs/MODEL.md", "docs/HEADLINE.md", "docs/PROMISES.md"]:
        prose = re.sub(r"(?ms)^```.*?^```", "", text_of(document))
        for name in dict.fromkeys(re.findall(r"`(?:\w+::)*(\w+)(?:\.edit)?`", prose)):
            if len(name) > 3 and not name.isdigit() and name not in known and not re.fullmatch(r"[0-9a-f]+", name):
                bad.append(f"{document}: nothing in crates/ or planted/ is named {name}")


def check_excerpts():
    """Each block of code in the README, in LIBRARY and in HEADLINE stands in a source, line by line."""
    paths = sources(".rt")
    stripped = ["\n".join(line.strip() for line in text_of(path).split("\n")) for path in paths]
    for document in ["README.md", "docs/LIBRARY.md", "docs/HEADLINE.md"]:
        for kind, block in re.findall(r"(?ms)^```(\w*)\n(.*?)^```", text_of(document)):
            if kind == "rust" or block.startswith("ensures "):
                lines = "\n".join(line.strip() for line in block.strip().split("\n"))
                if not any(lines in text for text in stripped):
                    bad.append(f"{document}: no source has the code that begins with {block.splitlines()[0]!r}")


def check_shown():
    """What README shows of a definition and of a graph is in examples/, line by line."""
    known = set("\n".join(text_of(path) for path in sources_of("examples", ".bdl", ".graph")).split("\n"))
    for block in re.findall(r"(?ms)^```\n((?:bag|service) .*?)^```", text_of("README.md")):
        bad.extend(f"README.md: no file of examples/ has the line {line!r}" for line in block.split("\n") if line not in known | {"..", ""})


def check_crates():
    """The map of crates names each crate, and nothing else."""
    listed = set(re.findall(r"(?m)^(\w+)[^:\n#]*:", text_of("crates.txt")))
    layers = text_of("docs/CRATES.md")
    named = {name for row in re.findall(r"(?m)^\|[^|]*\|([^|]*)\|", layers) for name in re.findall(r"`(\w+)`", row)}
    bad.extend(f"docs/CRATES.md: the map of crates lacks {name}" for name in sorted(listed - named))
    bad.extend(f"docs/CRATES.md: the map of crates names {name}, which crates.txt doesn't" for name in sorted(named - listed))


def layers_below(layer, edges):
    """The layers that a layer stands on, itself or by others."""
    return set().union(*({other} | layers_below(other, edges) for other in edges.get(layer, ())))


def check_layers():
    """The drawing has an arrow between two layers exactly where a crate stands on a crate, and no longer way leads there."""
    page, layers, edges, layer = text_of("docs/CRATES.md").partition("## Files")[0], {}, {}, ""
    for name, crates in re.findall(r"(?m)^\| ?([\w ]*?) ?\|((?: `\w+`,?)+) \|", page):
        layer = name or layer
        layers.update(dict.fromkeys(re.findall(r"\w+", crates), layer))
    for crate, libraries in re.findall(r"(?m)^(\w+)[^:\n#]*:(.*)$", text_of("crates.txt")):
        edges.setdefault(layers.get(crate), set()).update(layers[name] for name in libraries.split() if name in layers)
    edges = {layer: others - {layer} for layer, others in edges.items() if layer != "tests"}
    longer = {layer: set().union(*(layers_below(other, edges) for other in edges[layer])) for layer in edges}
    true = {(layer, other) for layer in edges for other in edges[layer] - longer[layer]}
    rows = [re.split(r" ─*► ", row.strip()) for row in re.findall(r"(?ms)^```\n(.*?)^```", page)[0].strip().split("\n")]
    drawn = {pair for row in rows for pair in zip(row, row[1:])}
    bad.extend(f"docs/CRATES.md: the drawing lacks the arrow from {one} to {other}" for one, other in sorted(true - drawn))
    bad.extend(f"docs/CRATES.md: the drawing has an arrow from {one} to {other}" for one, other in sorted(drawn - true))


def stems(folder, ending, skipped):
    """The names of the files of a folder without their ending, but for these."""
    names = (os.path.basename(path) for path in sources(ending) if path.startswith(f"crates/{folder}/"))
    return {name.removesuffix(ending) for name in names} - skipped


def check_files():
    """The map of files has those of each crate that has definitions of its own."""
    rows = re.findall(r"(?m)^\| `(\w+)` \| ([\w, ]+) \| ([\w, ]+) \|$", text_of("docs/CRATES.md").partition("## Files")[2])
    told = {crate: (set(definitions.split(", ")), set(code.split(", "))) for crate, definitions, code in rows}
    for crate in sorted(os.listdir(f"{TOP}/crates")):
        definitions = stems(f"{crate}/specs", ".antt", {"Lib"})
        code = stems(f"{crate}/src", ".rt", {"lib", "laws"}) or {"lib"}
        if definitions and told.get(crate) != (definitions, code):
            bad.append(f"docs/CRATES.md: the files of {crate} are {sorted(definitions)} and {sorted(code)}")


def check_libraries():
    """Each line of crates.txt lists the libraries that a file of the crate or a planted bug of it names, and no others."""
    code = {}
    for path in sources(".rt", ".antt", ".edit") + sources_of("planted", ".edits"):
        code.setdefault(crate_of(path), []).append(re.sub(r"(?m)^\s*(//|--).*$", "", text_of(path)))
    for crate, libraries in re.findall(r"(?m)^(\w+)[^:\n#]*:(.*)$", text_of("crates.txt")):
        named = {name for way in (r"\bRattle\.(\w+)", r"\b(\w+)::", r"\buse (\w+)") for name in re.findall(way, "\n".join(code.get(crate, [])))}
        bad.extend(f"crates.txt: {crate} lists {name}, which no file of it names" for name in libraries.split() if name not in named)


def defined_in(text):
    """The names that a file of definitions defines, those in its blocks of definitions that name one another too."""
    names, in_block = set(), False
    for line in text.split("\n"):
        if line[:1].strip():
            in_block = bool(re.match(r"(?:\w+ )*mutual\b", line))
            found = not in_block and re.match(r"(?:(?:pub|abbrev|unfoldable|data|record) )*([^\s:({=]+) ?[:({]", line)
        else:
            found = in_block and re.match(r"  (?:(?:pub|data|record) )*([^\s:({=]+) [:({](?!.*=)", line)
        if found:
            names.add(found.group(1))
    return names


def declared_in(text):
    """The definitions of a file in their order: each with its name and the comment right above it, or above its block."""
    found, comment, in_block = [], [], False
    for line in text.split("\n"):
        word = line.strip()
        if word.startswith("--"):
            comment = [] if word.startswith("-- ----") else comment + [word.removeprefix("--").strip()]
            continue
        opens = re.match(r"(?:\w+ )*(?:mutual|module)\b", line)
        if line[:1].strip():
            in_block = bool(opens)
        indent = "  " if in_block else ""
        told = not opens and re.match(rf"{indent}(?:(?:abbrev|unfoldable|pub) )*(?:(?:data|record) ([^\s:({{]+)|(\S+) : )", line)
        if told:
            found.append((told.group(1) or told.group(2), " ".join(comment)))
        if not opens or "module" in line:
            comment = []
    return found


def check_sentences():
    """Above each definition stands a sentence with its own subject, so that it can be read alone."""
    for path in sources(".antt"):
        if path.split("/")[2] == "specs":
            for name, comment in declared_in(text_of(path)):
                if not comment.endswith("."):
                    bad.append(f"{path}: {name} has no sentence above it")
                elif re.match(PRONOUNS, comment):
                    bad.append(f"{path}: the sentence above {name} says {comment.split()[0]} for its subject")


def check_definitions():
    """No name of a definition stands in two crates, but for those above."""
    crates = {}
    for path in sources(".antt"):
        if path.split("/")[2] == "specs":
            for name in defined_in(text_of(path)):
                crates.setdefault(name, set()).add(path.split("/")[1])
    for name in sorted(crates.keys() - ALIKE):
        if 1 < len(crates[name]):
            bad.append(f"crates/: {' and '.join(sorted(crates[name]))} define {name}")
    bad.extend(f"docs/check.py: no two crates define {name}" for name in sorted(ALIKE) if len(crates.get(name, ())) < 2)


def types_of():
    """Of each crate: its public types, those that it hands on, and those that its clauses cite, each with its crate."""
    types, handed, cited = {}, {}, {}
    for path in sources(".rt", ".antt"):
        crate, text = path.split("/")[1], re.sub(r"(?m)^\s*(//|--).*$", "", text_of(path))
        if path.endswith(".rt"):
            found = re.findall(r"(?m)^ *pub (?:struct|enum|trait|union|type) (\w+)", text)
            types.setdefault(crate, set()).update((crate, name) for name in found)
            for library, names in re.findall(r"\bpub use (\w+)::([^;]*);", text):
                handed.setdefault(crate, set()).update((library, name) for name in re.findall(r"\w+", names))
        cites = re.findall(r"\bRattle\.(\w+)\.specs\.declared\.(?:\w+\.)*?(\w+)\.\{", text)
        cited.setdefault(crate, set()).update(cites)
    return types, handed, cited


def check_types():
    """No public type of code has the name of another one that is in reach of the same crate, but for those above."""
    types, handed, cited = types_of()
    every, alike = set().union(*types.values()), set()

    def given(crate):
        ways = [(library, name) for library, name in handed.get(crate, ()) if library in types and library != crate]
        return types.get(crate, set()).union(*({one for one in given(library) if one[1] == name} for library, name in ways))

    for crate, libraries in re.findall(r"(?m)^(\w+)[^:\n#]*:(.*)$", text_of("crates.txt")):
        reach, homes = (cited.get(crate, set()) & every).union(*map(given, [crate, *libraries.split()])), {}
        for home, name in reach:
            homes.setdefault(name, set()).add(home)
        for name, several in sorted(homes.items()):
            if 1 < len(several):
                alike.update((name, home) for home in several)
                if not several <= ALIKE_TYPES.get(name, set()):
                    bad.append(f"crates/: {crate} has {' and '.join(sorted(several))} in reach, which define types named {name}")
    listed = {(name, home) for name, several in ALIKE_TYPES.items() for home in several}
    bad.extend(f"docs/check.py: {name} of {home} has no namesake" for name, home in sorted(listed - alike))


def check_codes():
    """CODES has a section for each code in a table of FORMATS, in alphabetical order, and no others: a sentence, and an input that gives it."""
    codes = set(re.findall(r"(?m)^ *\| `([A-Z][A-Za-z0-9]+)` \|", text_of("docs/FORMATS.md")))
    sections = re.findall(r"(?m)^## `(\w+)`\n\n(.*)$", text_of("docs/CODES.md"))
    named = [code for code, _ in sections]
    for section in text_of("docs/CODES.md").split("\n## ")[1:]:
        if "\n$ " not in section:
            bad.append(f"docs/CODES.md: no input is shown that gives {section.split(chr(10))[0]}")
    bad.extend(f"docs/CODES.md: there is no section for {code}" for code in sorted(codes - set(named)))
    told = set(re.findall(r"`([A-Z][A-Za-z0-9]+)[` ]", text_of("docs/FORMATS.md")))
    bad.extend(f"docs/CODES.md: FORMATS has no code {code}" for code in sorted(set(named) - told))
    bad.extend(f"docs/CODES.md: the sentence of {code} has no end" for code, sentence in sections if not sentence.endswith("."))
    if named != sorted(named, key=str.lower):
        bad.append("docs/CODES.md: the sections aren't in alphabetical order")


def check_counts():
    """Counts that documents state are those of the tree: wrong bodies, rows, cases, lines of an example, a median."""
    planted = sum(len(re.findall("(?m)^edit: ", text_of(path))) for path in sources_of("planted", ".edits"))
    kept = len([path for path in sources(".edit") if "/must-fail/" in path])
    holds("README.md", r"([0-9,]+)\s+wrong\s+bodies", f"{planted + kept:,}", "the number of wrong bodies that are kept")
    holds("README.md", r"The\s+gate\s+tries\s+([0-9]+)", f"{kept}", "the number of wrong bodies that the gate tries")
    holds("docs/TESTING.md", r"([0-9,]+) are kept", f"{planted + kept:,}", "the number of wrong bodies that are kept")
    holds("docs/TESTING.md", r"the gate tries ([0-9]+)", f"{kept}", "the number of wrong bodies that the gate tries")
    for path in sorted(sources_of("crates/rows_program", ".rows") + sources_of("vectors/program", ".rows")):
        file, count = os.path.basename(path), len(re.findall(r"(?m)^call ", text_of(path)))
        if file not in ("empty.rows", "must_differ.rows"):
            holds("vectors/README.md", rf"\| `{file}` \| (\d+) \|", f"{count}", f"the number of rows of {file}")
    cases = sum(text_of(path).count("\n") for path in sources_of("vectors/corpus", ""))
    holds("docs/TESTING.md", r"\| the corpus[^|]*\| ([0-9,]+) \|", f"{cases:,}", "the number of cases of the corpus")
    index = [re.split(r"(?<!\\)\|", line)[1:-1] for line in re.findall(r"(?m)^\| (?!rule).*\|$", text_of("docs/INDEX.md"))]
    without = [sum(not row[column].strip() for row in index) for column in (-2, -1)]
    holds("docs/INDEX.md", r"Of\s+the\s+(\d+)\s+rows", f"{len(index)}", "the number of rows")
    holds("docs/INDEX.md", r"(\d+)\s+have\s+no\s+test", f"{without[0]}", "the number of rows without a test")
    holds("docs/INDEX.md", r"(\d+)\s+have\s+no\s+wrong", f"{without[1]}", "the number of rows without a wrong body")
    codec = re.search(r"(?ms)^impl Codec .*?^\}$", text_of("crates/type_tests/src/priorities.rt"))
    holds("docs/LIBRARY.md", r"an impl of (\d+)\s+lines", f"{codec.group(0).count(chr(10)) + 1}", "the length of the impl in priorities.rt")
    table = text_of("docs/SPEED.md").partition("| command | input | times |")[2].partition("\n\n")[0]
    figures = sorted(re.findall(r"\b\d+\.\d\d\b", table), key=float)
    holds("docs/SPEED.md", r"The\s+median\s+of\s+these\s+is\s+(\d+\.\d+)", figures[len(figures) // 2], f"the median of the table's {len(figures)} figures")


def check_c():
    """Each name of the library in an example in C is in a header; and where a compiler is there, the examples are compiled."""
    headers = text_of("include/baggage.h") + text_of("bindings/c/baggage_carriers.h")
    compiler = shutil.which("cc")
    for document in DOCUMENTS + ["bindings/README.md"]:
        blocks = re.findall(r"(?ms)^```c\n(.*?)^```", text_of(document))
        for name in sorted(set(re.findall(r"\b(?:baggage|BAGGAGE)_[A-Za-z_]\w+", "".join(blocks)))):
            if name != "baggage_carriers" and not re.search(rf"\b{name}\b", headers):
                bad.append(f"{document}: the headers have no {name}")
        for block in blocks if compiler else []:
            code = C_EXAMPLE % re.sub(r"(?m)^#include .*\n", "", block)
            command = [compiler, "-std=c99", "-fsyntax-only", "-Wall", "-Werror", "-Wno-unused", f"-I{TOP}/include", f"-I{TOP}/bindings/c", "-xc", "-"]
            ran = subprocess.run(command, input=code, capture_output=True, text=True, check=False)
            if ran.returncode:
                bad.append(f"{document}: the example that begins with {block.splitlines()[0]!r} isn't C: {ran.stderr.splitlines()[-1] if ran.stderr else ''}")


def check_examples():
    """Each shell example prints what is below it, where the program is built; how many ran is printed."""
    program = where.program()
    if not program:
        print("check.py: the examples are skipped: the program isn't built", file=sys.stderr)
        return
    ran_count, environment = 0, {**os.environ, "BAGGAGE": program}
    for document in DOCUMENTS:
        with tempfile.TemporaryDirectory() as folder:
            os.symlink(program, f"{folder}/baggage")
            os.symlink(f"{TOP}/examples", f"{folder}/examples")
            os.symlink(f"{TOP}/tools", f"{folder}/tools")
            for block in re.findall(r"(?ms)^```\n(\$ .*?)^```", text_of(document)):
                for example in re.split(r"(?m)^\$ ", block)[1:]:
                    command, _, expected = example.partition("\n")
                    ran = subprocess.run(["bash", "-c", command], cwd=folder, env=environment, capture_output=True, text=True, timeout=1200)
                    ran_count += 1
                    if ran.stdout + ran.stderr != expected:
                        bad.append(f"{document}: {command!r} prints {(ran.stdout + ran.stderr)[:200]!r}")
    if not ran_count:
        bad.append("docs/: there is no example to run")
    print(f"check.py: {ran_count} examples ran", file=sys.stderr)


for check in (check_links, check_headline, check_lines, check_names, check_excerpts, check_shown, check_crates, check_layers, check_files,
              check_libraries, check_definitions, check_types, check_sentences, check_codes, check_counts, check_c, check_examples):
    check()
for line in bad:
    print(line)
sys.exit(1 if bad else 0)
