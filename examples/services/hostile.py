"""Files and inputs that strangers may have made, and what the tools say of them: never a traceback, never a hang, and no letter that a terminal obeys."""
import os
import re
import resource
import signal
import subprocess
import tempfile
import xml.etree.ElementTree
from typing import Callable, List, Optional, Tuple

TOP = os.path.dirname(os.path.dirname(os.path.dirname(os.path.abspath(__file__))))
SECONDS = 300
LONG = "9" * 5000
TURNED = "\x1b]0;x\x07 \x9b31m \u202e \u2028 \ufffe \uffff"
NAMES = ["examples/checkout.bdl", "Checkout"]
GRAPH = "service a all\nstart 0 a\nset 1 0 tags \"" + "\x80\x9b \u202e \u2028 \ufffe \uffff <&>" + "\"\nset 2 1 hops 0x01:1\nshow 2\n"
# A context of some 2,000 bytes at each of 290 steps: what is drawn of it doesn't grow as the product of both.
MANY = "service a all\nstart 0 a\n" + "".join(f'set {n} {n - 1} load "k{n:03}":{n}\n' for n in range(1, 251))
MANY += "".join(f"branch {n} {n - 1}\n" for n in range(251, 541))
SAID_MAX = 1_500_000


def text(content: str) -> Callable[[str], None]:
    def write(path: str) -> None:
        with open(path, "w", encoding="utf-8", errors="surrogateescape") as file:
            file.write(content)
    return write


def sparse(path: str) -> None:
    with open(path, "wb") as file:
        file.truncate(1 << 40)


def zeros(path: str) -> None:
    os.symlink("/dev/zero", path)


# The log that is in a folder, and how the tool's refusal begins.
LOGS: List[Tuple[Callable[[str], None], str]] = [
    (os.mkfifo, "FOLDER/x.log: it is no regular file\n"),
    (zeros, "FOLDER/x.log: it is no regular file\n"),
    (os.mkdir, "[Errno 21] Is a directory: "),
    (sparse, "FOLDER/x.log: it has more than 1073741824 bytes\n"),
    (text("\0" * (1 << 23)), "x.log:1: the line is too long\n"),
    (text(f"a.{LONG}\tstart\t-\t-\t-\n"), "x.log:1: a.99999"),
    (text(f"{TURNED}\tstart\t-\t-\t-\n"), "x.log:1: \\x1b]0;x\\x07 \\x9b31m \\u202e \\u2028 \\ufffe \\uffff is no name of a step"),
    (text(f"a.1\tforward\t{TURNED}\t-\n"), "x.log:1: a line has five fields with tabs between them\n"),
    (text(f"a.1\tset\t{TURNED.replace(' ', '')}\tid 7\t-\n"), "a.1 set: its parent \\x1b]0;x\\x07\\x9b31m"),
    (text(f"a.1\tstart\t-\t{TURNED}\t-\n"), "x.log:1: a.1: no step has the form a.1\\x09start\\x09-\\x09\\x1b]0"),
]

# A certificate, and how what the tool draws or says begins.
CERTIFICATES: List[Tuple[Callable[[str], None], str]] = [
    (os.mkfifo, "draw: FOLDER/x.log: it is no regular file\n"),
    (zeros, "draw: FOLDER/x.log: it is no regular file\n"),
    (lambda path: None, "draw: [Errno 2] No such file or directory: "),
    (text("why \u00b2 hops\n"), "<svg "),
    (text(f"why {LONG} hops\nreach {LONG} \u00b2\nuses {LONG}\n"), "<svg "),
    (text(f"why 2 hops\nreach 0 {LONG}\n{TURNED}\n"), "<svg "),
    (text("why 2 hops\n\udcff\udcfe\n"), "<svg "),
]

# Words of a tool with its input, and how what it says begins.
INPUTS: List[Tuple[List[str], str, str]] = [
    (["draw", "--from", LONG, *NAMES], GRAPH, "usage: tools/draw"),
    (["draw", "--to", "\u00b2", *NAMES], GRAPH, "usage: tools/draw"),
    (["draw", *NAMES], GRAPH, "<svg "),
    (["draw", *NAMES], MANY, "<svg "),
    (["draw", "--why", LONG, "hops", *NAMES], GRAPH, ""),
    (["draw", *NAMES], "\udcff", ""),
    (["draw", "--cut", LONG, *NAMES], "00\n", ""),
    (["draw", "--tree", *NAMES], "02f80102000a61\n", ""),
    (["accessors", "c", "x"], f"baggage table 1\n{LONG} 0 a taint\n", "accessors: "),
    (["accessors", "c", "x"], f"baggage table 1\n0 {LONG} a taint\n", "accessors: "),
    (["accessors", "go", "x"], f"baggage table 1\n0 0 {TURNED} taint\n", "accessors: "),
    (["accessors", "rust", "x"], "\0\udcff" + TURNED, "accessors: "),
    (["accessors", "cpp", TURNED], "baggage table 1\n", "usage: tools/accessors"),
]

# What a tool finds when it starts, and what it says then.
MEMORY = 24 << 20
TROUBLES: List[Tuple[Callable[[], None], str]] = [
    (lambda: os.close(0), "TOOL: the standard input is closed\n"),
    (lambda: os.close(1), "TOOL: the standard output is closed\n"),
    (lambda: resource.setrlimit(resource.RLIMIT_AS, (MEMORY, MEMORY)), ""),
]
READERS: List[Tuple[List[str], str]] = [(["draw", *NAMES], GRAPH), (["draw", "--tree"], "02f800\n"), (["accessors", "c", "x"], "baggage table 1\n0 0 a taint\n")]

# A command in the place of the program, and how what tools/draw says of it begins.
PROGRAMS: List[Tuple[str, str]] = [
    ("kill -9 $$", "draw: FOLDER/x.log was ended by signal 9\n"),
    ("printf '\\033]0;x'", "draw: FOLDER/x.log answers "),
    ("exit 3", ""),
]
OBEYED = re.compile("[\x00-\x08\x0b-\x1f\x7f-\x9f\u2028\u2029\u202a-\u202e\u2066-\u2069\ufffe\uffff]")


def said_by(words: List[str], given: str, folder: str, program: str, first: Optional[Callable[[], None]] = None) -> str:
    """What a tool says, with FOLDER for the folder. What is to be done first is done in its process."""
    ran = subprocess.run([f"{TOP}/tools/{words[0]}", *words[1:]], input=given.encode(errors="surrogateescape"), capture_output=True, cwd=TOP, check=False,
                         timeout=SECONDS, env={**os.environ, "BAGGAGE": program}, preexec_fn=first)
    return (ran.stdout or ran.stderr).decode(errors="surrogateescape").replace(folder, "FOLDER")


def fault_of(said: str, wanted: str) -> str:
    """What is wrong with what a tool says."""
    if "Traceback" in said:
        return "it ends in a traceback"
    if OBEYED.search(said):
        return "a letter is in it that a terminal obeys"
    if len(said) > SAID_MAX:
        return f"it has {len(said)} letters"
    if not said.startswith(wanted):
        return f"it isn't {wanted!r}"
    try:
        if said.startswith("<svg "):
            xml.etree.ElementTree.fromstring(said)
        return ""
    except xml.etree.ElementTree.ParseError as error:
        return f"the picture isn't well formed: {error}"


def interrupted(words: List[str]) -> str:
    """What is wrong with a tool that is interrupted while it reads: it ends by the signal, and says nothing."""
    with subprocess.Popen([f"{TOP}/tools/{words[0]}", *words[1:]], stdin=subprocess.PIPE, stdout=subprocess.PIPE, stderr=subprocess.PIPE, cwd=TOP) as process:
        assert process.stdin
        process.stdin.write(b"0" * (1 << 20))  # More than a pipe holds, so that it reads.
        process.send_signal(signal.SIGINT)
        said = b"".join(process.communicate(timeout=SECONDS))
    is_right = process.returncode == -signal.SIGINT and not said
    return "" if is_right else f"tools/{' '.join(words)}: interrupted, it ends with {process.returncode}\n{said[-2000:]!r}"


def differences(program: str) -> List[str]:
    """What is wrong. `program` is that which tools/draw asks."""
    found = [fault for fault in map(interrupted, [words for words, _ in READERS]) if fault]

    def hold(words: List[str], given: str, folder: str, wanted: str, first: Optional[Callable[[], None]] = None, asked: str = program) -> None:
        try:
            said = said_by(words, given, folder, asked, first)
            fault = fault_of(said, wanted)
        except subprocess.TimeoutExpired:
            said, fault = "", "it hangs"
        if fault:
            found.append(f"tools/{' '.join(words)[:200]}: {fault}\n{said[:2000]!r}")

    for words, given, wanted in INPUTS:
        hold(words, given, "/nowhere", wanted)
    for first, wanted in TROUBLES:
        for words, given in READERS:
            hold(words, given, "/nowhere", wanted.replace("TOOL", words[0]), first)
    for command, wanted in PROGRAMS:
        with tempfile.TemporaryDirectory() as folder:
            text(f"#!/bin/sh\n{command}\n")(f"{folder}/x.log")
            os.chmod(f"{folder}/x.log", 0o755)
            for words, given in READERS[:2]:
                hold(words, given, folder, wanted, asked=f"{folder}/x.log")
    for cases, words, given in ((LOGS, ["recording", "FOLDER", "FOLDER/views"], ""), (CERTIFICATES, ["draw", "--verify", "FOLDER/x.log", *NAMES], GRAPH)):
        for make, wanted in cases:
            with tempfile.TemporaryDirectory() as folder:
                text("service a all\n")(f"{folder}/views")
                make(f"{folder}/x.log")
                hold([word.replace("FOLDER", folder) for word in words], given, folder, wanted)
    return found
