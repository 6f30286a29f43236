"""Recordings that are no graph, or that have holes, reports that aren't theirs, and what tools/recording says of them."""
import os
import subprocess
import tempfile
from typing import Dict, List, Tuple

HERE = os.path.dirname(os.path.abspath(__file__))
TOOL = f"{os.path.dirname(os.path.dirname(HERE))}/tools/recording"
VIEWS = "service a all\nservice b none\n"
START = "a.1\tstart\t-\t-\t-\n"
SENT = START + "a.2\tset\ta.1\tid 7\t0007\n"

# The logs, the status, and what stands in what is told: of a refusal its first line, else lines of the graph.
CASES: List[Tuple[Dict[str, str], int, str]] = [
    ({"a.log": SENT, "b.log": "b.1\tforward\ta.2\t0007\t0007\n"}, 0, "# b.1 0007\nforward 2 1 b\n"),
    ({"a.log": SENT + "a.3\tset\ta.2\ti"}, 0, "set 1 0 id 7\nshow 0\nshow 1\n"),
    ({"b-2.log": "b-2.1\tforward\ta.2\t0007\t0007\n"}, 0, "service b none\n# b-2.1 0007\nrecv 0 b 0007\n"),
    ({"a.log": SENT, "b.log": "b.1\trecv\ta.2\t00\t00\n"}, 0, "recv 2 b 00\n"),
    ({"a.log": "a.1\tforward\tb.1\t-\t-\n", "b.log": "b.2\tstart\t-\t-\t-\nb.1\tbranch\tb.2\t-\t-\n"}, 0, "start 0 b\n# b.1 -\nbranch 1 0\n# a.1 -\nforward 2 1 a\n"),
    ({"a.log": SENT, "b.log": "b.1\tforward\ta.2\t0008\t0008\n"}, 1, "b.1 forward a.2: what came isn't what was sent\n  came 0008\n  sent 0007"),
    ({"a.log": SENT + SENT}, 1, "a.log:3: two steps have the name a.1"),
    ({"a.log": "a.2\tset\ta.1\tid 7\t0007\n"}, 1, "a.2 set: its parent a.1 isn't recorded"),
    ({"a.log": SENT, "b.log": "b.1\ttrim\ta.2\t9\t00\n"}, 1, "b.1 trim: its parent a.2 is at another service"),
    ({"a.log": "a.1\tbranch\ta.2\t-\t-\na.2\tbranch\ta.1\t-\t-\n"}, 1, "a.1 branch: it comes from itself, by way of a.2"),
    ({"c.log": "c.1\tstart\t-\t-\t-\n"}, 1, "c.1: there is no view of the service c"),
    ({"a.log": START + "a.2 start\n"}, 1, "a.log:2: a line has five fields with tabs between them"),
    ({"a.log": "a\tstart\t-\t-\t-\n"}, 1, "a.log:1: a is no name of a step, such as cart.7 or cart-2.7"),
    ({"a.log": "a.1\tstart\t-\t-\t0\n"}, 1, "a.log:1: a.1: no step has the form"),
    ({"a.log": "a.1\tjoin\t-\t-\t-\n"}, 1, "a.log:1: a.1: no step has the form"),
    ({"a.log": "a.1\tgoes\t-\t-\t-\n"}, 1, "a.log:1: a.1: no step has the form"),
    ({"a.log": START + "a.2\tset\ta.1\ttags \"\udcff\"\t-\n"}, 1, "a.log:2: the line isn't UTF-8\n"),
    ({"a.log": SENT + "a.3\tset\ta.2\ttags \"\udcc3"}, 0, "set 1 0 id 7\nshow 0\nshow 1\n"),
    ({"a.log": START, "views": "service a all\n# \udcff\n"}, 1, "FOLDER/views:2: the line isn't UTF-8\n"),
    ({}, 1, "FOLDER: no step is recorded in a file *.log\n"),
    ({"a.log": "a.1\tstart", "a.txt": START}, 1, "FOLDER: no step is recorded in a file *.log\n"),
]

GRAPH = "service a all\n# a.1 -\nstart 0 a\n# a.2 0007\nset 1 0 id 7\nshow 0\nshow 1\n"
REPORT = "step 0\nbytes -\nid exact -\nstep 1\nbytes 0007\nid exact 7\n"
OTHER = REPORT.replace("0007", "0008")
SHORT = "step 0\nbytes -\nid exact -\n"
DIFFERS = "a.2 set 1 0 id 7\n  recorded 0007\n  replayed 0008\n"

# The files of a folder whose graphs are compared, the status, and all that is told.
COMPARED: List[Tuple[Dict[str, str], int, str]] = [
    ({"r.graph": GRAPH, "r.graph.report": REPORT}, 0, "2 steps are what was recorded\n"),
    ({"r.graph": "# of a.2\n" + GRAPH, "r.graph.report": REPORT}, 0, "2 steps are what was recorded\n"),
    ({"r.graph": GRAPH, "r.graph.report": OTHER}, 1, DIFFERS + "1 of 2 steps differ from the recording\n"),
    ({"r.graph": GRAPH, "r.graph.report": SHORT}, 1,
     "FOLDER/r.graph.report has 1 steps, and FOLDER/r.graph 2\n1 of 2 steps aren't in the report\n"),
    ({"q.graph": GRAPH, "q.graph.report": OTHER, "r.graph": GRAPH, "r.graph.report": ""}, 1,
     DIFFERS + "FOLDER/r.graph.report has 0 steps, and FOLDER/r.graph 2\n1 of 4 steps differ from the recording\n2 of 4 steps aren't in the report\n"),
    ({"r.graph": GRAPH, "r.graph.report": REPORT + SHORT}, 1,
     "FOLDER/r.graph.report has 3 steps, and FOLDER/r.graph 2: it is the report of another graph\n"),
    ({"r.graph": "service a all\n", "r.graph.report": ""}, 1, "FOLDER/r.graph: no step is recorded in it\n"),
    ({"r.graph": GRAPH.replace(" -\n", "\n").replace(" 0007\n", "\n"), "r.graph.report": REPORT}, 1, "FOLDER/r.graph: no step is recorded in it\n"),
    ({"r.graph.report": REPORT}, 1, "FOLDER: there is no file *.graph in it\n"),
    ({"r.graph": GRAPH.replace("id 7", 'tags "\udcff"'), "r.graph.report": REPORT}, 1, "FOLDER/r.graph:5: the line isn't UTF-8\n"),
    ({"r.graph": GRAPH, "r.graph.report": REPORT.replace("exact 7", "\udcff")}, 1, "FOLDER/r.graph.report:6: the line isn't UTF-8\n"),
]


def told(files: Dict[str, str], *words: str) -> Tuple[int, str]:
    """The status of tools/recording over a folder with these files, in whose words it is FOLDER, and what it says. A byte that isn't UTF-8 is its surrogate."""
    with tempfile.TemporaryDirectory() as folder:
        for name, text in files.items():
            with open(f"{folder}/{name}", "w", encoding="utf-8", errors="surrogateescape") as file:
                file.write(text)
        ran = subprocess.run([TOOL, *(word.replace("FOLDER", folder) for word in words)], capture_output=True, text=True, check=False)
        return ran.returncode, (ran.stdout + ran.stderr).replace(folder, "FOLDER")


def differences() -> List[str]:
    """What differs of each case."""
    found = []

    def hold(files: Dict[str, str], is_as_told: bool, status: int, said: str, wanted: str) -> None:
        if not is_as_told:
            found.append(f"tools/recording of {files} says with status {status}\n{said}and not\n{wanted}")

    for files, status, wanted in CASES:
        is_status, said = told({"views": VIEWS, **files}, "FOLDER", "FOLDER/views")
        hold(files, is_status == status and (wanted in said if status == 0 else said.startswith(wanted)), is_status, said, wanted)
    for files, status, wanted in COMPARED:
        is_status, said = told(files, "--compare", "FOLDER")
        hold(files, (is_status, said) == (status, wanted), is_status, said, wanted)
    return found
