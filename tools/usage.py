"""The command lines of the tools in Python: `--help` prints the page at the top of a tool, and words that aren't those of its usage end it before it begins, with
the usage on standard error and status 64. A page has the usage in lines that begin with `usage: NAME`, or with as many blanks."""
import os
import re
import sys

NUMBERS = set("BUSY COUNT EACH LIMIT MOST PART ROW RUNS SEED".split())


def lines(page):
    """The lines of a page that say how its tool is called."""
    return re.search(r"(?m)^usage: .*(?:\n {7,}.*)*", page)[0]


def help(page):
    """Prints the page where it is asked for, and ends."""
    if sys.argv[1:2] in (["--help"], ["-h"]):
        try:
            print(page.strip(), flush=True)
        except BrokenPipeError:
            os.dup2(os.open(os.devnull, os.O_WRONLY), sys.stdout.fileno())
        sys.exit(0)


def refuse(page, why=""):
    """Ends a tool whose words are none of its usage."""
    print(*([f"{os.path.basename(sys.argv[0])}: {why}"] if why else []), lines(page), sep="\n", file=sys.stderr)
    sys.exit(64)


def checked(page, name, word):
    """A word as its name in the usage wants it: a number, or what is there."""
    if name in NUMBERS:
        return int(word) if re.fullmatch("[0-9]{1,18}", word) else refuse(page, f"{name} is a number, and not {word}")
    if name == "PROGRAM" and not (os.path.isfile(word) and os.access(word, os.X_OK)):
        refuse(page, f"there is no program {word}")
    if name in ("FILE", "SHARED_OBJECT") and not os.path.isfile(word):
        refuse(page, f"there is no file {word}")
    if name == "PREFIX" and not os.path.isfile(f"{word}/lib/libbaggage.a"):
        refuse(page, f"there is no library in {word}; make_library makes one")
    return os.path.abspath(word) if name in ("PROGRAM", "PREFIX") else word


def taken(page, words=None):
    """The words of a tool whose usage begins with its one form, as `PROGRAM COUNT [SEED]` or `PROGRAM [ROW..]`: None stands for one that was left out, and a list
    for those of a form with dots."""
    help(page)
    words = sys.argv[1:] if words is None else words
    form = re.split("  +", lines(page).split("\n")[0].removeprefix("usage: "))[0].split()[1:]
    names, least = [re.sub(r"[][.]", "", word) for word in form], sum(not word.startswith("[") for word in form)
    for word in words:
        if word.startswith("-"):
            refuse(page, f"there is no option {word}")
    is_open = ".." in "".join(form[-1:])
    if len(words) < least or len(words) > len(form) and not is_open:
        refuse(page)
    names += names[-1:] * (len(words) - len(names))
    found = [checked(page, name, word) for name, word in zip(names, words)]
    if is_open:
        return [*found[:len(form) - 1], found[len(form) - 1:]]
    return found + [None] * (len(form) - len(found))
