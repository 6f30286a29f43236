"""Where the tools in Python look for what was built, unless it is named: the library as `make_library .baggage/library` installs it; and the program
that `rt ci` has left, or else the one that the script `baggage` keeps. BAGGAGE_CACHE names another folder than .baggage, PROGRAM another program."""
import os

TOP = os.path.dirname(os.path.dirname(os.path.realpath(__file__)))
KEPT = os.environ.get("BAGGAGE_CACHE") or f"{TOP}/.baggage"
LIBRARY = f"{KEPT}/library"
PROGRAMS = [f"{TOP}/crates/baggage/out/baggage", f"{KEPT}/baggage"]


def program():
    """The path of the program that is built from sources, or None."""
    if os.environ.get("PROGRAM"):
        return os.path.abspath(os.environ["PROGRAM"])
    return next((path for path in PROGRAMS if os.access(path, os.X_OK)), None)
