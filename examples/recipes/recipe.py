"""What the recipes share: the bag of a recipe's definition, and the line that says what a request takes."""
import os
import subprocess
import sys

TOP = os.path.dirname(os.path.dirname(os.path.dirname(os.path.abspath(__file__))))
sys.path.insert(0, f"{TOP}/bindings/python")

from terncommode import Bag  # noqa: E402


def bag_of(path, name):
    """The bag of the definition beside a recipe."""
    definition = os.path.splitext(path)[0] + ".bdl"
    program = os.environ.get("PROGRAM") or f"{TOP}/baggage"
    return Bag(subprocess.run([program, "table", definition, name], stdout=subprocess.PIPE, check=True, text=True).stdout)


def told(path, context, what):
    """Prints how many bytes a request takes. The page of recipes says the same."""
    print(f"| {os.path.splitext(os.path.basename(path))[0]} | {what} | {len(context)} |")
