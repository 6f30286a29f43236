"""Runs all cells, and says in one line what ran. With names of parts, those alone."""
import logging
import os
import sys
import time

sys.path.insert(0, os.path.dirname(os.path.abspath(__file__)))

import cells as common  # noqa: E402

PARTS = ("matrix", "broken", "totals", "rpc", "servers")


def main():
    logging.disable(logging.CRITICAL)
    since, skips, ran, failed, contexts, exact = time.time(), [], [], [], 0, 0

    def skipped(name):
        if name not in skips:
            skips.append(name)
            print(f"python, {name} is skipped: it isn't installed", flush=True)

    for part in sys.argv[1:] or PARTS:
        found = common.Cells()
        common.module(part).main(found, skipped)
        ran.append(f"{found.ran} of {part}")
        contexts, exact = contexts + found.contexts, exact + found.exact
        failed += found.failed
        for line in found.failed[:20]:
            print(f"python, {part} FAILED: {line}", flush=True)
    if failed:
        print(f"python: {len(failed)} cells FAILED", flush=True)
        os._exit(1)
    spent = f"{time.time() - since:.0f} s, {sum(os.times()[:4]):.0f} s of a processor"
    print(f"python passed: cells: {', '.join(ran)}; of {contexts} contexts {exact} are exact, and true; {spent}", flush=True)
    # Threads of pools and loops of clients are left as they are.
    sys.stdout.flush()
    os._exit(0)


main()
