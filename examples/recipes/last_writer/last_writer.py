"""The last writer wins: a clock before the value."""
import time

from recipe import bag_of, told
from terncommode import Bag, Context

bag = bag_of(__file__, "Experiment")


def choose(context, variant, now=None):
    """The context with another value. It comes after the one that was read, whatever the clocks of two machines say."""
    before = bag.read(context, "choice").value
    now = time.time_ns() // 1_000_000 if now is None else now
    clock = now if before is None else max(now, before[0] + 1)
    return bag.update([context], {"choice": (clock, variant)})


first = choose(Context(), "red", 1000)
second = choose(first, "blue", 990)  # this machine's clock is behind
assert bag.read(first | second, "choice").value == (1001, "blue")
# Two that didn't know of one another: the later clock wins, and of equal ones the greater value. All readers agree.
one, other = choose(Context(), "red", 1000), choose(Context(), "blue", 1000)
assert bag.read(one | other, "choice").value == bag.read(other | one, "choice").value == (1000, "red")

# The trap: without the clock the least value stays, whoever wrote last, and it reads as exact.
plain = Bag("baggage table 1\n0 0 variant scalar string\n")
changed = plain.update([plain.update([], {"variant": "blue"})], {"variant": "red"})
assert plain.read(changed, "variant").value == "blue" and plain.read(changed, "variant").exact
told(__file__, choose(Context(), "blue"), "a request of 50 services")
