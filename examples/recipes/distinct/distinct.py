"""Distinct counts: HyperLogLog's registers are a map of greatest values."""
import hashlib
import math

from recipe import bag_of, told
from terncommode import Context

bag = bag_of(__file__, "Distinct")
GROUPS = 64


def touched(context, users):
    """The context of a request that touched these users."""
    ranks = {}
    for user in users:
        digest = int.from_bytes(hashlib.blake2b(user.encode(), digest_size=8).digest(), "big")
        group, rest = digest % GROUPS, digest // GROUPS
        rank = 58 - rest.bit_length() + 1
        ranks[group] = max(ranks.get(group, 0), rank)
    return bag.update([context], {"ranks": ranks})


def estimate(context):
    """About how many, within a tenth or so, and whether that is all of them."""
    field = bag.read(context, "ranks")
    ranks = [field.value.get(group, 0) for group in range(GROUPS)]
    empty = ranks.count(0)
    raw = 0.709 * GROUPS**2 / sum(2.0**-rank for rank in ranks)
    return (GROUPS * math.log(GROUPS / empty) if raw <= 2.5 * GROUPS and empty else raw), field.exact


one = touched(Context(), [f"user {number}" for number in range(700)])
other = touched(Context(), [f"user {number}" for number in range(300, 1000)])
number, exact = estimate(one | other)
assert exact and 800 < number < 1200, number
assert estimate(one | one) == estimate(one)

# The trap: a counter of users that each service has seen counts those twice that two services saw. And of a context that was cut the estimate is too low.
low, exact = estimate((one | other).cut(100))
assert low < number and not exact
told(__file__, one | other, "any number of users")
