"""Spans and their parents: a Lamport clock says which span came after which."""
from recipe import bag_of, told
from terncommode import Context

bag = bag_of(__file__, "Trace")


def span(context, identity):
    """The context with one more span, and the spans that come right before it."""
    seen = bag.read(context, "spans")
    last = max((clock for clock, _ in seen.value), default=0)
    parents = sorted(identity for clock, identity in seen.value if clock == last)
    fresh = (last + 1, identity)
    return bag.update([context], [("last", fresh), ("spans", {fresh})]), parents, seen.exact


gateway, parents, exact = span(bag.update([], {"trace": 9120}), 0xA1)
assert (parents, exact) == ([], True)
cart, parents, _ = span(gateway, 0xB1)
assert parents == [0xA1]
pricing, _, _ = span(gateway, 0xB2)
mail, parents, exact = span(cart | pricing, 0xC1)
assert (parents, exact) == ([0xB1, 0xB2], True)

# The trap: `last` keeps one of two spans that ran beside one another, and it is exact: that is what it was asked for.
assert bag.read(cart | pricing, "last").value == (2, 0xB2) and bag.read(cart | pricing, "last").exact
# Where the set was cut, the parents that are found may not be all.
_, parents, exact = span((cart | pricing).cut(34), 0xC1)
assert not exact

request = Context()
for number in range(50):
    request, _, _ = span(request, number)
told(__file__, request, "a request of 50 spans")
