"""Test traffic and criticality: what to do where nobody can know."""
from recipe import bag_of, told
from terncommode import Context

bag = bag_of(__file__, "Treatment")


class Held(Exception):
    """It can't be known whether this is a test, so nothing is done that can't be undone."""


def charges(context):
    """Whether the card is charged."""
    test = bag.read(context, "test")
    if not test.value and not test.exact:
        raise Held
    return not test.value


def criticality(context):
    """How much depends on the request. Where it was cut, it counts as usual at least: shedding too little costs less than shedding what must not fail."""
    field = bag.read(context, "criticality")
    known = 1 if field.value is None else field.value
    return known if field.exact else max(known, 1)


test = bag.update([], {"test": True, "criticality": 0})
assert not charges(test) and criticality(test) == 0
assert charges(Context()) and criticality(Context()) == 1
# What is on stays on, whoever merges: a test that meets a real request makes both a test.
assert not charges(test | bag.update([], {"criticality": 3}))
# A cut may take it: the trap is to charge because it reads `off`.
for cut in (test.cut(1), Context.lost()):
    assert bag.read(cut, "test").value is False
    try:
        charges(cut)
        raise AssertionError("a test was charged")
    except Held:
        pass
assert criticality(test.cut(1)) == 1
told(__file__, test, "a request of 50 services")
