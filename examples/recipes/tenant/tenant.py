"""A tenant: a set that must have one element."""
from recipe import bag_of, told
from terncommode import Bag, Context

bag = bag_of(__file__, "Tenant")


class Unknown(Exception):
    """Nobody can say whose request it is."""


def tenant(context):
    """Whose request it is."""
    field = bag.read(context, "tenants")
    if not field.exact:
        raise Unknown("it was cut off")
    if len(field.value) != 1:
        raise Unknown(f"it is said to be of {sorted(field.value)}")
    return min(field.value)


def refused(context):
    """Whether nobody can say it."""
    try:
        tenant(context)
    except Unknown:
        return True
    return False


edge = bag.update([], {"tenants": {"acme"}})
assert tenant(edge) == "acme"
assert refused(edge | bag.update([], {"tenants": {"zeta"}}))
assert refused(Context()) and refused(Context.lost()) and refused(edge.cut(3))

# The trap: a field of type string keeps the least of two. It reads as exact, and a request of zeta's is billed to acme.
plain = Bag("baggage table 1\n0 0 tenant scalar string\n")
both = plain.update([plain.update([], {"tenant": "zeta"})], {"tenant": "acme"})
assert plain.read(both, "tenant").value == "acme" and plain.read(both, "tenant").exact
told(__file__, edge, "a request of 50 services")
