"""Lineages, or session tickets: a reader knows whether a replica has all that its request has seen."""
from recipe import bag_of, told
from terncommode import Context

bag = bag_of(__file__, "Lineage")
leader = {"post/7": (41, "the new text"), "user/12": (8, "Ann")}
replica = {"post/7": (40, "the old text"), "user/12": (8, "Ann")}


def read(context, name):
    """An object that is as new as all that the request has seen. Who can't know asks the leader: nothing but `partial` says that it can't be known."""
    seen = bag.read(context, "seen")
    version, text = replica[name]
    if not seen.exact or version < seen.value.get(name, 0):
        version, text = leader[name]
    return text


def wrote(context, name, version):
    """The context of a request that wrote an object."""
    return bag.update([context], {"seen": {name: version}})


request = wrote(wrote(Context(), "post/7", 41), "user/12", 8)
assert read(request, "post/7") == "the new text"
assert read(Context(), "post/7") == "the old text"  # another request may read what is older
assert read(request.cut(16), "user/12") == "Ann" and read(request.cut(3), "post/7") == "the new text"
# The trap: of a context that was cut, an object that isn't in the map may have been written.
assert "user/12" not in bag.read(request.cut(16), "seen").value and not bag.read(request.cut(16), "seen").exact
for number in range(20):
    request = wrote(request, f"post/{number}", 41)
told(__file__, request, "a request that has seen 21 objects")
