"""Batches: each message has its own context, and a batch is no branch of any of them."""
from recipe import bag_of, told
from terncommode import Context, begin, count, current, from_binary, to_binary

bag = bag_of(__file__, "Message")
queue = [to_binary(bag.update([], {"tenants": {tenant}})) for tenant in ("acme", "zeta")]


def handled(message):
    """What is said of one message: it is a request of its own, begun with what it carries. A message without a context is lost, as one was promised."""
    with begin(from_binary(message), bag) as request:
        count("queries")
        return request.end()


done = [handled(message) for message in queue]
assert [bag.read(context, "tenants").value for context in done] == [{"acme"}, {"zeta"}]
assert not bag.read(handled(b""), "tenants").exact

# The trap: one context for all. Every message is of both tenants then, and so is each bill.
both = Context.join(from_binary(message) for message in queue)
assert bag.read(both, "tenants").value == {"acme", "zeta"} and bag.read(both, "tenants").exact
# What the batch as a whole costs is a request of the batch's own, which carries nothing of the messages.
with begin(Context(), bag) as batch:
    count("queries", 2)
    assert bag.read(current(), "tenants").value == set()
told(__file__, done[0], "a message")
