"""A deadline goes down, and never up again: what a reply brings back of it is another visit's."""
from recipe import bag_of, told
from terncommode import Bag, Context

bag = bag_of(__file__, "Deadline")


class Visit:
    """One visit of a service. What binds it came with its request."""

    def __init__(self, arrived, identity):
        self.context, self.identity = arrived, identity
        field = bag.read(arrived, "until")
        self.until = min(field.value.values(), default=None)
        self.exact = field.exact  # where it was cut, the deadline may be tighter than what is known

    def sent(self, until=None):
        """What goes to a service below: all that binds this visit, and what it binds itself to."""
        return self.context if until is None else bag.update([self.context], {"until": {self.identity: until}})

    def replied(self, context):
        """A reply is joined, and changes nothing of what binds this visit."""
        self.context |= context


gateway = Visit(bag.update([], {"until": {0xA1: 1500}}), 0xA1)
cart = Visit(gateway.sent(), 0xB1)
stock = Visit(cart.sent(1200), 0xC1)
assert (gateway.until, cart.until, stock.until) == (1500, 1500, 1200)
gateway.replied(stock.context)
assert gateway.until == 1500

# The trap: a scalar keeps the least, and the child's comes back with its reply. It reads as exact, and the gateway's next call is cut short.
plain = Bag("baggage table 1\n0 0 until scalar uint64\n")
sent = plain.update([], {"until": 1500})
reply = plain.update([sent], {"until": 1200})
assert plain.read(sent | reply, "until").value == 1200 and plain.read(sent | reply, "until").exact
assert not Visit(Context.lost(), 1).exact
told(__file__, gateway.context, "a request of 50 services, two of which tighten it")
