"""Sampling: a decision at the head, one that travels back, and a rate."""
from recipe import bag_of, told
from terncommode import Context

bag = bag_of(__file__, "Sampling")


def is_recorded(context):
    """True, False, or None where nobody can know: then it was cut, and what is recorded for nothing costs less than what is missing."""
    fields = bag.read_all(context)
    if fields["head"].value or fields["tail"].value:
        return True
    return False if fields["head"].exact and fields["tail"].exact else None


sent = bag.update([], {"rate": 1000})
assert is_recorded(sent) is False
reply = bag.update([sent], {"tail": True, "rate": 50000})
assert is_recorded(sent | reply) is True
assert bag.read(sent | reply, "rate").value == 50000

# The trap: `off` that is partial isn't off.
cut = (sent | reply).cut(4)
assert bag.read(cut, "tail").value is False and not bag.read(cut, "tail").exact
assert is_recorded(cut) is None
# Another: a field of type bool keeps the least of its values, so one `false` anywhere ends the sampling, and reads as exact.
told(__file__, sent | reply, "a request of 50 services, whoever asks")
assert is_recorded(Context()) is False
