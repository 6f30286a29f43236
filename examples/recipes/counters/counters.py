"""Counters: a writer is one visit of a service."""
from concurrent.futures import ThreadPoolExecutor

from recipe import bag_of, told
from terncommode import Context, add, begin, bound, count, current

bag = bag_of(__file__, "Cost")


def visit(queries):
    """One visit of a service below, and the context of its reply."""
    with begin(current(), bag) as request:
        for _ in range(queries):
            count("queries")
        return request.end()


def call(queries):
    """A call, whose reply is added to the request. One that is made again after a timeout is a visit more, and counts too."""
    add(visit(queries))


with begin(Context(), bag) as request, ThreadPoolExecutor(10) as pool:
    count("queries")
    list(pool.map(bound(call), range(1, 11)))  # ten calls beside one another
    call(5)
    call(5)  # a retry: both visits did the work
    field = bag.read(current(), "queries")
    assert (sum(field.value.values()), field.exact) == (1 + 55 + 10, True)
    assert len(field.value) == 13

# The trap: a writer that two visits share, such as the name of the service. Of its counts the greater one stays, and it reads as exact.
one, other = bag.update([], {"sent": {b"cart": 300}}), bag.update([], {"sent": {b"cart": 400}})
assert bag.read(one | other, "sent").value == {b"cart": 400} and bag.read(one | other, "sent").exact

sent = Context()
for _ in range(50):
    with begin(sent, bag) as visited:
        count("queries", 3)
        sent = visited.end()
told(__file__, sent, "a request of 50 visits")
