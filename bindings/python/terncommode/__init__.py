"""Baggage contexts: what a request carries along through many services.

A *context* is valid, never changes, and can be copied at will. Where branches of a request meet, their contexts are merged; where a
channel has a budget, a context is cut to it. A *bag* is the table of the fields that a service knows; with it the service writes and reads
them. What is read is a *field*: its value, and whether it is exact, so that nothing of it can have been cut off.

    >>> from terncommode import Bag, Context
    >>> bag = Bag("baggage table 1\\n0 0 id scalar fixed32\\n0 1 tags set string\\n")
    >>> context = bag.update([Context()], {"id": 4711, "tags": {"spring"}})
    >>> bag.read(context, "tags")
    Field(value=frozenset({'spring'}), exact=True)
    >>> bag.read(context.cut(12), "tags")
    Field(value=frozenset(), exact=False)

The work is done by the shared library ``libbaggage.so.2``, which is inside the wheel.
"""

from ._bag import REPORT_LIMIT, Bag, Field
from ._context import Context
from ._current import Reply, Request, add, begin, bound, branch, change, count, current, expect, request
from ._errors import BadTable, BadWrite, Error, Fault, IllTyped, NoField, NoRequest, TooLong, printable
from ._ingress import ingress
from ._watch import seen
from .carriers import (
    FOR_HEADER,
    GRPC_BUDGET,
    GRPC_KEY,
    HEADER,
    REPLY_BUDGET,
    REQUEST_BUDGET,
    extract,
    extract_reply,
    from_binary,
    from_header,
    inject,
    inject_reply,
    to_binary,
    to_header,
)

__version__ = "2.0.0"

__all__ = [
    "FOR_HEADER",
    "GRPC_BUDGET",
    "GRPC_KEY",
    "HEADER",
    "REPLY_BUDGET",
    "REPORT_LIMIT",
    "REQUEST_BUDGET",
    "BadTable",
    "BadWrite",
    "Bag",
    "Context",
    "Error",
    "Fault",
    "Field",
    "IllTyped",
    "NoField",
    "NoRequest",
    "Reply",
    "Request",
    "TooLong",
    "add",
    "begin",
    "bound",
    "branch",
    "change",
    "count",
    "current",
    "expect",
    "extract",
    "extract_reply",
    "from_binary",
    "from_header",
    "ingress",
    "inject",
    "inject_reply",
    "printable",
    "request",
    "seen",
    "to_binary",
    "to_header",
]
