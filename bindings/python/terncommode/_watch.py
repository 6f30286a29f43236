"""What a process has seen that somebody ought to know of: it is counted, and the first of each kind is logged."""

from __future__ import annotations

import logging
import os
import threading
from typing import Dict

__all__ = ["seen"]

_LOG = logging.getLogger("terncommode")
_KINDS = {
    "late": "something was said of a request after its reply began; the caller doesn't hear it",
    "no_request": "something was said where no request runs, and refused",
    "lost": "a context was promised and didn't arrive; all fields are partial",
    "ill_typed": "a context arrived with a field that isn't spelled as its type says",
    "cut": "a context was longer than its budget and was cut",
}

_lock = threading.Lock()
_counts = dict.fromkeys(_KINDS, 0)


def _begin_anew() -> None:
    """In a fork another thread may have had the lock."""
    global _lock
    _lock = threading.Lock()


if hasattr(os, "register_at_fork"):
    os.register_at_fork(after_in_child=_begin_anew)


def seen() -> Dict[str, int]:
    """How often this process has seen each of these, from its start on.

    ``late``: something was said of a request after its reply began. ``no_request``: it was said where no request runs, and refused.
    ``lost``: a request or a reply came without the context that was promised. ``ill_typed``: a context came with a field that isn't spelled
    as its type says. ``cut``: a context was cut for its budget. The first of each is logged too, as a warning of the logger ``terncommode``.
    """
    with _lock:
        return dict(_counts)


def saw(kind: str) -> None:
    """Counts one more of a kind."""
    with _lock:
        _counts[kind] += 1
        is_first = _counts[kind] == 1
    if is_first:
        _LOG.warning("%s. It is logged once; terncommode.seen() counts", _KINDS[kind])
