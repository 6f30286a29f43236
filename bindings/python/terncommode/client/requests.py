"""Contexts for requests.

    session = requests.Session()
    session.mount("http://", Adapter(hosts={"cart", "pricing"}))
    session.mount("https://", Adapter(hosts={"cart", "pricing"}))
"""

from __future__ import annotations

import importlib
from typing import Any, Type

from .._context import Context
from ..carriers import REQUEST_BUDGET
from ._calls import Calls, Hosts
from ._connections import connection_class

__all__ = ["Adapter"]

_adapters: Any = importlib.import_module("requests.adapters")


class Adapter(_adapters.HTTPAdapter):  # type: ignore[misc]
    """An adapter of requests. Its other arguments are those of ``requests.adapters.HTTPAdapter``."""

    __attrs__ = [*_adapters.HTTPAdapter.__attrs__, "_calls"]

    def __init__(self, *, hosts: Hosts = (), on_failure: Context = Context(), budget: int = REQUEST_BUDGET, **named: Any) -> None:
        # The pools are made while the base begins.
        self._calls = Calls(hosts, on_failure, budget)
        super().__init__(**named)

    def init_poolmanager(self, *arguments: Any, **named: Any) -> None:
        """Makes the pools, with connections that carry contexts."""
        super().init_poolmanager(*arguments, **named)
        self._carry(self.poolmanager)

    def proxy_manager_for(self, *arguments: Any, **named: Any) -> Any:
        """The pools of a proxy, with connections that carry contexts."""
        manager = super().proxy_manager_for(*arguments, **named)
        self._carry(manager)
        return manager

    def _carry(self, manager: Any) -> None:
        pools = manager.pool_classes_by_scheme
        if not any(hasattr(pool, "carries_contexts") for pool in pools.values()):
            manager.pool_classes_by_scheme = {scheme: _pool_class(pool, self._calls) for scheme, pool in pools.items()}


def _pool_class(pool: Type[Any], calls: Calls) -> Type[Any]:
    connections = connection_class(pool.ConnectionCls, calls)
    return type(pool.__name__, (pool,), {"ConnectionCls": connections, "carries_contexts": True})
