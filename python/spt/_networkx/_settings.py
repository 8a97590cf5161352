"""What NetworkX is told of a graph or an argument that spt doesn't take, and the backend's settings."""

from __future__ import annotations

from typing import Any

import networkx

from _spt_networkx import SETTINGS


# before NetworkX 3.5 some functions returned dicts, and others iterators, that are the other way round since
IS_BEFORE_3_5 = tuple(map(int, networkx.__version__.split(".")[:2])) < (3, 5)


class Unfit(NotImplementedError):
    """Why spt can't take a graph. NetworkX then does the work itself."""


def setting(name: str) -> Any:
    """Returns a setting of `networkx.config.backends.spt`, or what it is by default."""
    backends = getattr(getattr(networkx, "config", None), "backends", None)
    return getattr(getattr(backends, "spt", None), name, SETTINGS[name])
