"""How many iterations and scenarios the size of a problem allows: the formulas of docs/use/FORMAT.md, which the program tries first."""
from __future__ import annotations

import json
from functools import lru_cache

from .programs import Compiled
from .tools.limits import MOST_ITERATIONS, MOST_SIMULATIONS, Extent, extent_of

__all__ = ["MOST_ITERATIONS", "MOST_SIMULATIONS", "Extent", "sizes"]


@lru_cache(maxsize=8)
def _extent(problem: bytes) -> Extent:
    return extent_of(json.loads(problem))


def sizes(compiled: Compiled) -> Extent:
    """The sizes of a compiled problem: what counts of its nodes and states, and how much that allows."""
    return _extent(compiled.problem)
