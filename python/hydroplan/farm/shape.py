"""What the records of a problem look like: the sizes of its nodes, and which node leads where."""
from __future__ import annotations

import hashlib
import json
from functools import cached_property
from typing import Any, Dict, FrozenSet, Mapping, NamedTuple, Optional, Sequence, Tuple

from ..tools.limits import GREATEST, MEANINGS, MOST_ITERATIONS, MOST_PATHS, Extent, extent_of

from .errors import FarmError
from .lists import Lists, lists_of

__all__ = ["MOST_ITERATIONS", "MOST_PATHS", "NodeShape", "Shape", "require_room", "shape_of"]

PROBLEM_REFUSED, TOO_MUCH = 5, 7


class NodeShape:
    """A node as its steps in records have it: rows and realizations are counts, successors are numbers of nodes."""

    def __init__(self, rows: int, realizations: int, successors: Tuple[int, ...]) -> None:
        self.rows = rows
        self.realizations = realizations
        self.successors = successors

    @cached_property
    def lists(self) -> Tuple[Lists, ...]:
        """The lists of pairs of all its realizations, as many together as are read at once."""
        return lists_of(self.rows, len(self.successors), self.realizations)


class Shape(NamedTuple):
    """A problem as its records have it: the SHA-256 of its bytes, its nodes in the byte order of their names, and its sizes."""

    digest: bytes
    nodes: Tuple[NodeShape, ...]
    first: FrozenSet[int]
    extent: Extent


def shape_of(problem: bytes) -> Shape:
    """The shape of a problem that the program accepts; FarmError (status 5) where these bytes are plainly none."""
    try:
        document: Dict[str, Any] = json.loads(problem)
        extent = extent_of(document)
        names = sorted(document["nodes"], key=str.encode)
        numbers = {name: number for number, name in enumerate(names)}
        nodes = tuple(
            NodeShape(size.rows, size.realizations, _numbers(document["nodes"][name].get("successors", {}), numbers))
            for name, size in zip(names, extent.nodes)
        )
        first = frozenset(_numbers(document["root"]["successors"], numbers))
    except (ValueError, KeyError, TypeError, AttributeError, RecursionError):
        raise FarmError("the problem is none that the program accepts: run `./hydroplan base` on it to see why", PROBLEM_REFUSED) from None
    return Shape(hashlib.sha256(problem).digest(), nodes, first, extent)


def _numbers(successors: Mapping[str, Any], numbers: Mapping[str, int]) -> Tuple[int, ...]:
    return tuple(sorted(numbers[name] for name in successors))


def require_room(shape: Shape, records: int, batch: int) -> None:
    """FarmError (status 7) where a journal may not hold so many records of so many paths, with what would fit."""
    said: Optional[str] = None
    if records > MOST_ITERATIONS:
        said = f"{records:,} records, limit {MOST_ITERATIONS:,}"
    else:
        exceeded = shape.extent.exceeded(records, batch)
        if exceeded is not None:
            which, value = exceeded
            said = f"formula {which} gives {value}: " + MEANINGS[which].format(value=value, greatest=GREATEST[which])
    if said is not None:
        most = shape.extent.most_iterations(batch)
        raise FarmError(f"too much: {said}; records of {_paths(batch)} may be {most:,}{_others(shape, records * batch, batch)}", TOO_MUCH)


def _paths(batch: int) -> str:
    return "1 path" if batch == 1 else f"{batch} paths"


def _others(shape: Shape, paths: int, batch: int) -> str:
    """The least batch in whose records so many paths fit, in words; nothing where there is none."""
    fitting: Sequence[int] = [it for it in range(1, MOST_PATHS + 1) if it != batch and _fits(shape, paths, it)]
    return f"; {paths:,} paths fit into records of {_paths(fitting[0])}" if fitting else ""


def _fits(shape: Shape, paths: int, batch: int) -> bool:
    records = -(-paths // batch)
    return records <= MOST_ITERATIONS and shape.extent.exceeded(records, batch) is None
