"""Scenario trees of a case of plants, numbers as the case gives them, and rows as dictionaries of columns."""
from __future__ import annotations

from dataclasses import dataclass
from fractions import Fraction
from typing import Dict, List, Optional

import model_support  # noqa: F401
from hydroplan.plants import Way


@dataclass
class TreeNode:
    """A node of the scenario tree: its stage from 1, its probability, and the values of its stations."""

    stage: int
    chance: float
    values: Dict[str, float]
    parent: Optional["TreeNode"]

    def before(self, stages: int) -> Optional["TreeNode"]:
        """The node so many stages before, none before the first."""
        node = self
        for _ in range(stages):
            if node is None:
                return None
            node = node.parent
        return node


def tree(case) -> List[TreeNode]:
    """All nodes, parents first."""
    layer, found = [None], []
    for stage in range(1, case.stages + 1):
        outcomes = case.outcomes[stage - 1] or [(1, {})]
        weights = sum(number(weight) for weight, _ in outcomes)
        layer = [
            TreeNode(stage, (parent.chance if parent else 1) * number(weight) / weights, {it: number(x) for it, x in values.items()}, parent)
            for parent in layer for weight, values in outcomes
        ]
        found += layer
    return found


def number(given) -> float:
    """A number as it is given."""
    return float(Fraction(str(given)))


def pick(given, stage, block) -> float:
    """The number of a stage and block."""
    for _ in range(3):
        if isinstance(given, dict):
            given = given[block]
        elif isinstance(given, (list, tuple)):
            given = given[stage - 1]
    return 0.0 if given is None else number(given)


def as_way(given) -> Optional[Way]:
    """A way, also where only its end is named."""
    return Way(given) if isinstance(given, str) else given


def added(*parts):
    """The sum of rows."""
    found = {}
    for part in parts:
        for at, value in part.items():
            found[at] = found.get(at, 0.0) + value
    return found


def scaled(part, factor):
    """A row times a number."""
    return {at: factor * value for at, value in part.items()}


def matrix(rows, width):
    """A sparse matrix of rows, none where there are none."""
    from scipy.sparse import coo_matrix

    if not rows:
        return None
    entries = [(row, at, value) for row, (part, _) in enumerate(rows) for at, value in part.items()]
    row, at, value = zip(*entries)
    return coo_matrix((value, (row, at)), shape=(len(rows), width)).tocsr()
