"""A node's stage problem: boxes, costs, rows with the realization and the incoming state, and its successors."""
from __future__ import annotations

from dataclasses import dataclass
from typing import List, Optional, Sequence, Tuple

UNIT = 1 << 24
"""One, in the numbers of states, decisions, certificates and cuts."""


@dataclass(frozen=True)
class StageRow:
    """A row in whole units: coefficients of some decisions, of each state and of each random variable, and two sides.

    A side that is None is absent. `terms` rise by decision, each once at most, and have no coefficient of 0.
    """

    low: Optional[int]
    high: Optional[int]
    terms: Tuple[Tuple[int, int], ...]
    states: Tuple[int, ...] = ()
    randoms: Tuple[int, ...] = ()


@dataclass(frozen=True)
class Successor:
    """A later node: its weight, and how many cuts its pool has."""

    weight: int
    cuts: int


@dataclass(frozen=True)
class Node:
    """A node: boxes and costs of decisions, rows, and successors, all in whole units."""

    boxes: Tuple[Tuple[int, int], ...]
    costs: Tuple[int, ...]
    rows: Tuple[StageRow, ...]
    successors: Tuple[Successor, ...] = ()


def product(left: Sequence[int], right: Sequence[int]) -> int:
    """The sum of products, number by number."""
    return sum(one * other for one, other in zip(left, right))


def given_part(row: StageRow, values: Sequence[int], state: Sequence[int]) -> int:
    """Returns the given part of a row, in fine units: of the incoming state, and of the realization in whole units."""
    return product(row.states, state) + UNIT * product(row.randoms, values)


def boxed(node: Node, decisions: Sequence[int]) -> List[int]:
    """Decisions in fine units, each taken into its box."""
    return [min(max(it, UNIT * low), UNIT * high) for it, (low, high) in zip(decisions, node.boxes)]


def decisions_of(node: Node, point: Sequence[int]) -> List[int]:
    """The decisions of a point: rounded down from its numbers, which are 2^8 times finer, and taken into their boxes."""
    return boxed(node, [it >> 8 for it in point[:len(node.boxes)]])
