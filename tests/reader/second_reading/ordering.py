"""The order in which a node's realizations are solved, by which each mostly begins close to where the one before ended."""
from __future__ import annotations

from typing import List, Sequence


def distance(one: Sequence[int], other: Sequence[int]) -> int:
    """Returns the distance of two realizations: the sum of the absolute differences of their values."""
    return sum(abs(x - y) for x, y in zip(one, other))


def nearest_order(given: Sequence[Sequence[int]]) -> List[int]:
    """Returns the numbers of realizations, of the values of each in the order of the file, so that each is near to the one before.

    The first of the file begins. Each next one is, of those that are left, the nearest to the one before; of equally near ones the one that
    the file has first (the nearest neighbour rule; Rosenkrantz, Stearns and Lewis 1977).
    """
    order, left = [], list(range(len(given)))
    while left:
        nearest = min(left, key=lambda it: (distance(given[order[-1]], given[it]) if order else 0, it))
        left.remove(nearest)
        order.append(nearest)
    return order


def solving_order(given: Sequence[Sequence[int]]) -> List[int]:
    """Returns the numbers of realizations in the order in which they are solved: five or fewer as the file has them, more by nearness."""
    return nearest_order(given) if len(given) > 5 else list(range(len(given)))
