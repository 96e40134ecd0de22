"""Duals rounded to a certificate, and what an answer is worth."""
from __future__ import annotations

from dataclasses import dataclass
from typing import List, Optional, Sequence, Tuple

from .node import UNIT, Node, StageRow, given_part
from .numbers import fits
from .program import FOUND, RAY, Answer
from .rays import SCALES

Pairs = Tuple[Tuple[int, int], ...]
"""Places of cuts, rising, each with its multiplier, which is above 0."""


@dataclass(frozen=True)
class Certificate:
    """One multiplier for each row of a node, and for each successor the pairs of its cuts."""

    rows: Tuple[int, ...]
    cuts: Tuple[Pairs, ...]


def clamped_64(number: int) -> int:
    """The nearest number that 64 bits hold."""
    return min(max(number, -(1 << 63)), (1 << 63) - 1)


def settled_row(row: StageRow, multiplier: int) -> int:
    """A row's multiplier within 64 bits; 0 where it stands on a side that is absent, a positive one on a low."""
    if (multiplier > 0 and row.low is None) or (multiplier < 0 and row.high is None):
        return 0
    return clamped_64(multiplier)


def settled_cuts(duals: Sequence[int], target: int) -> Pairs:
    """The multipliers of a successor's cuts, which sum to the target.

    Duals are rounded down, and 0 where they are negative. In rising place each keeps at most what the target leaves. Rounding takes
    less than one from each. So where more is missing than there are multipliers above 0, the rest is of the successor's cost at its
    least value, which the first cut states, and goes to place 0. Else the greatest gets it, ties to the least place.
    """
    kept, left = [], target
    for dual in duals:
        multiplier = min(max(0, dual >> 8), left)
        kept.append(multiplier)
        left -= multiplier
    above = sum(multiplier > 0 for multiplier in kept)
    gets = 0 if left > above else kept.index(max(kept))
    kept[gets] += left
    return tuple((place, multiplier) for place, multiplier in enumerate(kept) if multiplier != 0)


def base_certificate(node: Node) -> Certificate:
    """The certificate without duals: no row counts, and each successor's first cut has all its weight."""
    return Certificate((0,) * len(node.rows), tuple(((0, UNIT * it.weight),) for it in node.successors))


def certificate_of_duals(node: Node, answer: Answer) -> Certificate:
    """The certificate of an answer: that of its duals, rounded down, where a point was found, else the one without duals."""
    if answer.kind != FOUND:
        return base_certificate(node)
    rows = tuple(settled_row(row, dual >> 8) for row, dual in zip(node.rows, answer.duals))
    cuts, begin = [], len(node.rows)
    for successor in node.successors:
        cuts.append(settled_cuts(answer.duals[begin:begin + successor.cuts], UNIT * successor.weight))
        begin += successor.cuts
    return Certificate(rows, tuple(cuts))


def has_right_signs(node: Node, rows: Sequence[int]) -> bool:
    """Whether no multiplier stands on an absent side."""
    return all((row.low is not None or it <= 0) and (row.high is not None or it >= 0) for row, it in zip(node.rows, rows))


def farkas_size(node: Node, values: Sequence[int], state: Sequence[int], rows: Sequence[int]) -> int:
    """The sum of the sizes of all products by which multipliers show an infeasibility, before anything cancels."""
    total = 0
    for row, multiplier in zip(node.rows, rows):
        side = row.low if multiplier > 0 else row.high
        parts = 0 if side is None or multiplier == 0 else UNIT * abs(side)
        parts += sum(UNIT * abs(one) * abs(other) for one, other in zip(row.randoms, values))
        parts += sum(abs(one) * abs(other) for one, other in zip(row.states, state))
        parts += sum(UNIT * abs(cell) * max(1, *map(abs, node.boxes[decision])) for decision, cell in row.terms)
        total += abs(multiplier) * parts
    return total


def refutes(node: Node, values: Sequence[int], state: Sequence[int], rows: Sequence[int]) -> bool:
    """Whether multipliers of rows show that there are no decisions: the weighted sides exceed the weighted rows over the box.

    The sizes of all products may sum to 2^127 - 1 at most.
    """
    if not has_right_signs(node, rows) or not fits(farkas_size(node, values, state, rows), 128):
        return False
    total = 0
    weights = [0] * len(node.boxes)
    for row, multiplier in zip(node.rows, rows):
        if multiplier == 0:
            continue
        side = row.low if multiplier > 0 else row.high
        total += multiplier * (UNIT * side - given_part(row, values, state))
        for decision, coefficient in row.terms:
            weights[decision] -= multiplier * coefficient
    total += UNIT * sum(min(it * low, it * high) for it, (low, high) in zip(weights, node.boxes))
    return total > 0


def classified(node: Node, values: Sequence[int], state: Sequence[int], answer: Answer) -> Tuple[str, Optional[List[int]]]:
    """Classifies an answer: Found, Infeasible with multipliers of rows that refute, or Unanswered.

    A ray's multipliers are whole. They are rounded down by one power of two after another, and the first that refute count.
    """
    if answer.kind == FOUND:
        return "Found", None
    if answer.kind == RAY:
        for places in SCALES:
            rows = [settled_row(row, dual >> places) for row, dual in zip(node.rows, answer.duals)]
            if refutes(node, values, state, rows):
                return "Infeasible", rows
    return "Unanswered", None
