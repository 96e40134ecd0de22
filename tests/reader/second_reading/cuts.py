"""Cuts made of certificates, over the pools that these were found with, and the bound that pools give."""
from __future__ import annotations

from typing import Iterator, List, Optional, Sequence, Tuple

from .node import UNIT, StageRow, product
from .numbers import fits
from .problem import Place, Problem
from .program import Cut
from .settling import Certificate

Pools = List[List[Cut]]
"""The cuts of each node by place."""


class OutOfRange(Exception):
    """The sizes of all products of a cut, before anything cancels, leave 128 bits at a realization."""

    def __init__(self, realization: int) -> None:
        super().__init__(realization)
        self.realization = realization


def side_of(row: StageRow, multiplier: int) -> int:
    """The side on which a multiplier stands; 0 for none."""
    return 0 if multiplier == 0 else row.low if multiplier > 0 else row.high


def tight_cuts(place: Place, pools: Pools, certificate: Certificate) -> Iterator[Tuple[Cut, int]]:
    """The cuts of successors that a certificate names, with their multipliers."""
    for (number, _), pairs in zip(place.successors, certificate.cuts):
        yield from ((pools[number][it], multiplier) for it, multiplier in pairs)


def reduced_costs(place: Place, pools: Pools, certificate: Certificate) -> List[int]:
    """Returns the reduced cost of each decision: its cost less what rows and cuts give for a unit of it."""
    stage = place.stage
    reduced = [UNIT * UNIT * place.total * it for it in stage.node.costs]
    for row, multiplier in zip(stage.node.rows, certificate.rows):
        for decision, coefficient in row.terms:
            reduced[decision] -= UNIT * multiplier * coefficient
    for cut, multiplier in tight_cuts(place, pools, certificate):
        for out, slope in zip(stage.outs, cut.slopes):
            reduced[out] += multiplier * slope
    return reduced


def constant_of(place: Place, pools: Pools, values: Sequence[int], certificate: Certificate) -> int:
    """Returns a lower bound on a realization's cost, but for the part that depends on the incoming state; at 2^48 times the weights for one."""
    stage = place.stage
    total = UNIT * UNIT * place.total * (stage.costs.constant + product(stage.costs.randoms, values))
    for row, multiplier in zip(stage.node.rows, certificate.rows):
        total += UNIT * multiplier * (side_of(row, multiplier) - product(row.randoms, values))
    total += sum(multiplier * cut.alpha for cut, multiplier in tight_cuts(place, pools, certificate))
    reduced = reduced_costs(place, pools, certificate)
    return total + sum(min(it * low, it * high) for it, (low, high) in zip(reduced, stage.node.boxes))


def slopes_of(place: Place, certificate: Certificate) -> List[int]:
    """By how much that rises with each incoming state."""
    slopes = [UNIT * UNIT * place.total * it for it in place.stage.costs.states]
    for row, multiplier in zip(place.stage.node.rows, certificate.rows):
        slopes = [slope - UNIT * multiplier * it for slope, it in zip(slopes, row.states)]
    return slopes


def size_of(place: Place, pools: Pools, values: Sequence[int], certificate: Certificate) -> int:
    """The sum of the sizes of all products of a realization, before anything cancels."""
    stage, unit = place.stage, UNIT * UNIT * place.total
    total = unit * (abs(stage.costs.constant) + sum(abs(one * other) for one, other in zip(stage.costs.randoms, values)))
    greatest = [max(1, abs(low), abs(high)) for low, high in stage.node.boxes]
    coming = [max(1, abs(low), abs(high)) for low, high in place.box]
    total += unit * (sum(abs(cost) * most for cost, most in zip(stage.node.costs, greatest))
                     + sum(abs(cost) * most for cost, most in zip(stage.costs.states, coming)))
    for row, multiplier in zip(stage.node.rows, certificate.rows):
        parts = abs(side_of(row, multiplier)) + sum(abs(one * other) for one, other in zip(row.randoms, values))
        parts += sum(abs(it) * greatest[decision] for decision, it in row.terms)
        parts += sum(abs(it) * most for it, most in zip(row.states, coming))
        total += UNIT * abs(multiplier) * parts
    for cut, multiplier in tight_cuts(place, pools, certificate):
        total += multiplier * (abs(cut.alpha) + sum(abs(slope) * greatest[out] for out, slope in zip(stage.outs, cut.slopes)))
    return total


def refuse_size(place: Place, pools: Pools, certificates: Sequence[Certificate], rests: Sequence[int]) -> None:
    """Says at which realization the sizes leave 128 bits, or behind the last one where what rounding leaves does it."""
    total = 0
    for number, (realization, certificate) in enumerate(zip(place.realizations, certificates)):
        total += realization.weight * size_of(place, pools, realization.values, certificate)
        if not fits(total, 128):
            raise OutOfRange(number)
    if not fits(total + sum(rest * abs(low) for rest, (low, _) in zip(rests, place.box)), 128):
        raise OutOfRange(len(certificates))


def cut_of(place: Place, pools: Pools, certificates: Sequence[Certificate]) -> Cut:
    """The cut of a list of certificates, one for each realization: the average of what they show, rounded down over the box."""
    weights = [it.weight for it in place.realizations]
    divisor = UNIT * place.total * sum(weights)
    constant = sum(it.weight * constant_of(place, pools, it.values, certificate)
                   for it, certificate in zip(place.realizations, certificates))
    each = [slopes_of(place, it) for it in certificates]
    sums = [product(weights, column) for column in zip(*each)]
    slopes, rests = [it // divisor for it in sums], [it % divisor for it in sums]
    refuse_size(place, pools, certificates, rests)
    return Cut((constant + sum(rest * low for rest, (low, _) in zip(rests, place.box))) // divisor, tuple(slopes))


def base_certificate(place: Place) -> Certificate:
    """The certificate without a solve: no row counts, and all weight of a successor is on its first cut."""
    return Certificate((0,) * len(place.stage.node.rows), tuple(((0, UNIT * weight),) for _, weight in place.successors))


def base_pools(problem: Problem) -> Pools:
    """The first cut of each node."""
    pools: Pools = [[] for _ in problem.places]
    for number in problem.backwards():
        place = problem.places[number]
        pools[number].append(cut_of(place, pools, [base_certificate(place)] * len(place.realizations)))
    return pools


def value_of(pool: Sequence[Cut], state: Sequence[int]) -> int:
    """The greatest value of cuts at a state in whole units."""
    return max(cut.alpha + product(cut.slopes, state) for cut in pool)


def bound_of(problem: Problem, pools: Pools, initial: Optional[Sequence[int]] = None) -> int:
    """Returns the lower bound on the cost of each policy, at 2^24 for one."""
    state = problem.initial if initial is None else initial
    total = sum(weight * value_of(pools[number], state) for number, weight in problem.root)
    return total // sum(weight for _, weight in problem.root)
