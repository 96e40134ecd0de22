"""Scales with which the coefficients of a row stand within 10^5 of each other, where powers of ten of them can do that.

Outside the proved core. A variable's coefficient in a row shrinks as its scale grows. A found scale is raised where the
variable's own numbers leave room below the greatest number allowed, and lowered where they stay whole; one that a user
chose is left alone. Rows that stay wide are named.
"""
from __future__ import annotations

from dataclasses import dataclass, replace
from fractions import Fraction
from typing import Iterator

from .decimals import decimal_text
from .stochopt import Model
from .scales import CLOSE, Scales, SubproblemScales, bounds_of, complete, numbers_of_state, numbers_of_variable, rows_of

SPREAD = 10**5
MOST_DECADES = 12
ROUNDS = 20

Key = tuple[str, str]  # the subproblem, "" for a state, and the name
Sizes = dict[Key, Fraction]


@dataclass
class Row:
    """A row by its place, with the size of each variable's coefficient at the scales that were found."""

    place: str
    sizes: Sizes

    def at(self, shifts: dict[Key, int]) -> Sizes:
        """The sizes where each scale is multiplied by so many tens."""
        return {key: size / Fraction(10) ** shifts.get(key, 0) for key, size in self.sizes.items()}


def spread(sizes: Sizes) -> Fraction:
    """The greatest size divided by the least; 1 where there are none."""
    return max(sizes.values()) / min(sizes.values()) if sizes else Fraction(1)


def is_wide(sizes: Sizes) -> bool:
    """Whether sizes stand more than 10^5 apart."""
    return _excess(sizes) > 0


def complete_in_range(model: Model, chosen: Scales, largest: int) -> tuple[Scales, list[str]]:
    """All scales of a model, and a line for each row that is wider than 10^5."""
    scales = complete(model, chosen, largest)
    rows = list(_rows(model, scales))
    wide = [row for row in rows if is_wide(row.sizes)]
    if not wide or chosen.values is not None:
        return scales, [_note(row) for row in wide]
    shifts = _shifts(rows, wide, _Room(model, chosen, scales, largest))
    wanted = complete(model, _shifted(chosen, scales, shifts), largest)
    if _unwhole(model, wanted) <= _unwhole(model, scales):
        scales = wanted
    return scales, [_note(row) for row in _rows(model, scales) if is_wide(row.sizes)]


def _note(row: Row) -> str:
    least, most = (decimal_text(it, 9) for it in (min(row.sizes.values()), max(row.sizes.values())))
    return f"range: {row.place}: its coefficients are {least} to {most}, more than 10^5 apart: other units would serve the solver better"


def _rows(model: Model, scales: Scales) -> Iterator[Row]:
    for name, subproblem in model.subproblems.items():
        states = subproblem.states_of()
        for at in rows_of(subproblem):
            row = subproblem.constraints[at]
            sums: Sizes = {}
            for term in row.function.terms:
                state = states.get(term.variable)
                key = (name, term.variable) if state is None else ("", state)
                size = term.coefficient.value / scales.of_variable(name, subproblem, term.variable)
                sums[key] = sums.get(key, Fraction(0)) + abs(size)
            own = scales.subproblems[name].constraints[at]
            yield Row(row.place, {key: size * own for key, size in sums.items() if size})


@dataclass
class _Room:
    """How many tens a scale may be multiplied by, and divided by."""

    model: Model
    chosen: Scales
    scales: Scales
    largest: int

    def span(self, key: Key) -> tuple[int, int]:
        """The least and the greatest shift; none where the user chose the scale."""
        subproblem, name = key
        if subproblem:
            own = self.chosen.subproblems.get(subproblem, SubproblemScales())
            is_free, scale = name not in own.variables, self.scales.subproblems[subproblem].variables[name]
            numbers = numbers_of_variable(self.model, subproblem, name)
        else:
            is_free, scale = name not in self.chosen.states, self.scales.states[name]
            numbers = numbers_of_state(self.model, name)
        values = [abs(number * scale) for number in numbers if number]
        if not is_free:
            return 0, 0
        up = next(at for at in range(MOST_DECADES, -1, -1) if at == 0 or all(it * 10**at <= self.largest for it in values))
        down = next(at for at in range(MOST_DECADES, -1, -1) if at == 0 or all(_is_whole(it / 10**at) for it in values))
        return -down, up


def _shifts(rows: list[Row], wide: list[Row], room: _Room) -> dict[Key, int]:
    """Shifts that lower the tens by which rows are too wide, one wide row after the other, while they do."""
    touching = _touching(rows)
    spans = {key: room.span(key) for row in wide for key in row.sizes}
    shifts: dict[Key, int] = {}
    for _ in range(ROUNDS):
        before = shifts
        for row in wide:
            shifts = _improved(row, shifts, spans, touching)
        if shifts == before:
            break
    return {key: shift for key, shift in shifts.items() if shift}


def _touching(rows: list[Row]) -> dict[Key, list[Row]]:
    """The rows in which each variable stands."""
    found: dict[Key, list[Row]] = {}
    for key, row in ((key, row) for row in rows for key in row.sizes):
        found.setdefault(key, []).append(row)
    return found


def _improved(
    row: Row, shifts: dict[Key, int], spans: dict[Key, tuple[int, int]], touching: dict[Key, list[Row]],
) -> dict[Key, int]:
    """Shifts with which all rows together are less wide, found in one of them; the same where none are."""
    for candidate in (_raised(row, shifts, spans), _lowered(row, shifts, spans)):
        if _gain(candidate, shifts, touching) > 0:
            shifts = candidate
    return shifts


def _raised(row: Row, shifts: dict[Key, int], spans: dict[Key, tuple[int, int]]) -> dict[Key, int]:
    """The scales of too large coefficients raised, as far as their room goes."""
    sizes = row.at(shifts)
    most = min(sizes.values()) * SPREAD
    return {**shifts, **{
        key: min(shifts.get(key, 0) + _decades(size / most), spans[key][1]) for key, size in sizes.items() if size > most
    }}


def _lowered(row: Row, shifts: dict[Key, int], spans: dict[Key, tuple[int, int]]) -> dict[Key, int]:
    """The scales of too small coefficients lowered, as far as their room goes."""
    sizes = row.at(shifts)
    least = max(sizes.values()) / SPREAD
    return {**shifts, **{
        key: max(shifts.get(key, 0) - _decades(least / size), spans[key][0]) for key, size in sizes.items() if size < least
    }}


def _decades(ratio: Fraction) -> int:
    """The least number of tens whose product is at least a ratio, but for its last digits."""
    found = 0
    while 10**found * (1 + CLOSE) < ratio:
        found += 1
    return found


def _gain(candidate: dict[Key, int], shifts: dict[Key, int], touching: dict[Key, list[Row]]) -> int:
    """By how many tens fewer all rows are too wide."""
    changed = [key for key in candidate if candidate[key] != shifts.get(key, 0)]
    rows = {id(row): row for key in changed for row in touching[key]}.values()
    return sum(_excess(row.at(shifts)) - _excess(row.at(candidate)) for row in rows)


def _excess(sizes: Sizes) -> int:
    return _decades(spread(sizes) / SPREAD)


def _shifted(chosen: Scales, scales: Scales, shifts: dict[Key, int]) -> Scales:
    """What the user chose, with the shifted scales beside it."""
    wanted = replace(chosen, states=dict(chosen.states), subproblems={
        name: replace(chosen.subproblems.get(name, SubproblemScales())) for name in scales.subproblems
    })
    for own in wanted.subproblems.values():
        own.variables = dict(own.variables)
    for (subproblem, name), shift in shifts.items():
        ten = Fraction(10) ** shift
        if subproblem:
            wanted.subproblems[subproblem].variables[name] = scales.subproblems[subproblem].variables[name] * ten
        else:
            wanted.states[name] = scales.states[name] * ten
    return wanted


def _unwhole(model: Model, scales: Scales) -> int:
    """How many numbers of bounds, rows and costs are not whole at these scales."""
    return sum(not _is_whole(number) for number in _scaled(model, scales))


def _is_whole(number: Fraction) -> bool:
    """Whether a number is whole, or misses that by so little that its last digits were cut off, as those of a third are."""
    return abs(number - round(number)) <= CLOSE


def _scaled(model: Model, scales: Scales) -> Iterator[Fraction]:
    for name, subproblem in model.subproblems.items():
        own = scales.subproblems[name]
        for variable in subproblem.variables:
            scale = scales.of_variable(name, subproblem, variable)
            yield from (it.value * scale for it in bounds_of(subproblem, variable))
        for at in rows_of(subproblem):
            row = subproblem.constraints[at]
            for term in row.function.terms:
                yield term.coefficient.value * own.constraints[at] / scales.of_variable(name, subproblem, term.variable)
        for term in subproblem.objective.terms:
            yield term.coefficient.value * (scales.cost or 1) / scales.of_variable(name, subproblem, term.variable)
