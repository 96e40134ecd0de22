"""Multipliers of own rows that show that no point keeps these rows, whatever the cuts say.

Own rows are whole: their coefficients are multiples of one, and their sides and the bounds of decisions are multiples of what a
number of a program is finer than one of a cut. So whole multipliers give whole sums. Of numbers that are no such multiples only the
whole part would be seen, and no program of a stage has any.
"""
from __future__ import annotations

from typing import List, Optional, Sequence

from .numbers import bits, fits
from .program import FINER, UNIT, Program
from .table import Table

SCALES = range(0, 60, 4)
"""The powers of two by which multipliers are made smaller, one after another."""


class TooLong(Exception):
    """A number of a proof is not in 128 bits."""


def short(number: int) -> int:
    """The number, where 128 bits hold it."""
    if not fits(number, 128):
        raise TooLong
    return number


def clipped(program: Program, multipliers: Sequence[int]) -> List[int]:
    """The multipliers, with 0 where one is of a side that is absent: a positive one of a low, a negative one of a high."""
    return [0 if (it > 0 and row.low is None) or (it < 0 and row.high is None) else it
            for row, it in zip(program.own, multipliers)]


def surplus(program: Program, multipliers: Sequence[int]) -> int:
    """The least that the weighted sides exceed the weighted rows by, over the box of the decisions: no point where it is above 0.

    Every product and every sum on the way is tested for 128 bits.
    """
    total = 0
    weights = [0] * program.decisions
    for row, multiplier in zip(program.own, multipliers):
        if multiplier == 0:
            continue
        side = row.low if multiplier > 0 else row.high
        total = short(total + short(multiplier * (side // FINER)))
        for column, coefficient in row.terms:
            weights[column] = short(weights[column] - short(multiplier * (coefficient // UNIT)))
    for column, weight in zip(program.columns, weights):
        total = short(total + min(short(weight * (column.low // FINER)), short(weight * (column.high // FINER))))
    return total


def proves(program: Program, multipliers: Sequence[int]) -> bool:
    """Whether the multipliers, rounded down by one of the scales, leave a surplus. A scale with a number too long doesn't count."""
    for places in SCALES:
        try:
            if surplus(program, [it >> places for it in multipliers]) > 0:
                return True
        except TooLong:
            continue
    return False


def ray(table: Table, program: Program, variable: int, line: Sequence[int], sign: int) -> Optional[List[int]]:
    """The multipliers of own rows by which a violated basic variable can't be mended, where they prove it.

    They are the line's cells at nonbasic slacks of own rows, and one for the variable's own row, all in the program's scale, with
    60 digits for the greatest. One below 0 that is rounded down to -2^60 is taken like others.
    """
    numbers = table.numbers
    cells = {row: -sign * line[place] for row, place in table.nonbasic_slacks() if row < table.own and line[place] != 0}
    tops = [bits(cell) + table.row_exponents[row] for row, cell in cells.items()]
    violated_row = variable - table.width
    if 0 <= violated_row < table.own:
        cells[violated_row] = sign << numbers.cells
        tops.append(numbers.cells + 1 + table.row_exponents[violated_row])
    if not tops:
        return None
    multipliers = [0] * len(program.own)
    for row, cell in cells.items():
        multipliers[row] = numbers.shift(cell, table.row_exponents[row] + 60 - max(tops))
    multipliers = clipped(program, multipliers)
    return multipliers if proves(program, multipliers) else None
