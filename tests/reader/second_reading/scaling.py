"""Exponents of two that bring the numbers of a program near one size, found from the numbers of digits alone."""
from __future__ import annotations

from typing import List, Sequence, Tuple

from .numbers import bits
from .program import Column, Program, Row

MIDDLE = 33
"""The digits that scaled coefficients are to have, one in the middle between the greatest and the least."""


def range_digits(column: Column) -> int:
    """The digits of the greater bound of a column."""
    return max(bits(column.low), bits(column.high))


def middle(digits: Sequence[int]) -> int:
    """The number in the middle between the greatest and the least, rounded down."""
    return (max(digits) + min(digits)) // 2


def counting_terms(program: Program, row: Row) -> List[Tuple[int, int]]:
    """The terms that a row's scale looks at, each as its column and the digits of its coefficient.

    A term counts where coefficient and range together have at most 20 digits less than those of the row's greatest term.
    """
    sizes = [(column, bits(term), bits(term) + range_digits(program.columns[column])) for column, term in row.terms]
    most = max((size for _, _, size in sizes), default=0)
    return [(column, digits) for column, digits, size in sizes if size >= max(0, most - 20)]


def column_exponents(program: Program) -> List[int]:
    """The exponents of all columns: rows and decisions are brought to the middle in turn, four times; the others have 0."""
    counting = [counting_terms(program, row) for row in program.own]
    rows, columns = [0] * len(counting), [0] * len(program.columns)
    for _ in range(4):
        for number, terms in enumerate(counting):
            if terms:
                rows[number] = MIDDLE - middle([digits + columns[column] for column, digits in terms])
        for decision in range(program.decisions):
            seen = [digits + rows[number] for number, terms in enumerate(counting) for column, digits in terms
                    if column == decision]
            if seen:
                columns[decision] = max(0, MIDDLE - middle(seen))
    return columns


def cost_exponent(columns: Sequence[Column], exponents: Sequence[int]) -> int:
    """The exponent that gives the greatest scaled cost 32 digits; 0 where no column has a cost."""
    sizes = [bits(column.cost) + exponent for column, exponent in zip(columns, exponents) if column.cost != 0]
    return 32 - max(sizes) if sizes else 0


def value_exponent(program: Program, exponents: Sequence[int]) -> int:
    """The exponent, 0 or below, that leaves the bounds of decisions at most 54 digits."""
    sizes = [range_digits(program.columns[it]) - exponents[it] for it in range(program.decisions)]
    return min(0, 54 - max(sizes)) if sizes else 0


def successor_exponent(program: Program, column: int, exponents: Sequence[int], value: int) -> int:
    """The exponent of a successor's column, by all its cuts, whether their rows are in the table or not.

    For each cut the greatest scaled slope counts, unless it has no digits. Those of more than 20 digits less than the greatest one
    are taken as of 20 less.
    """
    tops = []
    for row in (program.cut_row(name) for name in program.cut_names()):
        if row.terms and row.terms[-1][0] == column:
            top = max((bits(term) + exponents[it] for it, term in row.terms[:-1]), default=0)
            if top != 0:
                tops.append(top)
    most, least = max(tops, default=0), min(tops, default=0)
    by_slopes = (most + max(least, most - 20)) // 2 - MIDDLE
    return max(0, by_slopes, range_digits(program.columns[column]) + value - 54)
