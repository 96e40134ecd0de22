"""Programs as the solver takes them: columns, the problem's own rows, and for each successor the cuts of its cost."""
from __future__ import annotations

from dataclasses import dataclass, replace
from functools import cached_property
from typing import Dict, List, Mapping, Optional, Sequence, Tuple

from .numbers import RAW_DIGITS, bits

UNIT = 1 << RAW_DIGITS
"""One, in the numbers of a program."""

CUT_UNIT = 1 << 24
"""One, in the numbers of a cut."""

FINER = UNIT // CUT_UNIT
"""By how much a number of a program is finer than one of a cut."""

Terms = Tuple[Tuple[int, int], ...]
"""Columns with their coefficients."""

CutName = Tuple[int, int]
"""A successor, and the place of one of its cuts."""


@dataclass(frozen=True)
class Column:
    """A variable between two bounds, and its cost."""

    low: int
    high: int
    cost: int


@dataclass(frozen=True)
class Row:
    """A sum of terms, and the sides between which it is to lie; a side that is None is absent."""

    low: Optional[int]
    high: Optional[int]
    terms: Terms


@dataclass(frozen=True)
class Cut:
    """A lower bound on a successor's cost: alpha and, for each state, a slope times the state."""

    alpha: int
    slopes: Tuple[int, ...]


@dataclass(frozen=True)
class Program:
    """A program: the first `decisions` columns are decisions, and one column for each successor follows, for its cost.

    `outs` has for each state the decision that is its next value; `pools` has the cuts of each successor by place.
    """

    decisions: int
    columns: Tuple[Column, ...]
    own: Tuple[Row, ...]
    outs: Tuple[int, ...]
    pools: Tuple[Tuple[Cut, ...], ...]

    def cut_names(self) -> List[CutName]:
        """All cuts, by successor and place, which is the order of their rows in the program."""
        return [(successor, place) for successor, pool in enumerate(self.pools) for place in range(len(pool))]

    @cached_property
    def cut_rows(self) -> Dict[CutName, Row]:
        """The rows of all cuts."""
        return {name: self.row_of(name[0], self.pools[name[0]][name[1]]) for name in self.cut_names()}

    @cached_property
    def narrow(self) -> Tuple[bool, ...]:
        """Of each successor, whether the rows of all its cuts are narrow."""
        names = self.cut_names()
        wide = {successor for successor, place in names if not is_narrow_row(self, self.cut_row((successor, place)))}
        return tuple(successor not in wide for successor in range(len(self.pools)))

    def cut_row(self, name: CutName) -> Row:
        """The row of a cut."""
        return self.cut_rows[name]

    def row_of(self, successor: int, cut: Cut) -> Row:
        """Returns the row of a cut: the successor's cost, less slopes times states, is at least alpha."""
        sums = {column: 0 for column in sorted(set(self.outs))}
        for column, slope in zip(self.outs, cut.slopes):
            sums[column] -= FINER * slope
        terms = [(column, total) for column, total in sums.items() if total != 0]
        return Row(FINER * cut.alpha, None, (*terms, (self.decisions + successor, UNIT)))

    def all_rows(self) -> List[Row]:
        """The own rows, then the rows of all cuts."""
        return [*self.own, *map(self.cut_row, self.cut_names())]

    def without_cuts(self) -> Program:
        """The own rows alone, where nothing is to come: no cuts, and bounds and costs of 0 for the successors' columns."""
        nothing = [Column(0, 0, 0)] * (len(self.columns) - self.decisions)
        return replace(self, columns=(*self.columns[:self.decisions], *nothing), pools=((),) * len(self.pools))

    def with_sides(self, sides: Sequence[Tuple[Optional[int], Optional[int]]]) -> Program:
        """Returns the program with other sides of its own rows. The facts computed about its cuts are kept."""
        other = replace(self, own=tuple(Row(low, high, row.terms) for row, (low, high) in zip(self.own, sides)))
        vars(other).update(cut_rows=self.cut_rows, narrow=self.narrow)
        return other


def is_narrow_row(program: Program, row: Row) -> bool:
    """Whether the values of a cut's row can be compared in 128 bits.

    Its low has at most 108 digits, it has at most 51 terms, and each but the last, which is the successor's cost, has a coefficient of at
    most 65 digits in a column whose bounds have at most 71 each.
    """
    columns = program.columns
    return (bits(row.low) <= 108 and len(row.terms) <= 51
            and all(bits(term) <= 65 and max(bits(columns[it].low), bits(columns[it].high)) <= 71 for it, term in row.terms[:-1]))


def is_narrow(program: Program, successor: int) -> bool:
    """Whether the rows of all cuts of a successor are narrow, so that these can wait until one is asked for."""
    return program.narrow[successor]


def value_at(row: Row, states: Mapping[int, int]) -> int:
    """The value of a cut's row, at 2^48 for one, where columns have these numbers at 2^24 for one."""
    return CUT_UNIT * (row.low // FINER) + sum((-term // FINER) * states[column] for column, term in row.terms[:-1])


FOUND, RAY, STUCK = "Found", "Ray", "Stuck"


@dataclass(frozen=True)
class Answer:
    """The answer of a solve: a point with duals, multipliers that show that no point keeps the own rows, or nothing.

    `duals` has one number for each row of the program, cuts among them. `weak`: the point is found, and not to be trusted. `poor`: it is weak,
    and far from the best one or beside a bound.
    """

    kind: str
    point: Tuple[int, ...]
    duals: Tuple[int, ...]
    weak: bool = False
    poor: bool = False

    @property
    def is_good(self) -> bool:
        """Whether no other attempt is needed: a ray is proved by its making, and a point is good where it is not weak."""
        return self.kind == RAY or (self.kind == FOUND and not self.weak)


def without_point(program: Program, kind: str, own_duals: Sequence[int]) -> Answer:
    """An answer that claims no point: all columns at low, and duals for own rows alone."""
    cuts = len(program.cut_names())
    return Answer(kind, tuple(column.low for column in program.columns), (*own_duals, *[0] * cuts))
