"""The table that goes from one program of a chain to the next: scaled rows, a basis, and lines of the basic columns."""
from __future__ import annotations

from dataclasses import dataclass, field, replace
from typing import Dict, List, Optional, Tuple

from .numbers import Numbers
from .program import CutName

ScaledTerms = List[Tuple[int, int]]
Basis = Tuple[List[int], List[bool]]


@dataclass
class Table:
    """Variables are the columns, numbered from 0, and then a slack for each row of the table, in the order in which rows came.

    The variable `nonbasic[j]` stands at place j, at its upper bound where `at_high[j]`, and `reduced[j]` is its reduced cost; the
    reduced cost of a slack is its row's dual. Each basic column is a sum of the nonbasic variables, with the cells of `lines`.
    Basic slacks have no line. `weak` says of the last point found that it is not to be trusted, and `poor` that it is
    far from the best one too, or beside a bound.
    """

    numbers: Numbers
    column_exponents: List[int]
    cost_exponent: int
    value_exponent: int
    costs: List[int]
    lows: List[int]
    highs: List[int]
    nonbasic: List[int]
    at_high: List[bool]
    reduced: List[int]
    point: List[int]
    own: int = 0
    lines: Dict[int, List[int]] = field(default_factory=dict)
    row_exponents: List[int] = field(default_factory=list)
    rows: List[ScaledTerms] = field(default_factory=list)
    row_lows: List[Optional[int]] = field(default_factory=list)
    row_highs: List[Optional[int]] = field(default_factory=list)
    cuts: List[CutName] = field(default_factory=list)
    weak: bool = False
    poor: bool = False

    @property
    def width(self) -> int:
        """The number of columns, which is that of places too."""
        return len(self.costs)

    def place(self, variable: int) -> Optional[int]:
        """The place at which a variable stands; none where it is basic."""
        return self.nonbasic.index(variable) if variable in self.nonbasic else None

    def is_column(self, variable: int) -> bool:
        """Whether a variable is a column, and no slack."""
        return variable < self.width

    def low(self, variable: int) -> Optional[int]:
        """The lower bound of a column, or the lower side of a slack's row where it is there."""
        return self.lows[variable] if self.is_column(variable) else self.row_lows[variable - self.width]

    def high(self, variable: int) -> Optional[int]:
        """The upper bound of a column, or the upper side of a slack's row where it is there."""
        return self.highs[variable] if self.is_column(variable) else self.row_highs[variable - self.width]

    def stand(self, place: int) -> int:
        """Where the variable of a place stands: its upper or its lower bound, and 0 where that side is absent."""
        variable = self.nonbasic[place]
        bound = self.high(variable) if self.at_high[place] else self.low(variable)
        return 0 if bound is None else bound

    def basic_columns(self) -> List[int]:
        """The basic columns, rising."""
        return sorted(self.lines)

    def basic_variables(self) -> List[int]:
        """The basic columns and slacks, rising."""
        return [it for it in range(self.width + len(self.rows)) if it not in self.nonbasic]

    def nonbasic_slacks(self) -> List[Tuple[int, int]]:
        """The rows whose slacks are nonbasic, each with its slack's place, by place."""
        return [(it - self.width, place) for place, it in enumerate(self.nonbasic) if not self.is_column(it)]

    def activity(self, row: int) -> int:
        """The value of a row at the table's point, rounded once."""
        total = sum(coefficient * self.point[column] for column, coefficient in self.rows[row])
        return self.numbers.value(self.numbers.down(total))

    def basis(self) -> Basis:
        """A copy of what stands at each place, and at which bound."""
        return list(self.nonbasic), list(self.at_high)

    def set_basis(self, basis: Basis) -> None:
        """Puts back what stood at each place; lines and point are then those of another basis, and of no use."""
        self.nonbasic, self.at_high = list(basis[0]), list(basis[1])

    def copy(self) -> Table:
        """A table of its own, equal to this one. A row's terms never change, so both have the same."""
        lists = {name: list(it) for name, it in vars(self).items() if isinstance(it, list)}
        return replace(self, lines={column: list(line) for column, line in self.lines.items()}, **lists)
