"""The steps of the bounded dual simplex on a table: rows, points, lines, what enters, pivots, and what a table says in the end.

The method: Lemke, 1954, and Wagner, 1958, with passing of bounds after Maros, 2003. A step that meets a number out of range raises
Stop.
"""
from __future__ import annotations

from dataclasses import dataclass
from fractions import Fraction
from typing import Dict, List, Optional, Sequence, Tuple

from .numbers import bits, in_128, towards_zero
from .program import FINER, FOUND, Answer, CutName, Program, Row
from .table import Table


TRUSTED = 26
"""The binary digits to which the cost of a point and what its duals show have to be the same, or the answer is weak."""
NEAR = 18
"""The binary digits to which they have to be the same, or a weak answer is poor."""


@dataclass(frozen=True)
class Violation:
    """A basic variable that is outside its bounds: by how much, and the sign 1 below its low and -1 above its high."""

    amount: int
    variable: int
    sign: int


@dataclass(frozen=True)
class Entering:
    """The place that enters, the places that pass to their other bound before it, and what these leave of the violation."""

    place: int
    flips: Tuple[int, ...]
    rest: int


def scaled_side(table: Table, side: Optional[int], exponent: int) -> Optional[int]:
    """A side of a row in the table's scale, where it is there."""
    if side is None:
        return None
    numbers = table.numbers
    return numbers.value(numbers.shift(side, exponent + table.value_exponent + numbers.point_shift))


def append(table: Table, row: Row, cut: Optional[CutName] = None) -> None:
    """Puts a row behind the table's last, with its slack basic; the table is as it was where a number leaves its range.

    The row's exponent gives its greatest scaled coefficient 32 digits.
    """
    numbers, columns = table.numbers, table.column_exponents
    exponent = 32 - max(bits(term) + columns[it] for it, term in row.terms) if row.terms else 0
    terms = [(it, numbers.cell(numbers.shift(term, exponent + columns[it] + numbers.cell_shift))) for it, term in row.terms]
    low, high = scaled_side(table, row.low, exponent), scaled_side(table, row.high, exponent)
    table.row_exponents.append(exponent)
    table.rows.append(terms)
    table.row_lows.append(low)
    table.row_highs.append(high)
    if cut is None:
        table.own += 1
    else:
        table.cuts.append(cut)


def drop_last(table: Table) -> None:
    """Takes away the row of a cut that was appended last."""
    for rows in (table.row_exponents, table.rows, table.row_lows, table.row_highs, table.cuts):
        rows.pop()


def set_sides(table: Table, rows: Sequence[Row]) -> None:
    """Sets the sides of the table's first rows anew; all others keep theirs."""
    for number, row in enumerate(rows):
        exponent = table.row_exponents[number]
        table.row_lows[number] = scaled_side(table, row.low, exponent)
        table.row_highs[number] = scaled_side(table, row.high, exponent)


def refine(table: Table) -> None:
    """Takes the point of the basis closer to the original rows.

    Nonbasic columns go to their bounds. What then is missing to each nonbasic slack's stand moves the basic columns.
    """
    numbers = table.numbers
    for place, variable in enumerate(table.nonbasic):
        if table.is_column(variable):
            table.point[variable] = table.stand(place)
    missing = {place: numbers.value(table.stand(place) - table.activity(row)) for row, place in table.nonbasic_slacks()}
    for column in table.basic_columns():
        move_column(table, column, missing)


def move_column(table: Table, column: int, amounts: Dict[int, int]) -> None:
    """Moves a basic column by what the variables at some places move, rounded once."""
    line = table.lines[column]
    total = sum(line[place] * amount for place, amount in amounts.items())
    table.point[column] = table.numbers.value(table.point[column] + table.numbers.down(total))


def line_of(table: Table, variable: int) -> List[int]:
    """The cells by which a basic variable is a sum of the nonbasic ones; a slack's are those of its row's terms, added up."""
    if table.is_column(variable):
        return list(table.lines[variable])
    numbers = table.numbers
    line = [0] * table.width
    for column, coefficient in table.rows[variable - table.width]:
        place = table.place(column)
        if place is not None:
            line[place] = numbers.cell(line[place] + coefficient)
            continue
        for other, cell in enumerate(table.lines[column]):
            if cell != 0:
                line[other] = numbers.cell(line[other] + numbers.down(coefficient * cell))
    return line


def is_eligible(table: Table, place: int, cell: int, sign: int) -> bool:
    """Whether the variable at a place may move so as to mend a violation of that sign, by a cell that is not too small."""
    if abs(cell) < table.numbers.least_pivot:
        return False
    if sign * cell > 0 if table.at_high[place] else sign * cell < 0:
        return False
    low, high = table.low(table.nonbasic[place]), table.high(table.nonbasic[place])
    return low is None or high is None or low != high


def ratio(table: Table, place: int, cell: int) -> Fraction:
    """Returns the cost of a unit of the violation at a place; a reduced cost of the wrong sign, or within the noise, counts as 0."""
    reduced = table.reduced[place]
    cost = max(0, -reduced) if table.at_high[place] else max(0, reduced)
    return Fraction(0 if cost < table.numbers.noise else cost, abs(cell))


def enter(table: Table, line: Sequence[int], sign: int, amount: int) -> Optional[Entering]:
    """The place that enters: none where all that may move pass to their other bounds and a violation is left.

    Places come by rising ratio, then by falling size of their cells, then by variable.
    """
    numbers = table.numbers
    eligible = [place for place, cell in enumerate(line) if is_eligible(table, place, cell, sign)]
    eligible.sort(key=lambda it: (ratio(table, it, line[it]), -abs(line[it]), table.nonbasic[it]))
    left, flips = amount, []
    for place in eligible:
        rest = left
        low, high = table.low(table.nonbasic[place]), table.high(table.nonbasic[place])
        if low is None or high is None:
            return Entering(place, tuple(flips), rest)
        left -= numbers.down(abs(line[place]) * (high - low))
        if left <= numbers.tolerance:
            return Entering(place, tuple(flips), rest)
        flips.append(place)
    return None


def move(table: Table, violation: Violation, line: Sequence[int], entering: Entering) -> None:
    """Takes the point along the flips and the entering variable, before the basis changes."""
    numbers, place = table.numbers, entering.place
    size = numbers.value(towards_zero(entering.rest << numbers.cells, abs(line[place])))
    amounts = {place: -size if (violation.sign < 0) != (line[place] < 0) else size}
    for flip in entering.flips:
        span = table.high(table.nonbasic[flip]) - table.low(table.nonbasic[flip])
        amounts[flip] = -span if table.at_high[flip] else span
    for column in table.basic_columns():
        if column != violation.variable:
            move_column(table, column, amounts)
    for flip in entering.flips:
        variable = table.nonbasic[flip]
        if table.is_column(variable):
            table.point[variable] = table.low(variable) if table.at_high[flip] else table.high(variable)
    if table.is_column(table.nonbasic[place]):
        table.point[table.nonbasic[place]] = numbers.value(table.stand(place) + amounts[place])
    if table.is_column(violation.variable):
        leaving = violation.variable
        table.point[leaving] = table.low(leaving) if violation.sign > 0 else table.high(leaving)


def entering_line(table: Table, line: Sequence[int], place: int) -> List[int]:
    """The line of the variable that enters: the leaving one's line, solved for it."""
    numbers, pivot = table.numbers, line[place]
    digits = bits(pivot)
    inverse = towards_zero(1 << (digits + numbers.inverse), pivot)
    places = digits + numbers.inverse - numbers.cells
    made = []
    for number, cell in enumerate(line):
        cell = -(1 << numbers.cells) if number == place else cell
        made.append(0 if cell == 0 else numbers.cell(-((cell * inverse + (1 << (places - 1))) >> places)))
    return made


def put_in(table: Table, cells: List[int], place: int, made: Sequence[int]) -> None:
    """Puts the entering variable's line in its place in another line."""
    numbers, factor = table.numbers, cells[place]
    if factor == 0:
        return
    cells[place] = 0
    for number, cell in enumerate(made):
        if cell != 0:
            cells[number] = numbers.cell(cells[number] + numbers.down(factor * cell))


def pivot(table: Table, leaving: int, sign: int, line: Sequence[int], place: int, flips: Sequence[int] = ()) -> None:
    """Takes the variable at a place into the basis for one that leaves, below its low or above its high by the sign."""
    entering = table.nonbasic[place]
    made = entering_line(table, line, place)
    table.lines.pop(leaving, None)
    for column in table.basic_columns():
        put_in(table, table.lines[column], place, made)
    put_in(table, table.reduced, place, made)
    if table.is_column(entering):
        table.lines[entering] = made
    for flip in flips:
        table.at_high[flip] = not table.at_high[flip]
    table.nonbasic[place] = leaving
    table.at_high[place] = sign < 0


def finish(table: Table) -> None:
    """Computes duals and reduced costs anew from the original rows, and whether the gap to the dual bound is too great, or far so."""
    numbers = table.numbers
    slacks = table.nonbasic_slacks()
    for row, place in slacks:
        dual = table.reduced[place]
        if (dual > 0 and table.row_lows[row] is None) or (dual < 0 and table.row_highs[row] is None):
            table.reduced[place] = 0
    exact = [cost << numbers.cells for cost in table.costs]
    for row, place in slacks:
        for column, coefficient in table.rows[row]:
            exact[column] -= coefficient * table.reduced[place]
    reduced = [numbers.cell(numbers.down(it)) for it in exact]
    for place, variable in enumerate(table.nonbasic):
        if table.is_column(variable):
            table.reduced[place] = reduced[variable]
    primal = sum(cost * value for cost, value in zip(table.costs, table.point))
    dual = sum(it * (low if it > 0 else high) for it, low, high in zip(reduced, table.lows, table.highs))
    for row, place in slacks:
        if table.reduced[place] != 0:
            dual += table.reduced[place] * (table.row_lows if table.reduced[place] > 0 else table.row_highs)[row]
    table.weak, table.poor = (primal - dual > ((abs(primal) + abs(dual)) >> it) + numbers.gap for it in (TRUSTED, NEAR))


def column_point(table: Table, program: Program, column: int) -> int:
    """The value of a column in the program's numbers: its bound, or where it is basic a multiple of 2^8 within its bounds.

    What is made of it on the way is within 128 bits, or the attempt stops.
    """
    bounds, place = program.columns[column], table.place(column)
    if place is not None:
        return bounds.high if table.at_high[place] else bounds.low
    exponent = table.column_exponents[column] - table.value_exponent - table.numbers.point_shift
    made = in_128(table.numbers.shift(table.point[column], exponent) + FINER // 2) // FINER * FINER
    return min(max(made, bounds.low), bounds.high)


def found(table: Table, program: Program) -> Answer:
    """The point and the duals of a table in the program's numbers; a dual that 128 bits don't hold ends the attempt."""
    point = tuple(column_point(table, program, column) for column in range(table.width))
    duals = {}
    for row, place in table.nonbasic_slacks():
        exponent = table.row_exponents[row] - table.cost_exponent - table.numbers.cell_shift
        dual = in_128(table.numbers.shift(table.reduced[place], exponent))
        duals[row if row < table.own else table.cuts[row - table.own]] = dual
    names = [*range(table.own), *program.cut_names()]
    return Answer(FOUND, point, tuple(duals.get(name, 0) for name in names), table.weak, table.poor)
