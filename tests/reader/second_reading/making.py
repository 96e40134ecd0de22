"""Tables made from programs: the first one, of own rows alone, and one widened by the successors' columns and cuts."""
from __future__ import annotations

from typing import List, Sequence

from .numbers import LEAN, Numbers, Stop
from .program import Program, is_narrow
from .scaling import column_exponents, cost_exponent, successor_exponent, value_exponent
from .simplex import append
from .table import Table

MOST_COLUMNS = 1199
"""With more columns than these, sums of products could leave their range."""


def bare_table(numbers: Numbers, exponents: List[int], cost: int, value: int) -> Table:
    """A table without rows, in which each column stands at a bound of 0."""
    width = len(exponents)
    return Table(numbers=numbers, column_exponents=exponents, cost_exponent=cost, value_exponent=value, costs=[0] * width,
                 lows=[0] * width, highs=[0] * width, nonbasic=list(range(width)), at_high=[False] * width, reduced=[0] * width,
                 point=[0] * width)


def scale_columns(table: Table, program: Program, columns: Sequence[int]) -> None:
    """Sets bounds and costs of some columns, which stand where they began; a reduced cost is the column's cost."""
    numbers = table.numbers
    for number in columns:
        column, exponent = program.columns[number], table.column_exponents[number]
        places = table.value_exponent - exponent + numbers.point_shift
        table.lows[number] = numbers.value(numbers.shift(column.low, places))
        table.highs[number] = numbers.value(numbers.shift(column.high, places))
        cost_places = exponent + table.cost_exponent + numbers.cell_shift
        table.costs[number] = numbers.cell(numbers.shift(column.cost, cost_places))
        table.reduced[table.place(number)] = table.costs[number]


def refuse_many_columns(program: Program) -> None:
    """Stops where a program has more columns than the arithmetic allows."""
    if len(program.columns) > MOST_COLUMNS:
        raise Stop


def first(program: Program) -> Table:
    """The table of a program's own rows, in which each decision stands where its cost is least; cuts are not looked at."""
    refuse_many_columns(program)
    exponents = column_exponents(program)
    decisions = program.columns[:program.decisions]
    table = bare_table(LEAN, exponents, cost_exponent(decisions, exponents), value_exponent(program, exponents))
    scale_columns(table, program, range(program.decisions))
    table.at_high = [cost < 0 for cost in table.reduced]
    for row in program.own:
        append(table, row)
    return table


def widened_exponents(program: Program, exponents: Sequence[int], value: int) -> List[int]:
    """The exponents with those of the successors' columns, each found from the exponents as they were."""
    successors = range(program.decisions, len(exponents))
    return [*exponents[:program.decisions], *(successor_exponent(program, it, exponents, value) for it in successors)]


def widen(table: Table, program: Program, in_full: bool = False) -> None:
    """Gives the table the bounds and costs of the successors' columns, and rows of cuts, by successor and place.

    The cuts of a narrow successor wait until they are asked for, but `in_full` all come in. A column with a negative cost stands
    low all the same.
    """
    table.column_exponents = widened_exponents(program, table.column_exponents, table.value_exponent)
    scale_columns(table, program, range(program.decisions, table.width))
    for name in program.cut_names():
        if in_full or not is_narrow(program, name[0]):
            append(table, program.cut_row(name), name)
