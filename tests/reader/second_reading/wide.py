"""The last resort: the same method in numbers of 128 bits, with all rows in the table from the beginning, and nothing kept."""
from __future__ import annotations

from typing import Optional

from .making import bare_table, refuse_many_columns, scale_columns, widened_exponents
from .numbers import WIDE, Stop
from .program import Answer, Program
from .scaling import column_exponents, cost_exponent, value_exponent
from .simplex import append, pivot, refine, set_sides
from .table import Table
from .turns import finished, most_turns, take


def wide_table(program: Program) -> Table:
    """The table of a whole program in wide numbers, in which each column stands where its cost is least.

    The exponents are those of the lean table, but the costs of all columns count.
    """
    refuse_many_columns(program)
    own = program.without_cuts()
    exponents = column_exponents(own)
    value = value_exponent(own, exponents)
    exponents = widened_exponents(program, exponents, value)
    table = bare_table(WIDE, exponents, cost_exponent(program.columns, exponents), value)
    scale_columns(table, program, range(table.width))
    table.at_high = [cost < 0 for cost in table.reduced]
    for row in program.own:
        append(table, row)
    for name in program.cut_names():
        append(table, program.cut_row(name), name)
    return table


def wide_turns(table: Table, program: Program) -> Optional[Answer]:
    """The answer after turns that refine the point each time; it is found where two turns in a row have nothing to mend."""
    table.weak = table.poor = False
    set_sides(table, program.all_rows())
    rested = False
    for _ in range(most_turns(table)):
        refine(table)
        taken = take(table, program)
        if taken.ray is not None:
            return taken.ray
        if taken.entering is not None:
            pivot(table, taken.violation.variable, taken.violation.sign, taken.line, taken.entering.place, taken.entering.flips)
            rested = False
        elif rested:
            return finished(table, program, taken.passed_over)
        else:
            rested = True
    return None


def wide_answer(program: Program) -> Optional[Answer]:
    """The answer in wide numbers; none where a number leaves its range or the turns run out."""
    try:
        return wide_turns(wide_table(program), program)
    except Stop:
        return None
