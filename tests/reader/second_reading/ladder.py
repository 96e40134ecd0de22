"""The attempts at an answer, one after another: the chain's table, the same basis in a clean one, a new table, wide numbers."""
from __future__ import annotations

from typing import Dict, Optional, Set, Tuple

from .making import first, widen
from .numbers import Stop
from .program import STUCK, Answer, Program, without_point
from .simplex import line_of, pivot
from .table import Table
from .turns import Trace, go
from .wide import wide_answer

Chain = Optional[Table]
"""The state that goes from one program of a chain to the next: a table, or none."""


def rebuild(table: Table) -> bool:
    """Takes the basis of a table into a clean one of the same rows, and says whether no number left its range."""
    tight = sorted(row for row, _ in table.nonbasic_slacks())
    was_high = dict(zip(table.nonbasic, table.at_high))
    were_basic = {it for it in range(table.width) if it not in table.nonbasic}
    table.nonbasic, table.at_high = list(range(table.width)), [False] * table.width
    table.reduced, table.point, table.lines = list(table.costs), [0] * table.width, {}
    try:
        for row in tight:
            make_tight(table, row, were_basic, was_high)
    except Stop:
        return False
    for place, variable in enumerate(table.nonbasic):
        if table.is_column(variable):
            reduced = table.reduced[place]
            table.at_high[place] = reduced < 0 or (reduced == 0 and was_high.get(variable, False))
    return True


def make_tight(table: Table, row: int, were_basic: Set[int], was_high: Dict[int, bool]) -> None:
    """Takes the slack of a row out of the basis for a column that was basic, that of the greatest cell, ties by place.

    Where the greatest is too small, the slack stays. As many columns were basic as rows are tight, so one is always left.
    """
    slack = table.width + row
    line = line_of(table, slack)
    places = [place for place, variable in enumerate(table.nonbasic) if variable in were_basic]
    best = max(places, key=lambda place: (abs(line[place]), -place))
    if abs(line[best]) >= table.numbers.least_pivot:
        pivot(table, slack, -1 if was_high[slack] else 1, line, best)


def attempt(table: Table, program: Program, trace: Trace) -> Optional[Answer]:
    """The answer of a table, with a word in the trace where it is of no use."""
    answer = go(table, program, trace)
    if answer is None:
        trace.append("stuck")
    elif not answer.is_good:
        trace.append("weak")
    return answer


def warm(table: Table, program: Program, trace: Trace) -> Tuple[Optional[Answer], Chain]:
    """The answer of a chain's table; where it is of no use, that of the same basis in a clean table where there is one."""
    answer = attempt(table, program, trace)
    if answer is not None and answer.is_good:
        return answer, table
    again = attempt(table, program, trace) if rebuild(table) else None
    return (answer, None) if again is None else (again, table)


def anew(program: Program, trace: Trace) -> Tuple[Optional[Answer], Chain]:
    """The answer of a new table that has the rows of all cuts from the beginning."""
    trace.append("anew")
    try:
        table = first(program.without_cuts())
        widen(table, program, in_full=True)
    except Stop:
        return None, None
    answer = attempt(table, program, trace)
    return answer, None if answer is None else table


def is_useful(answer: Optional[Answer], chain: Chain) -> bool:
    """Whether the last attempt left an answer, and with its table one that is not poor."""
    return answer is not None and chain is not None and not answer.poor


def answer_of(chain: Chain, program: Program, trace: Trace) -> Tuple[Answer, Chain]:
    """The answer to a chain's next program, and what the chain then holds. The table handed in is used up.

    A weak answer stays where no later attempt gives one. Without any answer the program is stuck.
    """
    answer: Optional[Answer] = None
    if chain is not None:
        answer, chain = warm(chain, program, trace)
    if not is_useful(answer, chain):
        other, chain = anew(program, trace)
        answer = answer if other is None else other
    if not is_useful(answer, chain):
        other = wide_answer(program)
        if other is not None:
            trace.append("wide")
            answer, chain = other, None
    if answer is None:
        return without_point(program, STUCK, [0] * len(program.own)), None
    return answer, chain


def start(reference: Program, trace: Trace) -> Chain:
    """The table with which the chains of a node begin: that of its reference program, solved where this succeeds.

    After a ray the table is as the ray left it; without an answer, or with a weak one, it is not solved.
    """
    reference = reference.without_cuts()
    try:
        table = first(reference)
    except Stop:
        return None
    answer = go(table, reference, trace)
    return table if answer is not None and answer.is_good else first(reference)


def begin(started: Chain, program: Program) -> Chain:
    """Returns the state of a chain before its first program: a copy of the start, widened by the program."""
    if started is None:
        return None
    table = started.copy()
    try:
        widen(table, program)
    except Stop:
        return None
    return table
