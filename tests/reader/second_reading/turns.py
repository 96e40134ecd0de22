"""The course of the simplex on one table: turns that mend violations, cuts that come in when they are asked for, and the answer."""
from __future__ import annotations

from dataclasses import dataclass
from typing import List, Mapping, Optional, Tuple

from .numbers import Stop
from .program import FINER, RAY, Answer, CutName, Program, is_narrow, value_at, without_point
from .rays import ray
from .simplex import (Entering, Violation, append, column_point, drop_last, enter, finish, found, line_of, move, pivot, refine,
                      set_sides)
from .table import Table

Trace = List[str]
"""The turns, in words: `a/b` where b enters for a, `cut m.k` where a cut's row came in, `drop m.k` where it went again."""


def violations(table: Table) -> List[Violation]:
    """The basic variables that are outside their bounds by more than the tolerance: the greatest first, ties by variable."""
    tolerance, seen = table.numbers.tolerance, []
    for variable in table.basic_variables():
        is_column = table.is_column(variable)
        value = table.point[variable] if is_column else table.activity(variable - table.width)
        low, high = table.low(variable), table.high(variable)
        if low is not None and value < low - tolerance:
            seen.append(Violation(low - value, variable, 1))
        elif high is not None and value > high + tolerance:
            seen.append(Violation(value - high, variable, -1))
    return sorted(seen, key=lambda it: (-it.amount, it.variable))


@dataclass(frozen=True)
class Taken:
    """The outcome of looking at the violations: one that is mended by an entering place, or a ray, or neither.

    `passed_over`: a violation was seen for which nothing can enter and which proves nothing.
    """

    violation: Optional[Violation] = None
    line: Tuple[int, ...] = ()
    entering: Optional[Entering] = None
    ray: Optional[Answer] = None
    passed_over: bool = False


def take(table: Table, program: Program) -> Taken:
    """The first violation for which a place enters; one for which none does may show that no point keeps the own rows."""
    passed_over = False
    for violation in violations(table):
        line = line_of(table, violation.variable)
        entering = enter(table, line, violation.sign, violation.amount)
        if entering is not None:
            return Taken(violation, tuple(line), entering, passed_over=passed_over)
        multipliers = ray(table, program, violation.variable, line, violation.sign)
        if multipliers is not None:
            return Taken(ray=without_point(program, RAY, multipliers))
        passed_over = True
    return Taken(passed_over=passed_over)


def step(table: Table, taken: Taken, trace: Trace) -> None:
    """Changes the basis by what was taken."""
    violation, entering = taken.violation, taken.entering
    flipped = "".join(f" {table.nonbasic[flip]}" for flip in entering.flips)
    trace.append(f"{violation.variable}/{table.nonbasic[entering.place]}" + (" flips" + flipped if flipped else ""))
    pivot(table, violation.variable, violation.sign, taken.line, entering.place, entering.flips)


def greatest_cut(program: Program, successor: int, states: Mapping[int, int]) -> int:
    """The place of a successor's cut of the greatest value at some states, ties to the least place."""
    places = range(len(program.pools[successor]))
    return max(places, key=lambda place: (value_at(program.cut_row((successor, place)), states), -place))


def scan(table: Table, program: Program, trace: Trace) -> bool:
    """Looks up the greatest cut of each narrow successor at the point, and says whether a row came in.

    A row that the point keeps within the tolerance is taken out again. Rows that stayed before a Stop stay.
    """
    if len(table.cuts) == len(program.cut_names()):
        return False
    states = {out: column_point(table, program, out) // FINER for out in program.outs}
    added = False
    for successor, pool in enumerate(program.pools):
        if not pool or not is_narrow(program, successor):
            continue
        name = (successor, greatest_cut(program, successor, states))
        if name not in table.cuts:
            added |= add_violated(table, program, name, trace)
    return added


def add_violated(table: Table, program: Program, name: CutName, trace: Trace) -> bool:
    """Appends a cut's row, drops it again where the point keeps it within the tolerance, and says whether it stayed.

    A row whose value leaves its range is dropped too.
    """
    append(table, program.cut_row(name), name)
    row = len(table.rows) - 1
    try:
        stays = table.activity(row) < table.row_lows[row] - table.numbers.tolerance
    except Stop:
        stays = False
    trace.append(f"{'cut' if stays else 'drop'} {name[0]}.{name[1]}")
    if not stays:
        drop_last(table)
    return stays


def most_turns(table: Table) -> int:
    """The turns after which a table has no answer."""
    return 20 * table.width + 100


def finished(table: Table, program: Program, passed_over: bool) -> Answer:
    """The answer of a table in which nothing is left to mend; it is weak and poor too where a violation was passed over."""
    finish(table)
    table.weak, table.poor = table.weak or passed_over, table.poor or passed_over
    return found(table, program)


@dataclass
class Course:
    """Where a solve is: whether the point was refined since the last pivot, and the basis as the present turn began."""

    fresh: bool
    basis: Tuple[List[int], List[bool]]


def turn(table: Table, program: Program, course: Course, trace: Trace) -> Optional[Answer]:
    """One turn: a violation is mended, or else the point is refined, or else cuts come in, or else there is an answer."""
    course.basis = table.basis()
    taken = take(table, program)
    if taken.ray is not None:
        return taken.ray
    if taken.entering is not None:
        move(table, taken.violation, taken.line, taken.entering)
        step(table, taken, trace)
        course.fresh = False
    elif not course.fresh:
        refine(table)
        course.fresh = True
    elif not scan(table, program, trace):
        return finished(table, program, taken.passed_over)
    return None


def go(table: Table, program: Program, trace: Trace) -> Optional[Answer]:
    """The answer of a table to a program that differs in the sides of its own rows alone; none where it stops or turns run out.

    Where it stops, what stands at each place is as it was when the turn began, and rows that came in stay.
    """
    table.weak = table.poor = False
    course = Course(False, table.basis())
    try:
        set_sides(table, program.own)
        refine(table)
        for _ in range(most_turns(table)):
            answer = turn(table, program, course, trace)
            if answer is not None:
                return answer
    except Stop:
        table.set_basis(course.basis)
    return None
