"""Reports of hydroplan as values: cuts, bounds and traces, in the problem's units or in the user's.

Outside the proved core. It reads what the program prints (head `hydroplan 1`) and what `convert back` makes of it (head
`hydroplan-user 1`). Numbers are exact: those that come by the million stand as whole numbers of 1/unit. Random values and decisions of
a trace are passed over, since nothing is drawn of them.
"""
from __future__ import annotations

import re
from dataclasses import dataclass, field
from fractions import Fraction
from functools import partial
from pathlib import Path
from typing import Callable, Iterable, Optional, Sequence, Union

from .bounded_files import MOST_REPORT_BYTES, whole_file
from .back import HEAD, USER_HEAD, BadReport, split_name

# a number of a report times its unit; a fraction where a report has exact fractions, whose unit is 1
Raw = Union[int, Fraction]


@dataclass(frozen=True)
class Cut:
    """At the incoming state x, alpha plus the sum of slopes times x is at most the expected cost from the node on."""

    node: int
    place: int
    alpha: Raw
    slopes: tuple[Raw, ...]


class Stage:
    """A step of a trace: its number, node and answer, the incoming state, and the greatest residual in absolute value."""

    __slots__ = ("number", "node", "kind", "incoming", "residual")

    def __init__(self, number: int, node: int, kind: str) -> None:
        self.number = number
        self.node = node
        self.kind = kind
        self.incoming: dict[str, Raw] = {}
        self.residual: Raw = 0


@dataclass
class Scenario:
    """A trace."""

    number: int
    stages: list[Stage] = field(default_factory=list)
    total: Fraction = Fraction(0)


@dataclass
class Report:
    """What a report holds; what it does not have is empty or none. Cuts, planes and traces stand as multiples of 1/unit.

    `branches` leads from the root to the first branch whose decisions miss a row, and `missed` is that row and by how much.
    """

    states: list[str] = field(default_factory=list)
    nodes: list[str] = field(default_factory=list)
    cuts: list[Cut] = field(default_factory=list)
    iterations: list[tuple[int, Fraction]] = field(default_factory=list)
    unsettled: Optional[int] = None
    bound: Optional[Fraction] = None
    upper: Optional[Fraction] = None
    rest: Optional[int] = None
    scenarios: list[Scenario] = field(default_factory=list)
    planes: list[Cut] = field(default_factory=list)
    worst: Optional[Fraction] = None
    branches: list[tuple[int, int]] = field(default_factory=list)
    missed: Optional[tuple[int, Fraction]] = None
    maximises: bool = False
    is_users: bool = False
    unit: int = 1
    # how a number of the report is read, as a multiple of 1/unit
    raw: Callable[[str], Raw] = int
    names: dict[str, str] = field(default_factory=dict)

    def number(self, text: str) -> Fraction:
        """A number of the report in its own units."""
        return self.value(self.raw(text))

    def value(self, raw: Raw) -> Fraction:
        """What a multiple of 1/unit stands for."""
        return Fraction(raw) / self.unit

    def units(self) -> str:
        """The units in words."""
        return "your units" if self.is_users else "units of the problem file"

    def name(self, text: str) -> str:
        """The name that a JSON string spells; each is read once."""
        found = self.names.get(text)
        if found is None:
            found = self.names[text] = split_name(text)[0]
        return found


# of a number
MOST_CHARACTERS = 2_000
OF_STEPS = ("in", "row", "cost")
PASSED_OVER = ("value", "random")


def read_file(path: Path, of_steps: Sequence[str] = OF_STEPS) -> Report:
    """The report in a file, or BadReport. Of the lines of a trace's steps those with these words are read."""
    try:
        text = whole_file(path, MOST_REPORT_BYTES).decode("utf-8").removesuffix("\n")
    except UnicodeDecodeError as fault:
        raise BadReport(f"{path} is no report: no UTF-8 at byte {fault.start}") from None
    passed_over = "|".join(word for word in (*PASSED_OVER, *OF_STEPS) if word not in of_steps)
    try:
        # most lines of a long trace are passed over, and are never cut out of the text
        return read_report(re.findall(f"\n(?!(?:{passed_over}) )([^\n]*)", "\n" + text))
    except BadReport:
        return read_report(text.split("\n"))  # all lines, so that the place is told


def read_report(lines: Iterable[str]) -> Report:
    """The report of these lines, or BadReport. Random values and decisions of a trace are passed over."""
    report = Report()
    for number, line in enumerate(lines, 1):
        line = line.rstrip("\n")
        if number == 1 and line not in (HEAD, USER_HEAD):
            raise BadReport(f"line 1: a report begins with `{HEAD}`, not with `{line[:60]}`")
        word, _, rest = line.partition(" ")
        try:
            if word not in PASSED_OVER or not report.scenarios:
                LINES[word](report, rest)
        except (ValueError, KeyError, IndexError, ZeroDivisionError) as fault:
            reason = "no line of a report that is read here" if word not in LINES else repr(fault)
            raise BadReport(f"line {number} ({line[:60]}): {reason}") from None
    if not report.nodes:
        raise BadReport("the report has no nodes")
    return report


def decimal(digits: int, text: str) -> int:
    """A decimal number with at most so many digits behind the point, times 10^digits."""
    front, _, behind = text.partition(".")
    if len(behind) > digits:
        raise ValueError(f"more than {digits} digits behind the point")
    return int(front + behind.ljust(digits, "0"))


def _fraction(text: str) -> Fraction:
    """An exact number of a report: a fraction or a decimal, without an exponent."""
    if len(text) > MOST_CHARACTERS or "e" in text.lower():
        raise ValueError("no number of a report")
    return Fraction(text)


def _users(report: Report, rest: str) -> None:
    report.is_users = True
    report.raw = _fraction


def _scale(report: Report, rest: str) -> None:
    report.unit = int(rest)


def _digits(report: Report, rest: str) -> None:
    digits = int(rest)
    if not 0 <= digits <= MOST_CHARACTERS:
        raise ValueError(f"0 to {MOST_CHARACTERS} digits are read")
    report.unit, report.raw = 10**digits, partial(decimal, digits)


def _sense(report: Report, rest: str) -> None:
    report.maximises = rest == "max"


def _state(report: Report, rest: str) -> None:
    report.states.append(split_name(rest.partition(" ")[2])[0])


def _node(report: Report, rest: str) -> None:
    report.nodes.append(split_name(rest.partition(" ")[2])[0])


def _cut(report: Report, rest: str) -> None:
    report.cuts.append(_cut_of(report, rest))


def _plane(report: Report, rest: str) -> None:
    report.planes.append(_cut_of(report, rest))


def _cut_of(report: Report, rest: str) -> Cut:
    node, place, alpha, *slopes = rest.split()
    if len(slopes) != len(report.states):
        raise ValueError("not one slope per state")
    return Cut(int(node), int(place), report.raw(alpha), tuple(map(report.raw, slopes)))


def _branch(report: Report, rest: str) -> None:
    node, realization = rest.split()
    report.branches.append((int(node), int(realization)))


def _iteration(report: Report, rest: str) -> None:
    number, _, bound = rest.split()
    report.iterations.append((int(number), report.number(bound)))


def _total(report: Report, rest: str) -> None:
    report.unsettled = int(rest.split()[3])


def _bound(report: Report, rest: str) -> None:
    report.bound = report.number(rest)


def _upper(report: Report, rest: str) -> None:
    report.upper = report.number(rest)


def _worst(report: Report, rest: str) -> None:
    report.worst = report.number(rest)


def _rest(report: Report, rest: str) -> None:
    report.rest = int(rest)


def _scenario(report: Report, rest: str) -> None:
    report.scenarios.append(Scenario(int(rest)))


def _stage(report: Report, rest: str) -> None:
    number, _, node, kind = rest.split()
    report.scenarios[-1].stages.append(Stage(int(number), int(node), kind))


def _in(report: Report, rest: str) -> None:
    name, _, number = rest.rpartition(" ")
    report.scenarios[-1].stages[-1].incoming[report.names.get(name) or report.name(name)] = report.raw(number)


def _row(report: Report, rest: str) -> None:
    if report.branches:
        row, _, residual = rest.split()
        report.missed = (int(row), report.number(residual))
        return
    given = report.raw(rest.rpartition(" ")[2])
    number = -given if given < 0 else given
    stage = report.scenarios[-1].stages[-1]
    if number > stage.residual:
        stage.residual = number


def _cost(report: Report, rest: str) -> None:
    report.raw(rest)
    report.scenarios[-1].stages[-1]


def _end(report: Report, rest: str) -> None:
    report.scenarios[-1].total = report.number(rest)


def _nothing(report: Report, rest: str) -> None:
    return


LINES = {
    "hydroplan": _nothing, "hydroplan-user": _users, "scale": _scale, "digits": _digits, "exact": _nothing, "sense": _sense,
    "state": _state, "node": _node, "cut": _cut, "plane": _plane, "branch": _branch, "iteration": _iteration, "total": _total,
    "bound": _bound, "upper": _upper, "worst": _worst, "rest": _rest, "scenario": _scenario, "stage": _stage, "in": _in, "row": _row,
    "cost": _cost, "end": _end,
}
