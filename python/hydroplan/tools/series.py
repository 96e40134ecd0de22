"""The series that are drawn, of reports and of a folder of results: exact numbers, without any drawing.

Outside the proved core. docs/STUDIES.md has the files of the folder.
"""
from __future__ import annotations

import csv
import json
import math
from dataclasses import dataclass
from fractions import Fraction
from operator import mul
from pathlib import Path
from typing import Any, Callable, Iterable, Optional, Sequence, TypeVar

from ..exact import exact
from .bounded_files import opened, whole_file
from .located_json import Cursor, byte_order
from .reports import Cut, Raw, Report, Stage


Row = TypeVar("Row")
# bounds by iteration, one list for each name
Series = Sequence[tuple[str, Sequence[tuple[int, Fraction]]]]
SHARES = (Fraction(0), Fraction(1, 10), Fraction(1, 4), Fraction(1, 2), Fraction(3, 4), Fraction(9, 10), Fraction(1))


@dataclass(frozen=True)
class Fan:
    """At each stage the quantiles of a quantity over scenarios, by SHARES."""

    name: str
    stages: tuple[int, ...]
    quantiles: tuple[tuple[Fraction, ...], ...]


@dataclass(frozen=True)
class Point:
    """A value at a stage, with the name of its node."""

    stage: int
    node: str
    value: Fraction


@dataclass(frozen=True)
class PolicyCost:
    """What is known of the policy's cost: exactly, or the mean of simulated costs, of which nothing is claimed."""

    label: str
    value: Fraction


def ranked(values: Sequence[Raw]) -> list[Raw]:
    """For each of SHARES the least value that at least this share of the values does not exceed (nearest rank); the least for 0."""
    rising = sorted(values)
    return [rising[max(0, math.ceil(share * len(rising)) - 1)] for share in SHARES]


def fan(report: Report, name: str, by_stage: dict[int, list[Raw]]) -> Fan:
    """The fan of a quantity whose values are given for each stage, as the report has numbers."""
    stages = tuple(sorted(by_stage))
    return Fan(name, stages, tuple(tuple(map(report.value, ranked(by_stage[at]))) for at in stages))


def same_units(reports: Sequence[tuple[str, Report]]) -> None:
    """ValueError where reports that come into one picture have not the same units, or not the same sense."""
    (first, one), *others = reports
    for name, other in others:
        if one.is_users != other.is_users:
            raise ValueError(f"{first} is in {one.units()} and {name} in {other.units()}: turn all or none of them by `convert back`")
        if one.maximises != other.maximises:
            raise ValueError(f"of {first} and {name} one has costs and the other earnings")


def converging(bounds: Sequence[tuple[int, Fraction]]) -> Sequence[tuple[int, Fraction]]:
    """The bounds from where at most a twentieth of the whole rise (of earnings: of the whole fall) is left; empty where they stand still."""
    if not bounds:
        return []
    last = bounds[-1][1]
    left = abs(last - bounds[0][1]) / 20
    at = next(at for at, (_, bound) in enumerate(bounds) if abs(last - bound) <= left)
    return bounds[at:] if bounds[at][1] != last else []


def policy_cost(report: Report) -> Optional[PolicyCost]:
    """The cost that a report tells of a policy, none where it tells nothing."""
    if report.upper is not None:
        return PolicyCost("cost of the policy", report.upper)
    if not report.scenarios:
        return None
    count = len(report.scenarios)
    total = sum((it.total for it in report.scenarios), Fraction(0))
    return PolicyCost(f"mean of {count} simulated costs (nothing is claimed of it)", total / count)


def storage(report: Report) -> list[Fan]:
    """A fan of the incoming state at each stage, one for each state."""
    return [fan(report, name, _by_stage(report, lambda stage: stage.incoming[name])) for name in report.states]


def residuals(report: Report) -> list[Fan]:
    """A fan of the greatest residual, in absolute value, of a step's rows."""
    return [fan(report, "greatest residual of a step", _by_stage(report, lambda stage: stage.residual))]


def _by_stage(report: Report, value: Callable[[Stage], Raw]) -> dict[int, list[Raw]]:
    found: dict[int, list[Raw]] = {}
    for scenario in report.scenarios:
        for stage in scenario.stages:
            found.setdefault(stage.number, []).append(value(stage))
    return found


@dataclass(frozen=True)
class Active:
    """The cuts of a node, ready to be asked which is active at a state whose numbers are multiples of 1/unit."""

    cuts: tuple[Cut, ...]
    slopes: tuple[tuple[Raw, ...], ...]
    starts: tuple[Raw, ...]
    best: Callable[[list[Raw]], Raw]

    @staticmethod
    def of(cuts: Iterable[Cut], maximises: bool = False, unit: int = 1) -> Active:
        """The cuts of a node; costs are at least each of them, earnings at most."""
        own = sorted(cuts, key=lambda cut: cut.place)
        slopes, starts = tuple(cut.slopes for cut in own), tuple(cut.alpha * unit for cut in own)
        return Active(tuple(own), slopes, starts, min if maximises else max)

    def cut_at(self, state: tuple[Raw, ...]) -> tuple[Cut, Raw]:
        """The cut of greatest value at a state, or of least value of earnings, the first of several; and that value times unit."""
        values = [start + sum(map(mul, slopes, state)) for start, slopes in zip(self.starts, self.slopes)]
        found = self.best(values)
        return self.cuts[values.index(found)], found

    def at(self, state: tuple[Raw, ...]) -> tuple[Raw, ...]:
        """The slopes of the cut that is active at a state."""
        return self.cut_at(state)[0].slopes


def cuts_by_node(report: Report) -> list[list[Cut]]:
    """The cuts of each node."""
    found: list[list[Cut]] = [[] for _ in report.nodes]
    for cut in report.cuts:
        found[cut.node].append(cut)
    return found


def water_values_along(report: Report, simulation: Report) -> list[Fan]:
    """For each state a fan of its water value: what a unit more of it saves at a step, by the active cut there."""
    if simulation.states != report.states or simulation.nodes != report.nodes:
        raise ValueError("the two reports are of different problems")
    cuts = [Active.of(own, report.maximises, simulation.unit) for own in cuts_by_node(report)]
    by_state: list[dict[int, list[Raw]]] = [{} for _ in report.states]
    for stage in (it for scenario in simulation.scenarios for it in scenario.stages):
        state = tuple(stage.incoming[name] for name in report.states)
        for found, slope in zip(by_state, cuts[stage.node].at(state)):
            found.setdefault(stage.number, []).append(_saved(report, slope))
    return [fan(report, name, found) for name, found in zip(report.states, by_state)]


def _saved(report: Report, slope: Raw) -> Raw:
    """What a unit more of a state is worth: costs that fall, or, where the costs are earnings, earnings that rise."""
    return slope if report.maximises else -slope


def water_values_at(report: Report, state: dict[str, Fraction], stages: dict[str, int]) -> dict[str, list[Point]]:
    """For each state its water value at each node, where all nodes have the same incoming state."""
    unknown = [name for name in state if name not in report.states]
    missing = [name for name in report.states if name not in state]
    if unknown or missing:
        raise ValueError(f"the states are {', '.join(report.states)}: give each of them, and no other")
    at = tuple(state[name] for name in report.states)
    found: dict[str, list[Point]] = {name: [] for name in report.states}
    for number, cuts in enumerate(cuts_by_node(report)):
        node = report.nodes[number]
        for name, slope in zip(report.states, Active.of(cuts, report.maximises).at(at)):
            found[name].append(Point(stages.get(node, number), node, report.value(_saved(report, slope))))
    return found


def stages_of(problem: Cursor) -> dict[str, int]:
    """The stage of each node: the number of steps of the longest path that leads to it."""
    nodes = {name: _successors(at) for name, at in problem.member("nodes").members()}
    found = {name: 0 for name in _successors(problem.member("root"))}
    for _ in nodes:
        changed = False
        for name in byte_order(iter(nodes)):
            for follower in nodes[name] if name in found else []:
                if found.get(follower, -1) < found[name] + 1:
                    found[follower] = found[name] + 1
                    changed = True
        if not changed:
            return found
    return found


def _successors(cursor: Cursor) -> list[str]:
    at = cursor.find("successors")
    return [] if at is None else at.keys()


# the columns of quantiles, in the order of SHARES
QUANTILES = ("least", "p10", "p25", "p50", "p75", "p90", "greatest")


@dataclass(frozen=True)
class StudyResults:
    """A study's folder of results; `money` is its unit of money, and `dates` has the first day of each stage, as in 2026-01-31."""

    folder: Path
    title: str
    money: str
    dates: tuple[str, ...]
    estimated: dict[str, Any]

    def bounds(self) -> list[tuple[int, Fraction]]:
        """The bound after each iteration, in money."""
        return self._rows("bounds.csv", lambda row: (int(row["iteration"]), exact(row["bound"], "the bound")))

    def cost(self) -> PolicyCost:
        """The mean of the simulated scenarios, which is estimated."""
        place = self.folder / "summary.json"
        missing = next((it for it in ("scenarios", "mean") if it not in self.estimated), None)
        if missing is not None:
            raise ValueError(f'{place} has no "{missing}" in "estimated"')
        label = f"mean of {self.estimated['scenarios']} simulated costs (estimated)"
        return PolicyCost(label, exact(str(self.estimated["mean"]), f"the mean of {place}"))

    def stored(self) -> tuple[list[Fan], str]:
        """A fan for each reservoir, of what is stored after each stage from 1, and the unit; `your units` where they have several."""
        found: dict[str, list[tuple[int, tuple[Fraction, ...]]]] = {}
        units = set()
        for name, unit, stage, numbers in self._rows("storage_quantiles.csv", self._quantiles_of):
            found.setdefault(name, []).append((stage, numbers))
            units.add(unit)
        fans = [Fan(name, tuple(stage for stage, _ in rows), tuple(numbers for _, numbers in rows)) for name, rows in found.items()]
        return fans, units.pop() if len(units) == 1 else "your units"

    def _quantiles_of(self, row: dict[str, str]) -> tuple[str, str, int, tuple[Fraction, ...]]:
        """The reservoir, the unit, the stage and the quantiles of a row."""
        stage = int(row["stage"])
        if not 1 <= stage <= len(self.dates):
            raise ValueError(f"the calendar has no stage {stage}")
        return row["reservoir"], row["unit"], stage, tuple(exact(row[key], f'the column "{key}"') for key in QUANTILES)

    def _rows(self, name: str, made: Callable[[dict[str, str]], Row]) -> list[Row]:
        """What is made of each row; ValueError names the line where a column is missing or no number."""
        path, line = self.folder / name, 1
        found = []
        with open(opened(path), encoding="utf-8", newline="") as file:
            rows = csv.DictReader(file)
            try:
                for row in rows:
                    line = rows.line_num
                    found.append(made(row))
            except KeyError as fault:
                raise ValueError(f"{path}:1: there is no column {fault}") from None
            except (csv.Error, ValueError, TypeError) as fault:
                raise ValueError(f"{path}:{line}: {fault}") from None
        return found


def is_results(path: Path) -> bool:
    """Whether a path is a folder of results."""
    return (path / "summary.json").is_file()


def read_results(folder: Path) -> StudyResults:
    """The results in a folder, or ValueError where its summary is none."""
    path = folder / "summary.json"
    try:
        summary = json.loads(whole_file(path).decode("utf-8"))
        units, scale = summary["units"], summary["units"].get("money_scale", 1)
        money = units["money"] if scale == 1 else f"{scale:,} {units['money']}"
        dates = tuple(str(it["date"]) for it in summary["calendar"])
        return StudyResults(folder, str(summary["title"]), str(money), dates, dict(summary["estimated"]))
    except (ValueError, KeyError, TypeError, AttributeError, RecursionError) as fault:
        raise ValueError(f"{path} is no summary of a study: {fault!r}") from None
