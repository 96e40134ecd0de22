"""Rows whose run ends at a node without decisions: the multipliers of its line are weighed here, in exact numbers."""
from __future__ import annotations

import json
import re
from pathlib import Path
from typing import Any, Dict, List, NamedTuple, Optional, Tuple

from .program import ended
from .rows import BadRow, Row
from .running import Verdict, streams

SCALE = 2**24
LINE = re.compile(r"hydroplan: no stage solution: run (\d+) node (\d+) values((?: -?\d+)*) state((?: -?\d+)*) rows((?: -?\d+)*)\n\Z")


class Told(NamedTuple):
    """The numbers of the line: the iteration or scenario, the node, its random values, its incoming state times 2^24, and the multipliers."""

    run: int
    node: int
    values: List[int]
    state: List[int]
    rows: List[int]


class Constraint(NamedTuple):
    """A row or a bound: its terms by the names of variables, and its sides, None where it has none."""

    terms: Dict[str, int]
    low: Optional[int]
    high: Optional[int]
    is_bound: bool


def told(line: str) -> Optional[Told]:
    """Returns what a line of status 9 tells, or None of another line."""
    found = LINE.match(line)
    if not found:
        return None
    values, state, rows = ([int(word) for word in found[part].split()] for part in (3, 4, 5))
    return Told(int(found[1]), int(found[2]), values, state, rows)


def sides(of: Dict[str, Any], constant: int) -> Tuple[Optional[int], Optional[int]]:
    """Returns the lower and the upper side of a set, less a function's constant."""
    low, high = (of["value"], of["value"]) if of["type"] == "EqualTo" else (of.get("lower"), of.get("upper"))
    return (None if low is None else low - constant, None if high is None else high - constant)


def constraints(subproblem: Dict[str, Any]) -> List[Constraint]:
    """Returns the constraints of a subproblem, in the order of the file."""
    found = []
    for it in subproblem["subproblem"]["constraints"]:
        function, terms = it["function"], {}
        for term in function.get("terms", [{"variable": function.get("name"), "coefficient": 1}]):
            terms[term["variable"]] = terms.get(term["variable"], 0) + term["coefficient"]
        is_bound = function["type"] == "Variable" and function["name"] not in subproblem["random_variables"]
        found.append(Constraint(terms, *sides(it["set"], function.get("constant", 0)), is_bound))
    return found


def box_of(name: str, bounds: List[Constraint]) -> Tuple[int, int]:
    """Returns the bounds of a variable that has both."""
    lows = [it.low for it in bounds if name in it.terms and it.low is not None]
    highs = [it.high for it in bounds if name in it.terms and it.high is not None]
    return max(lows), min(highs)


def refuting_value(subproblem: Dict[str, Any], line: Told) -> int:
    """Returns 2^24 times what the weighed rows ask for beyond all that the decisions' boxes can give (Farkas, 1902)."""
    found = constraints(subproblem)
    known = dict(zip(subproblem["random_variables"], (SCALE * it for it in line.values)))
    states = subproblem["state_variables"]
    known.update(zip((states[name]["in"] for name in sorted(states, key=str.encode)), line.state))
    total, reduced = 0, {it["name"]: 0 for it in subproblem["subproblem"]["variables"] if it["name"] not in known}
    for row, weight in zip([it for it in found if not it.is_bound], line.rows):
        side = row.low if weight > 0 else row.high
        if weight and side is None:
            raise BadRow(f"the multiplier {weight} stands on a side that its row has not")
        total += weight * (SCALE * (side or 0) - sum(factor * known.get(name, 0) for name, factor in row.terms.items()))
        for name in reduced:
            reduced[name] -= weight * row.terms.get(name, 0)
    bounds = [it for it in found if it.is_bound]
    return total + SCALE * sum(min(cost * end for end in box_of(name, bounds)) for name, cost in reduced.items())


def fault_of(problem: Dict[str, Any], line: Told) -> Optional[str]:
    """Returns why a line does not show that a node of the problem has no decisions, or None where it does."""
    names = sorted(problem["nodes"], key=str.encode)
    if line.node >= len(names):
        return f"there is no node {line.node}"
    node = problem["nodes"][names[line.node]]
    subproblem = problem["subproblems"][node["subproblem"]]
    drawn = [[it["support"][name] for name in subproblem["random_variables"]] for it in node["realizations"]]
    if line.values not in drawn:
        return f"no realization of node {line.node} has the values {line.values}"
    if len(line.rows) != sum(not it.is_bound for it in constraints(subproblem)):
        return "there is not one multiplier a row"
    value = refuting_value(subproblem, line)
    return None if value > 0 else f"the multipliers refute nothing: {value} is not above 0"


def refuted(row: Row, program: Path, folder: Path) -> Verdict:
    """Whether a run ends with status 9, in the iteration EXPECTED, and a line whose multipliers show that its node has no decisions."""
    given = streams(row, program, folder)
    if given.problem is None or not row.expected.isdigit():
        raise BadRow("a row of what is refuted needs a problem, and the number of an iteration")
    found = ended(program, row.words, given, folder)
    line = told(found.said.decode("utf-8", "replace"))
    if found.status != 9 or line is None:
        return Verdict(f"ends with {found.status}; standard error has {found.said!r}")
    if line.run != int(row.expected):
        return Verdict(f"ends in iteration {line.run}, expected {row.expected}")
    return Verdict(fault_of(json.loads(given.problem.read_bytes()), line))
