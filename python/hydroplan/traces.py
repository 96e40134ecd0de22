"""Scenarios of a report of `simulate` or `validate`, read quickly: a report may have millions of numbers.

Each number is one division of whole numbers, which Python rounds to the nearest float.
"""
from __future__ import annotations

import json
from dataclasses import dataclass, field
from fractions import Fraction
from typing import Dict, Iterable, Iterator, List, Tuple

from .programs import Compiled
from .results import Scenario, StageOutcome
from .tools.profile import SCALE

Ratio = Tuple[int, int]


def ratio(scale: Fraction, unit: int = SCALE) -> Ratio:
    """By what a number of the program is multiplied and divided to be in the user's units."""
    return scale.denominator, scale.numerator * unit


@dataclass
class NodeOfReport:
    """The names and scales of a node; `ratios` has each name, as it is spelt in the report, with what its numbers are turned by."""

    name: str
    rows: List[Tuple[str, Ratio]]
    ratios: Dict[str, Tuple[str, Ratio]] = field(default_factory=dict)

    def named(self, spelt: str, number: str) -> Tuple[str, float]:
        """A name and its number in the user's units."""
        name, (factor, divisor) = self.ratios[spelt]
        return name, int(number) * factor / divisor


def node_of_report(compiled: Compiled, name: str) -> NodeOfReport:
    subproblem = compiled.scales.nodes[name]
    own, shared = compiled.scales.subproblems[subproblem], compiled.shared.subproblems[subproblem]
    rows = [(row, ratio(own.constraints[at])) for row, at in zip(compiled.row_names(name), own.rows)]
    found = NodeOfReport(name, rows)
    for state, scale in compiled.scales.states.items():
        found.ratios[f"in {_spelt(state)}"] = (state, ratio(scale))
    for variable in shared.variables:
        scale = own.variables[variable] if variable in own.variables else compiled.scales.states[shared.states_of()[variable]]
        word, unit = ("random", 1) if variable in shared.randoms else ("value", SCALE)
        found.ratios[f"{word} {_spelt(variable)}"] = (variable, ratio(scale, unit))
    return found


def _spelt(name: str) -> str:
    """A name as reports spell it: a JSON string in which all characters from blank on stand as they are."""
    return json.dumps(name, ensure_ascii=False)


def scenarios_of(compiled: Compiled, lines: Iterable[str]) -> Iterator[Scenario]:
    """The scenarios of the lines of a report, numbered from 0; lines of its head are passed over."""
    reader = _Reader(compiled)
    for line in lines:
        word, _, rest = line.partition(" ")
        if word == "end":
            yield reader.ended(rest)
        elif word in TABLES:
            reader.number(word, line)
        elif word in ("stage", "row", "cost") and rest:
            getattr(reader, word)(rest)


class _Reader:
    """What was read of a scenario."""

    def __init__(self, compiled: Compiled) -> None:
        scale = compiled.scales.cost or Fraction(1)
        self._nodes = [node_of_report(compiled, name) for name in compiled.node_names]
        self._node = self._nodes[0]
        self._factor, self._divisor = ratio(scale)
        self._factor *= -1 if compiled.maximizes else 1
        self._stages: List[_Stage] = []
        self._count = 0

    def stage(self, rest: str) -> None:
        """A stage begins."""
        number, _, node, kind = rest.split()
        self._node = self._nodes[int(node)]
        self._stages.append(_Stage(int(number) + 1, self._node.name, kind))

    def number(self, word: str, line: str) -> None:
        """A state as it comes in, a random value, or a decision."""
        spelt, _, number = line.rpartition(" ")
        name, found = self._node.named(spelt, number)
        getattr(self._stages[-1], TABLES[word])[name] = found

    def row(self, rest: str) -> None:
        """By how much a row is missed."""
        number, _, residual = rest.split()
        name, (factor, divisor) = self._node.rows[int(number)]
        self._stages[-1].residuals[name] = int(residual) * factor / divisor

    def cost(self, rest: str) -> None:
        """The cost of a stage."""
        self._stages[-1].cost = self._money(rest)

    def ended(self, rest: str) -> Scenario:
        """The scenario, which ends."""
        found = Scenario(self._count, tuple(it.outcome() for it in self._stages), self._money(rest))
        self._stages, self._count = [], self._count + 1
        return found

    def _money(self, number: str) -> float:
        return int(number) * self._factor / self._divisor


TABLES = {"in": "incoming", "random": "randoms", "value": "values"}


@dataclass
class _Stage:
    """A stage that is being read."""

    stage: int
    node: str
    kind: str
    incoming: Dict[str, float] = field(default_factory=dict)
    randoms: Dict[str, float] = field(default_factory=dict)
    values: Dict[str, float] = field(default_factory=dict)
    residuals: Dict[str, float] = field(default_factory=dict)
    cost: float = 0.0

    def outcome(self) -> StageOutcome:
        """The stage as it was read."""
        return StageOutcome(self.stage, self.node, self.kind, self.incoming, self.randoms, self.values, self.residuals, self.cost)
