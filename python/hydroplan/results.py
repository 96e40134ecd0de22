"""What runs give, in the user's units. Tables are pandas data frames and arrays numpy's, made where they are asked for."""
from __future__ import annotations

import math
from dataclasses import dataclass
from fractions import Fraction
from pathlib import Path
from statistics import NormalDist, fmean, stdev
from typing import Any, Dict, List, Mapping, Optional, Sequence, Tuple

from .errors import ModelError
from .exact import Number, at_least, at_most, exact
from .tables import package
from .tools.reports import Cut as ReportCut
from .tools.series import Active


def half_width(costs: Sequence[float], confidence: float) -> float:
    """Half the width of the confidence interval of a mean, by the normal distribution; infinite for fewer than two costs."""
    if len(costs) < 2:
        return math.inf
    return NormalDist().inv_cdf(0.5 + confidence / 2) * stdev(costs) / math.sqrt(len(costs))


@dataclass(frozen=True)
class GapCheck:
    """A bound beside the mean of fresh scenarios, in money. `gap` is by how much the mean is worse than the bound."""

    iteration: int
    bound: float
    mean: float
    half_width: float
    gap: float
    scenarios: int
    seed: int
    seconds: float
    confidence: float = 0.95


@dataclass(frozen=True)
class TrainingRow:
    """A row of a training's table; mean, half-width and gap are there where the bound was compared with scenarios."""

    iteration: int
    bound: float
    mean: Optional[float]
    half_width: Optional[float]
    gap: Optional[float]


@dataclass(frozen=True)
class Training:
    """A training that ended.

    `bounds` has the bound after each iteration, `bound` that of all cuts: no policy costs less (where the model maximizes:
    none earns more), and no float of them is on the wrong side of it. `exact_bound` is the number itself. `unanswered` counts solves
    whose answer was of no use. `stopped` says why training ended, and `checks` has the comparisons with scenarios.
    """

    journal: Path
    seed: int
    bounds: Tuple[float, ...]
    bound: float
    exact_bound: Fraction
    unanswered: int
    seconds: float
    stopped: str
    checks: Tuple[GapCheck, ...]
    maximizes: bool

    @property
    def iterations(self) -> int:
        """How many iterations the journal has."""
        return len(self.bounds)

    def rows(self) -> List[TrainingRow]:
        """A row for each iteration."""
        by_iteration = {it.iteration: it for it in self.checks}
        return [_training_row(at, bound, by_iteration.get(at)) for at, bound in enumerate(self.bounds, 1)]

    def table(self) -> Any:
        """A data frame with a row for each iteration: bound, mean, half_width and gap, all in money."""
        names = ["bound", "mean", "half_width", "gap"]
        data = [[it.bound, it.mean, it.half_width, it.gap] for it in self.rows()]
        pandas = package("pandas")
        index = pandas.RangeIndex(1, len(data) + 1, name="iteration")
        return pandas.DataFrame(data, index=index, columns=names, dtype=float)


def _training_row(iteration: int, bound: float, check: Optional[GapCheck]) -> TrainingRow:
    if check is None:
        return TrainingRow(iteration, bound, None, None, None)
    return TrainingRow(iteration, bound, check.mean, check.half_width, check.gap)


@dataclass(frozen=True)
class Cut:
    """At the incoming state x, `intercept` plus the sum of slopes times x bounds the expected cost from a node on, from below.

    Where the model maximizes it bounds the expected revenue, from above. `slopes` is in money per unit, by state. Its numbers are
    rounded to the nearest float, each for itself; `Check.exact_cuts` has them exactly.
    """

    node: str
    place: int
    intercept: float
    slopes: Dict[str, float]


@dataclass(frozen=True)
class Check:
    """What `check` made anew of a journal's certificates: cuts, the bound after each iteration, and the bound of all cuts.

    `rest` counts bytes behind the last whole iteration.
    """

    cuts: Tuple[Cut, ...]
    bounds: Tuple[float, ...]
    bound: float
    exact_bound: Fraction
    unanswered: int
    rest: int
    maximizes: bool
    states: Tuple[str, ...]
    exact_cuts: Mapping[str, Tuple[ReportCut, ...]]

    @property
    def iterations(self) -> int:
        """How many iterations the journal has."""
        return len(self.bounds)

    def active(self, node: str, state: Mapping[str, Number]) -> Cut:
        """The cut that bounds best at a node and an incoming state."""
        found, _ = self._active(node, state)
        return next(it for it in self.cuts if (it.node, it.place) == (node, found.place))

    def value(self, node: str, state: Mapping[str, Number]) -> float:
        """The bound on the expected cost from a node on, at an incoming state, in money; no float on the wrong side of it."""
        _, found = self._active(node, state)
        return at_least(found) if self.maximizes else at_most(found)

    def water_values(self, node: str, state: Mapping[str, Number]) -> Dict[str, float]:
        """What one more unit of each state is worth at a node and an incoming state, in money per unit, by the active cut."""
        sign = 1 if self.maximizes else -1
        return {name: sign * slope + 0.0 for name, slope in self.active(node, state).slopes.items()}

    def table(self) -> Any:
        """A data frame with a row for each cut: node, place, intercept, and a slope for each state."""
        data = [[it.node, it.place, it.intercept, *(it.slopes[name] for name in self.states)] for it in self.cuts]
        return package("pandas").DataFrame(data, columns=["node", "place", "intercept", *self.states])

    def _active(self, node: str, state: Mapping[str, Number]) -> Tuple[ReportCut, Fraction]:
        """The cut that is active at a node and an incoming state, and its value there."""
        found, value = Active.of(self.exact_cuts[self._known(node)], self.maximizes).cut_at(self._at(state))
        return found, Fraction(value)

    def _known(self, node: str) -> str:
        if node not in self.exact_cuts:
            raise ModelError(f'no node is named "{node}": the nodes are {", ".join(self.exact_cuts)}')
        return node

    def _at(self, state: Mapping[str, Number]) -> Tuple[Fraction, ...]:
        if set(state) != set(self.states):
            raise ModelError(f"the states are {', '.join(self.states)}: give each of them, and no other")
        return tuple(exact(state[name], f'the state "{name}"') for name in self.states)


@dataclass(frozen=True)
class StageOutcome:
    """A stage of a scenario: its number from 1, its node, and numbers by the names of the model.

    `kind` says how the solver answered: `found`, `ray` or `stuck`. `residuals` says by how much each row is missed.
    """

    stage: int
    node: str
    kind: str
    incoming: Dict[str, float]
    randoms: Dict[str, float]
    values: Dict[str, float]
    residuals: Dict[str, float]
    cost: float


@dataclass(frozen=True)
class Scenario:
    """A path that the policy was followed along, and what it cost in all (what it earned, where the model maximizes)."""

    number: int
    stages: Tuple[StageOutcome, ...]
    cost: float


@dataclass(frozen=True)
class Simulation:
    """The policy along scenarios. Nothing is claimed of the mean of their costs: it estimates what the policy costs."""

    scenarios: Tuple[Scenario, ...]
    bound: float
    exact_bound: Fraction
    maximizes: bool

    @property
    def costs(self) -> Tuple[float, ...]:
        """The cost of each scenario, in money."""
        return tuple(it.cost for it in self.scenarios)

    @property
    def mean(self) -> float:
        """The mean of the costs; not a number where there are none."""
        return fmean(self.costs) if self.scenarios else math.nan

    def half_width(self, confidence: float = 0.95) -> float:
        """Half the width of the confidence interval of the mean, by the normal distribution."""
        return half_width(self.costs, confidence)

    @property
    def gap(self) -> float:
        """By how much the mean is worse than the bound, in money."""
        return self.bound - self.mean if self.maximizes else self.mean - self.bound

    def array(self, name: str) -> Any:
        """A numpy array of shape (scenarios, stages) of a decision, a random variable, a state as it comes in, or `cost`.

        It is not a number where a scenario has no such stage, or the stage no such variable.
        """
        numpy = package("numpy")
        width = max((len(it.stages) for it in self.scenarios), default=0)
        found = numpy.full((len(self.scenarios), width), math.nan)
        for at, scenario in enumerate(self.scenarios):
            for number, stage in enumerate(scenario.stages):
                found[at, number] = _numbers(stage).get(name, math.nan)
        return found

    def table(self) -> Any:
        """A data frame with a row for each scenario and stage: node, each incoming state, random value, decision, cost, residual.

        `residual` is the greatest amount by which a row of the stage is missed.
        """
        data = [
            {"scenario": it.number, "stage": stage.stage, "node": stage.node, **_numbers(stage),
             "residual": max(stage.residuals.values(), default=0.0)}
            for it in self.scenarios for stage in it.stages
        ]
        frame = package("pandas").DataFrame(data)
        return frame.set_index(["scenario", "stage"]) if data else frame


def _numbers(stage: StageOutcome) -> Dict[str, float]:
    return {**stage.incoming, **stage.randoms, **stage.values, "cost": stage.cost}


@dataclass(frozen=True)
class MissedRow:
    """The first branch of a policy whose decisions miss a row: node and realization of each stage, the row, and by how much."""

    branch: Tuple[Tuple[str, int], ...]
    row: str
    residual: float


@dataclass(frozen=True)
class Evaluation:
    """What the whole policy costs.

    `upper` is at least its expected cost (at most its expected revenue, where the model maximizes); none where the policy
    misses a row, which `missed` then names. The least cost of all policies is between `bound` and `upper`.
    """

    upper: Optional[float]
    exact_upper: Optional[Fraction]
    bound: float
    exact_bound: Fraction
    missed: Optional[MissedRow]
    maximizes: bool

    @property
    def gap(self) -> Optional[float]:
        """How far the two bounds are apart, in money; none where there is no upper one."""
        if self.exact_upper is None:
            return None
        return float(abs(self.exact_upper - self.exact_bound))


@dataclass(frozen=True)
class Robust:
    """No policy costs less than `worst` where each node weighs its realizations by the worst of its lists of weights."""

    worst: float
    exact_worst: Fraction
    planes: Tuple[Cut, ...]
    maximizes: bool
