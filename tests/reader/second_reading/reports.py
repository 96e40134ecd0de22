"""The reports of training, of scenarios and of the cost of a whole policy, as the program prints them."""
from __future__ import annotations

import json
import math
from dataclasses import dataclass
from fractions import Fraction
from typing import Iterable, List, Optional, Sequence, Tuple

from .cuts import Pools, bound_of
from .drawing import SCENARIOS, path_of
from .mending import Mending, mended
from .node import UNIT, product
from .problem import Problem
from .program import FOUND
from .stages import NoDecision, Solver
from .training import Stopped, Training

Steps = Sequence[Tuple[int, Sequence[int]]]
"""Nodes, each with the values of its random variables."""


def quoted(name: str) -> str:
    """A name as a line has it."""
    return json.dumps(name, ensure_ascii=False)


def head(problem: Problem) -> List[str]:
    """The first lines of each report."""
    states = [f"state {number} {quoted(name)}" for number, name in enumerate(problem.state_names)]
    nodes = [f"node {number} {quoted(name)}" for number, name in enumerate(problem.names)]
    return ["hydroplan 1", f"scale {UNIT}", *states, *nodes]


def bound_line(problem: Problem, pools: Pools) -> str:
    """The last line of each report."""
    return f"bound {bound_of(problem, pools)}"


def words(*parts: object) -> str:
    """A line of words; lists give one for each member."""
    return " ".join(word for part in parts for word in (map(str, part) if isinstance(part, (list, tuple)) else [str(part)]))


def no_stage_line(run: int, it: NoDecision) -> str:
    """The line of a node without decisions."""
    parts = words("no stage solution: run", run, "node", it.number, "values", it.values, "state", it.state, "rows", it.rows)
    return "hydroplan: " + parts


def stopped_line(stopped: Stopped) -> str:
    """The line of what ended training."""
    if isinstance(stopped.cause, NoDecision):
        return no_stage_line(stopped.iteration, stopped.cause)
    return f"hydroplan: range: iteration {stopped.iteration} node {stopped.number} realization {stopped.cause.realization}"


def train_lines(training: Training) -> List[str]:
    """The report of training, or the one line of what ended it."""
    if training.stopped is not None:
        return [stopped_line(training.stopped)]
    bounds = [f"iteration {number + 1} bound {it}" for number, it in enumerate(training.bounds)]
    total = f"total iterations {len(bounds)} unsettled {training.unanswered}"
    return [*head(training.problem), *bounds, total, bound_line(training.problem, training.pools)]


def check_lines(training: Training, rest: int) -> List[str]:
    """The report of a journal that has a training and so many bytes behind it."""
    cuts = [words("cut", node, place, it.alpha, it.slopes) for node, pool in enumerate(training.pools) for place, it in enumerate(pool)]
    front, names = train_lines(training), head(training.problem)
    return [*names, *cuts, *front[len(names):], f"rest {rest}"]


@dataclass(frozen=True)
class Decided:
    """A stage as it was decided: the kind of the answer, the decisions, by how much each row is missed, and the cost."""

    kind: str
    decisions: Tuple[int, ...]
    misses: Tuple[int, ...]
    cost: int


class Policy:
    """The policy of some pools. Decisions of an answer that found a point are mended."""

    def __init__(self, problem: Problem, solver: Solver, pools: Pools) -> None:
        self.problem, self.solver, self.pools = problem, solver, pools

    def decided(self, number: int, values: Sequence[int], state: Sequence[int]) -> Decided:
        """Decides at a node."""
        stage = self.problem.places[number].stage
        answer, _, decisions = self.solver.decided(number, self.pools, values, state)
        if answer.kind == FOUND:
            decisions = mended(stage.node, values, state, decisions)
        there = Mending(stage.node, values, state, decisions)
        misses = tuple(abs(there.miss(row)) for row in range(len(stage.node.rows)))
        cost = UNIT * (stage.costs.constant + product(stage.costs.randoms, values))
        cost += product(stage.costs.states, state) + product(stage.node.costs, decisions)
        return Decided(answer.kind, tuple(decisions), misses, cost)

    def initial(self) -> List[int]:
        """The state at the root."""
        return [UNIT * it for it in self.problem.initial]

    def stage_lines(self, turn: int, number: int, values: Sequence[int], state: Sequence[int], it: Decided) -> List[str]:
        """The lines of a stage."""
        stage = self.problem.places[number].stage
        lines = [f"stage {turn} node {number} {it.kind.lower()}"]
        lines += [f"in {quoted(name)} {x}" for name, x in zip(self.problem.state_names, state)]
        lines += [f"random {quoted(name)} {value}" for name, value in zip(stage.random_names, values)]
        lines += [f"value {quoted(name)} {u}" for name, u in zip(stage.decision_names, it.decisions)]
        lines += [f"row {row} residual {miss}" for row, miss in enumerate(it.misses)]
        return [*lines, f"cost {it.cost}"]

    def scenario_lines(self, steps: Steps) -> List[str]:
        """The lines of a scenario behind its number."""
        state, total, lines = self.initial(), 0, []
        for turn, (number, values) in enumerate(steps):
            it = self.decided(number, values, state)
            lines += self.stage_lines(turn, number, values, state, it)
            total, state = total + it.cost, self.solver.left(number, it.decisions)
        return [*lines, f"end {total}"]

    def scenarios_lines(self, scenarios: Iterable[Steps]) -> List[str]:
        """The report of scenarios, or the line of the first node without decisions."""
        lines = head(self.problem)
        for number, steps in enumerate(scenarios):
            try:
                lines += [f"scenario {number}", *self.scenario_lines(steps)]
            except NoDecision as it:
                return [no_stage_line(number, it)]
        return [*lines, bound_line(self.problem, self.pools)]

    def drawn(self, seed: int, count: int) -> List[Steps]:
        """Scenarios drawn by a seed."""
        paths = [path_of(self.problem, seed, SCENARIOS + it) for it in range(count)]
        return [[(number, self.problem.places[number].realizations[it].values) for number, it in path] for path in paths]


class Missed(Exception):
    """A branch misses a row."""

    def __init__(self, branches: Sequence[Tuple[int, int]], row: int, residual: int) -> None:
        super().__init__(row)
        self.branches, self.row, self.residual = list(branches), row, residual


class Tree:
    """The tree of a whole policy, walked from the root until a branch misses a row."""

    def __init__(self, policy: Policy) -> None:
        self.policy, self.count = policy, 0

    def cost(self, number: int, state: Sequence[int], before: Sequence[Tuple[int, int]]) -> Fraction:
        """The expected cost from a node and a state on, at 2^24 for one."""
        place, total = self.policy.problem.places[number], Fraction(0)
        for turn, realization in enumerate(place.realizations):
            branches = [*before, (number, turn)]
            it = self.policy.decided(number, realization.values, state)
            self.count += 1
            missed = next((row for row, miss in enumerate(it.misses) if miss != 0), None)
            if missed is not None:
                raise Missed(branches, missed, it.misses[missed])
            left = self.policy.solver.left(number, it.decisions)
            future = sum(weight * self.cost(follower, left, branches) for follower, weight in place.successors)
            total += realization.weight * (it.cost + Fraction(future) / place.total)
        return total / sum(it.weight for it in place.realizations)

    def lines(self) -> List[str]:
        """The report of the cost of the whole policy, or the line of a branch without decisions."""
        policy = self.policy
        problem, total = policy.problem, sum(weight for _, weight in policy.problem.root)
        try:
            upper = math.ceil(sum(weight * self.cost(number, policy.initial(), []) for number, weight in problem.root) / total)
            verdict = [f"upper {upper}"]
        except Missed as it:
            verdict = [f"branch {number} {turn}" for number, turn in it.branches] + [f"row {it.row} residual {it.residual}"]
        except NoDecision as it:
            return [no_stage_line(self.count, it)]
        return [*head(problem), *verdict, bound_line(problem, policy.pools)]


def policy_of(training: Training, pools: Optional[Pools] = None) -> Policy:
    """The policy that training came to."""
    return Policy(training.problem, training.solver, training.pools if pools is None else pools)
