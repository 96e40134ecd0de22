"""What water and energy are worth: water by the cuts that `check` made anew, energy by a linear program for a stage of a scenario.

The program is that of the model's stage at the simulated state and random values, with the certified cuts as the cost of what comes after.
Its rows of energy have dual values, which HiGHS finds (Huangfu and Hall 2018, by scipy). Where several duals are optimal, one is taken.
"""
from __future__ import annotations

import importlib
from dataclasses import dataclass
from typing import Any, Dict, Iterator, List, Mapping, Optional, Tuple

from ..expressions import Variable
from ..graphs import GraphNode
from ..plants import Bus, Reservoir
from ..programs import Compiled
from ..results import Check, Cut
from ..stages import Constraint, Stage
from ..tables import package
from .exporting import Sampled, Scenarios
from .study import Study


@dataclass(frozen=True)
class NodeCuts:
    """The cuts of a node: at the incoming states x they are `intercepts + slopes @ x`, in money; states are in the order of the problem."""

    intercepts: Any
    slopes: Any

    def values(self, states: Any) -> Any:
        """Each cut's value at incoming states."""
        return self.intercepts + self.slopes @ states


def cuts_by_node(compiled: Compiled, check: Check) -> Dict[str, NodeCuts]:
    """The cuts of each node that has some."""
    numpy = package("numpy")
    by_node: Dict[str, List[Cut]] = {}
    for cut in check.cuts:
        by_node.setdefault(cut.node, []).append(cut)
    found = {}
    for node, cuts in by_node.items():
        slopes = numpy.array([[it.slopes[name] for name in compiled.state_names] for it in cuts]).reshape(len(cuts), -1)
        found[node] = NodeCuts(numpy.array([it.intercept for it in cuts]), slopes)
    return found


WATER_VALUES = ("stage", "node", "reservoir", "volume", "value")
Row = Tuple[int, str, str, float, float]


def water_values(study: Study, cuts: Dict[str, NodeCuts], kept: Scenarios) -> Iterator[Row]:
    """A row for each volume of each reservoir before each node: money per hm3 by the cut that bounds best, undiscounted.

    All other states are at the median of the simulated ones: those that came to the node, or to its stage where none did.
    """
    for node in study.system.graph().nodes:
        if node.name in cuts:
            yield from _of_node(study, node, cuts[node.name], kept)


def _of_node(study: Study, node: GraphNode, cuts: NodeCuts, kept: Scenarios) -> Iterator[Row]:
    """The rows of a node."""
    numpy = package("numpy")
    median, before = _median(study, node, kept), max(1, node.stage - 1)
    discount = float(study.system.discount(node.stage))
    for it, numbers in study.system.of_kind(Reservoir):
        grid = numpy.linspace(*(float(numbers.at(member, before)) for member in ("minimum", "maximum")), study.options.simulation.points)
        values = _values(cuts, median, kept.state_names.index(f"volume:{it.name}"), grid)
        yield from ((node.stage, node.name, it.name, float(volume), value / discount) for volume, value in zip(grid, values))


def _median(study: Study, node: GraphNode, kept: Scenarios) -> Any:
    """The median of each state before a node."""
    states = kept.states[:, node.stage - 1]
    here = states[kept.nodes[:, node.stage - 1] == list(study.compiled.node_names).index(node.name)]
    return package("numpy").median(here if len(here) else states, axis=0)


def _values(cuts: NodeCuts, median: Any, at: int, grid: Any) -> List[float]:
    """The value of a unit of one state over a grid."""
    found = []
    for volume in grid:
        point = median.copy()
        point[at] = volume
        found.append(0.0 - float(cuts.slopes[cuts.values(point).argmax(), at]))
    return found


MOST_CUTS = 60
DECIDED = ("decision", "outgoing")


@dataclass(frozen=True)
class Rows:
    """Rows of one kind: coefficients of the decisions, the sides, and what incoming states and random values take from the sides."""

    decided: Any
    sides: Any
    given: List[List[Tuple[Variable, float]]]

    def sides_at(self, values: Mapping[Tuple[str, str], float]) -> Any:
        """The sides with the given values put in."""
        taken = [sum(number * values[it.kind, it.name] for it, number in row) for row in self.given]
        return self.sides - package("numpy").array(taken)


class StageProgram:
    """The linear program of a node's stage."""

    def __init__(self, stage: Stage, energy_rows: Mapping[Tuple[str, str], str], followers: List[Tuple[float, NodeCuts]], states: List[str]) -> None:
        self._columns = [it for it in stage.all_variables.values() if it.kind in DECIDED]
        self._at = {it.name: number for number, it in enumerate(self._columns)}
        equal = [it for it in stage.constraints if it.relation.set_type == "EqualTo"]
        others = [it for it in stage.constraints if it.relation.set_type != "EqualTo"]
        self._equal, self._most = self._rows([(it, 1) for it in equal]), self._rows(_one_sided(others))
        self._costs = package("numpy").array([float(stage.objective.terms.get(it, 0)) for it in self._columns])
        self._bounds = [(float(it.lower or 0), None if it.upper is None else float(it.upper)) for it in self._columns]
        names = [it.name for it in equal]
        self._energy = {place: names.index(row) for place, row in energy_rows.items() if row in names}
        self._followers = followers
        self._outgoing = [self._at[stage.states[name].outgoing.name] for name in states]

    def _rows(self, constraints: "list[tuple[Constraint, int]]") -> Rows:
        numpy = package("numpy")
        decided, sides, given = numpy.zeros((len(constraints), len(self._columns))), [], []
        for row, (it, sign) in enumerate(constraints):
            terms = it.relation.terms.terms.items()
            for variable, number in terms:
                if variable.kind in DECIDED:
                    decided[row, self._at[variable.name]] = sign * float(number)
            given.append([(variable, sign * float(number)) for variable, number in terms if variable.kind not in DECIDED])
            side = it.relation.upper if sign > 0 else it.relation.lower
            sides.append(sign * float(side if side is not None else 0))
        return Rows(decided, numpy.array(sides), given)

    def prices(self, sampled: Sampled) -> Optional[Dict[Tuple[str, str], float]]:
        """The dual value of each row of energy, by bus and block; none where the program has no solution."""
        numpy = package("numpy")
        values = {("random", name): it for name, it in sampled.randoms.items()}
        values.update({("incoming", f"{name}_in"): it for name, it in sampled.incoming.items()})
        left = numpy.array([sampled.values[self._columns[it].name] for it in self._outgoing])
        future, sides, scale = self._future(left)
        count, width = len(self._columns), len(self._followers)
        most = numpy.vstack([numpy.hstack([self._most.decided, numpy.zeros((len(self._most.sides), width))]), future])
        found = importlib.import_module("scipy.optimize").linprog(
            numpy.concatenate([self._costs, [weight * scale for weight, _ in self._followers]]),
            most, numpy.concatenate([self._most.sides_at(values), sides]),
            numpy.hstack([self._equal.decided, numpy.zeros((len(self._equal.sides), width))]), self._equal.sides_at(values),
            [*self._bounds, *[(None, None)] * width], method="highs",
        )
        if found.status != 0 or len(found.x) != count + width:
            return None
        return {place: float(found.eqlin.marginals[row]) for place, row in self._energy.items()}

    def _future(self, left: Any) -> Tuple[Any, Any, float]:
        """Rows of the cuts that are nearest to active at the simulated state, each follower's cost counted from its bound there.

        The state is optimal, and so are duals that the other cuts, which are not active there, have no part in.
        """
        numpy = package("numpy")
        rows, sides = [], []
        scale = max([1.0, *(float(abs(cuts.slopes).max(initial=0.0)) for _, cuts in self._followers)])
        for number, (_, cuts) in enumerate(self._followers):
            values = cuts.values(left)
            best = numpy.argsort(-values, kind="stable")[:MOST_CUTS]
            block = numpy.zeros((len(best), len(self._columns) + len(self._followers)))
            block[:, self._outgoing] = cuts.slopes[best] / scale
            block[:, len(self._columns) + number] = -1.0
            rows.append(block)
            sides.append((cuts.slopes[best] @ left - (values[best] - values[best[0]])) / scale)
        if not rows:
            return numpy.zeros((0, len(self._columns))), numpy.zeros(0), scale
        return numpy.vstack(rows), numpy.concatenate(sides), scale


def _one_sided(constraints: List[Constraint]) -> "list[tuple[Constraint, int]]":
    """Each constraint as one of at most a side, with 1, or of at least one, with -1; an interval as both."""
    found = []
    for it in constraints:
        if it.relation.upper is not None:
            found.append((it, 1))
        if it.relation.lower is not None:
            found.append((it, -1))
    return found


Prices = Dict[Tuple[int, str, str], List[float]]


def sampled_prices(study: Study, cuts: Dict[str, NodeCuts], kept: Scenarios) -> Tuple[Prices, int]:
    """The marginal costs, undiscounted, by stage, bus and block, of the sampled scenarios; and how many programs had no solution."""
    programs: Dict[str, StageProgram] = {}
    graph = {it.name: it for it in study.system.graph().nodes}
    found: Prices = {}
    unsolved = 0
    for sampled in (it for scenario in kept.sampled for it in scenario):
        if sampled.node not in programs:
            programs[sampled.node] = _program(study, graph[sampled.node], cuts)
        prices = programs[sampled.node].prices(sampled)
        unsolved += prices is None
        discount = float(study.system.discount(sampled.stage))
        for (bus, block), price in (prices or {}).items():
            found.setdefault((sampled.stage, bus, block), []).append(price / discount)
    return found, unsolved


def _program(study: Study, node: GraphNode, cuts: Dict[str, NodeCuts]) -> StageProgram:
    blocks = study.system.horizon.blocks
    end = {block: f":{block}" if len(blocks) > 1 else "" for block in blocks}
    energy = {(it.name, block): f"energy:{it.name}{end[block]}" for it, _ in study.system.of_kind(Bus) for block in blocks}
    of_node = study.model.nodes[node.name]
    weights = float(sum(of_node.successors.values()) + of_node.stop) or 1.0
    followers = [(float(weight) / weights, cuts[name]) for name, weight in of_node.successors.items() if name in cuts]
    return StageProgram(study.model.stages[node.name], energy, followers, list(study.compiled.state_names))
