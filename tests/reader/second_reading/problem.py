"""Problems as their files say them: the stages of nodes, and the graph. Files are taken to be right; what is refused is not read here."""
from __future__ import annotations

import json
from dataclasses import dataclass, replace
from typing import Any, Dict, Iterable, List, Mapping, Optional, Sequence, Tuple

from .node import Node, StageRow

Box = Tuple[int, int]

Sides = Tuple[Optional[int], Optional[int]]


@dataclass(frozen=True)
class Costs:
    """The costs of a stage beside its decisions: a constant, and so much for a unit of each state and of each random variable."""

    constant: int
    states: Tuple[int, ...]
    randoms: Tuple[int, ...]


@dataclass(frozen=True)
class Stage:
    """A subproblem: its decisions and rows, what it costs beside, which decisions leave as states, and what bounds the incoming ones."""

    node: Node
    costs: Costs
    outs: Tuple[int, ...]
    given: Tuple[Sides, ...]
    random_names: Tuple[str, ...]
    decision_names: Tuple[str, ...]


@dataclass(frozen=True)
class Realization:
    """Values of the random variables, and their weight."""

    weight: int
    values: Tuple[int, ...]


@dataclass(frozen=True)
class Place:
    """A node of the graph: its stage, its realizations, successors with their weights, the weight of stopping, and the incoming box."""

    stage: Stage
    realizations: Tuple[Realization, ...]
    successors: Tuple[Tuple[int, int], ...]
    stop: int
    box: Tuple[Box, ...] = ()

    @property
    def total(self) -> int:
        """The total of the successor weights and the weight of stopping; 1 without successors."""
        return self.stop + sum(weight for _, weight in self.successors) if self.successors else 1


@dataclass(frozen=True)
class Problem:
    """A problem: its nodes in the order of their names, the successors of the root with their weights, and the initial state."""

    names: Tuple[str, ...]
    state_names: Tuple[str, ...]
    places: Tuple[Place, ...]
    root: Tuple[Tuple[int, int], ...]
    initial: Tuple[int, ...]
    scenarios: Tuple[Tuple[Tuple[int, Tuple[int, ...]], ...], ...] = ()

    def backwards(self) -> List[int]:
        """The nodes, each behind its successors."""
        order: List[int] = []
        while len(order) < len(self.places):
            order += [number for number, place in enumerate(self.places)
                      if number not in order and all(it in order for it, _ in place.successors)]
        return order


def in_order(names: Iterable[str]) -> List[str]:
    """Names in the order of their bytes."""
    return sorted(names, key=str.encode)


def sides_of(said: Mapping[str, Any], constant: int = 0) -> Sides:
    """The sides of a set, less the constant of the function that is to be in it."""
    both = (said["value"], said["value"]) if said["type"] == "EqualTo" else (said.get("lower"), said.get("upper"))
    return tuple(None if it is None else it - constant for it in both)


def terms_of(function: Mapping[str, Any]) -> Dict[str, int]:
    """The coefficients of a function by variable; those of one variable add up."""
    if function["type"] == "Variable":
        return {function.get("name", function.get("variable")): 1}
    sums: Dict[str, int] = {}
    for term in function["terms"]:
        sums[term["variable"]] = sums.get(term["variable"], 0) + term["coefficient"]
    return sums


def met(one: Sides, other: Sides) -> Sides:
    """Returns the intersection of both bounds."""
    lows, highs = ([it for it in pair if it is not None] for pair in zip(one, other))
    return max(lows, default=None), min(highs, default=None)


@dataclass(frozen=True)
class Variables:
    """The variables of a subproblem by what they are: decisions, incoming states and random variables."""

    decisions: Tuple[str, ...]
    states: Tuple[str, ...]
    randoms: Tuple[str, ...]

    def row(self, terms: Mapping[str, int], sides: Sides) -> StageRow:
        """A row of these terms."""
        parts = [(number, terms[name]) for number, name in enumerate(self.decisions) if terms.get(name, 0) != 0]
        return StageRow(*sides, tuple(parts), self.numbers(self.states, terms), self.numbers(self.randoms, terms))

    @staticmethod
    def numbers(names: Sequence[str], terms: Mapping[str, int]) -> Tuple[int, ...]:
        """The coefficients of some variables."""
        return tuple(terms.get(name, 0) for name in names)


def variables_of(said: Mapping[str, Any], states: Sequence[str]) -> Variables:
    """The variables of a subproblem."""
    ins, randoms = tuple(said["state_variables"][it]["in"] for it in states), tuple(said.get("random_variables", ()))
    names = (it["name"] for it in said["subproblem"]["variables"])
    return Variables(tuple(it for it in names if it not in ins + randoms), ins, randoms)


def stage_of(said: Mapping[str, Any], states: Sequence[str]) -> Stage:
    """A subproblem of a file."""
    variables = variables_of(said, states)
    bounds: Dict[str, Sides] = {}
    rows = []
    for constraint in said["subproblem"]["constraints"]:
        function, terms = constraint["function"], terms_of(constraint["function"])
        sides = sides_of(constraint["set"], function.get("constant", 0))
        name = next(iter(terms), "")
        if function["type"] == "Variable" and name not in variables.randoms:
            bounds[name] = met(bounds.get(name, (None, None)), sides)
        else:
            rows.append(variables.row(terms, sides))
    objective = said["subproblem"]["objective"]
    function = {"type": "", "terms": []} if objective["sense"] == "feasibility" else objective["function"]
    costs = terms_of(function)
    outs = tuple(variables.decisions.index(said["state_variables"][it]["out"]) for it in states)
    return Stage(
        Node(tuple(bounds[it] for it in variables.decisions), variables.numbers(variables.decisions, costs), tuple(rows)),
        Costs(function.get("constant", 0), variables.numbers(variables.states, costs), variables.numbers(variables.randoms, costs)),
        outs, tuple(bounds.get(it, (None, None)) for it in variables.states), variables.randoms, variables.decisions)


def links_of(said: Mapping[str, int], numbers: Mapping[str, int]) -> Tuple[Tuple[int, int], ...]:
    """Successors with their weights, in order."""
    return tuple((numbers[name], said[name]) for name in in_order(said))


def values_of(stage: Stage, support: Mapping[str, int]) -> Tuple[int, ...]:
    """The values of the random variables of a stage."""
    return tuple(support[name] for name in stage.random_names)


def place_of(said: Mapping[str, Any], stages: Mapping[str, Stage], numbers: Mapping[str, int]) -> Place:
    """A node of a file, whose incoming box is not known yet."""
    stage = stages[said["subproblem"]]
    drawn = [Realization(it["probability"], values_of(stage, it.get("support", {}))) for it in said.get("realizations", [])]
    return Place(stage, tuple(drawn) or (Realization(1, ()),), links_of(said.get("successors", {}), numbers), said.get("stop", 0))


def box_of(problem: Problem, number: int) -> Tuple[Box, ...]:
    """The incoming box of a node: the sides that are given, and for others the least that holds what can come in."""
    boxes = []
    for state, (low, high) in enumerate(problem.places[number].stage.given):
        coming = [(problem.initial[state],) * 2] if number in dict(problem.root) else []
        coming += [place.stage.node.boxes[place.stage.outs[state]] for place in problem.places if number in dict(place.successors)]
        boxes.append((min(it for it, _ in coming) if low is None else low, max(it for _, it in coming) if high is None else high))
    return tuple(boxes)


def scenario_of(said: Any, numbers: Mapping[str, int], places: Sequence[Place]) -> Tuple[Tuple[int, Tuple[int, ...]], ...]:
    """A stored scenario: its nodes, each with values."""
    steps = said if isinstance(said, list) else said["scenario"]
    return tuple((numbers[it["node"]], values_of(places[numbers[it["node"]]].stage, it.get("support", {}))) for it in steps)


def problem_of(text: bytes) -> Problem:
    """The problem of a file."""
    said = json.loads(text)
    starts = said["root"].get("state_variables", {})
    states, names = in_order(starts), in_order(said["nodes"])
    numbers = {name: number for number, name in enumerate(names)}
    stages = {name: stage_of(it, states) for name, it in said["subproblems"].items()}
    places = tuple(place_of(said["nodes"][name], stages, numbers) for name in names)
    initial = tuple(starts[it]["initial_value"] if isinstance(starts[it], dict) else starts[it] for it in states)
    scenarios = tuple(scenario_of(it, numbers, places) for it in said.get("validation_scenarios", []))
    problem = Problem(tuple(names), tuple(states), places, links_of(said["root"]["successors"], numbers), initial, scenarios)
    return replace(problem, places=tuple(replace(it, box=box_of(problem, number)) for number, it in enumerate(places)))
