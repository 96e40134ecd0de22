"""Models: stages, nodes with realizations and successors, and the root's initial state. This is where a model is made.

Names are those of SDDP.jl and MSPPy: a stage has variables, states, random variables, constraints and an objective; a
policy graph has nodes with weights. Numbers are exact (`hydroplan.exact`). docs/use/MODELS.md builds three models.
"""
from __future__ import annotations

from dataclasses import dataclass
from fractions import Fraction
from typing import Callable, Dict, List, Mapping, Optional, Sequence, Tuple, Union

from .code_places import CodePlace, users_line
from .errors import ModelError, NotLinear
from .exact import Number, exact, exact_weight
from .expressions import Expression, Relation, Variable, between, dot, total
from .graphs import GraphNode, PolicyGraph
from .programs import Compiled, Program, Resolution, read_stochopt
from .sharing import shared_model
from .stages import Constraint, Stage, State

__all__ = [
    "Compiled", "Constraint", "Expression", "GraphNode", "Model", "Node", "NotLinear", "Number", "PolicyGraph", "Program",
    "Realization", "Relation", "Stage", "State", "Variable", "between", "dot", "equally", "read_stochopt", "total",
]

Values = Union[Mapping[str, Number], Mapping[Variable, Number]]
Realization = Tuple[Number, Values]
Builder = Callable[[Stage, GraphNode], Optional[Sequence[Realization]]]


def equally(outcomes: Sequence[Values]) -> List[Realization]:
    """Realizations of equal weight: one for each outcome, which gives a value to each random variable."""
    return [(1, outcome) for outcome in outcomes]


@dataclass(frozen=True)
class Node:
    """A node of the policy graph: exact weights, and values by the names of random variables."""

    name: str
    stage: Stage
    realizations: Tuple[Tuple[Fraction, Dict[str, Fraction]], ...]
    successors: Dict[str, Fraction]
    stop: Fraction
    alternatives: Tuple[Tuple[Fraction, ...], ...]
    place: CodePlace

    def called(self) -> str:
        """The node in words, with its line."""
        return f'node "{self.name}" ({self.place})'


class Model:
    """A multistage stochastic program: `initial` has the root's value of each state, in the user's units."""

    def __init__(self, initial: Optional[Mapping[str, Number]] = None, name: Optional[str] = None) -> None:
        self.place = users_line()
        self.name = name
        self.initial = {
            state: exact(value, f'the initial value of "{state}" ({self.place})') for state, value in (initial or {}).items()
        }
        self.stages: Dict[str, Stage] = {}
        self.nodes: Dict[str, Node] = {}
        self.first: Dict[str, Fraction] = {}
        self.scenarios: List[List[Tuple[str, Dict[str, Fraction]]]] = []

    @classmethod
    def build(
        cls, graph: PolicyGraph, builder: Builder, initial: Optional[Mapping[str, Number]] = None, name: Optional[str] = None,
    ) -> Model:
        """A model over a policy graph: `builder(stage, node)` fills the stage of each node and returns its realizations."""
        model = cls(initial, name)
        for node in graph.nodes:
            stage = model.stage(node.name)
            model.node(node.name, stage, builder(stage, node), node.successors, node.stop)
        model.root(graph.root)
        return model

    def stage(self, name: str) -> Stage:
        """A new stage, empty as yet. Several nodes may share it."""
        if name in self.stages:
            raise ModelError(f'the stage "{name}" is there already ({self.stages[name].place}; {users_line()})')
        self.stages[name] = Stage(name)
        return self.stages[name]

    def node(
        self, name: str, stage: Stage, realizations: Optional[Sequence[Realization]] = None,
        successors: Optional[Mapping[str, Number]] = None, stop: Number = 0, alternatives: Sequence[Sequence[Number]] = (),
    ) -> Node:
        """A node with its stage.

        A realization is a weight and a value for each random variable. `successors` has a weight under each node's name,
        and `stop` is the weight with which the horizon ends here. Weights are of any size: what counts is a weight's share
        of its total. `alternatives` are further lists of one weight per realization, of which `robust` takes the worst.
        """
        place = users_line()
        if name in self.nodes:
            raise ModelError(f'the node "{name}" ({place}) is there already: {self.nodes[name].called()}')
        if self.stages.get(stage.name) is not stage:
            raise ModelError(f'the stage "{stage.name}" of node "{name}" ({place}) belongs to another model')
        called = f'node "{name}" ({place})'
        given = [_realization(stage, it, called) for it in realizations or ()]
        lists = [[_weight(it, f"an alternative of {called}") for it in weights] for weights in alternatives]
        wrong = next((it for it in lists if len(it) != len(given)), None)
        if wrong is not None:
            raise ModelError(f"an alternative of {called} has {len(wrong)} weights for {len(given)} realizations")
        found = Node(
            name, stage, tuple(given), _successors(successors or {}, called), _weight(stop, f"stop of {called}"), tuple(map(tuple, lists)), place,
        )
        self.nodes[name] = found
        return found

    def root(self, successors: Mapping[str, Number]) -> None:
        """Sets the first nodes, with weights. Without it the root leads to the one node that no other leads to."""
        self.first = _successors(successors, f"the root ({users_line()})")

    def scenario(self, steps: Sequence[Tuple[str, Values]]) -> None:
        """Stores a scenario for `validate`: a node and the values of its random variables for each stage."""
        place = users_line()
        found = []
        for name, values in steps:
            if name not in self.nodes:
                raise ModelError(f'no node is named "{name}": a scenario steps there ({place})')
            found.append((name, _values(self.nodes[name].stage, values, f'a step to "{name}" ({place})')))
        self.scenarios.append(found)

    def program(self) -> Program:
        """The model in the form that it shares with files of StochOptFormat; ModelError names what is wrong with it."""
        return Program(shared_model(self))

    def compile(
        self, resolution: Resolution = None, *, successor_total: int = 1, largest: int = 10**9, tolerance: Number = "0.001",
    ) -> Compiled:
        """The problem in whole numbers, as `./hydroplan convert` makes it of `to_stochopt`. `Program.compile` says what may be chosen."""
        return self.program().compile(resolution, successor_total=successor_total, largest=largest, tolerance=tolerance)

    def to_stochopt(self) -> str:
        """The model as a file of StochOptFormat."""
        return self.program().to_stochopt()


def _weight(number: Number, what: str) -> Fraction:
    return exact_weight(number, f"the weight of {what}")


def _successors(successors: Mapping[str, Number], called: str) -> Dict[str, Fraction]:
    if not isinstance(successors, Mapping):
        raise ModelError(f'the successors of {called} are weights by name, as in {{"next": 1}}, not {successors!r}')
    return {name: _weight(it, f'the successor "{name}" of {called}') for name, it in successors.items()}


def _realization(stage: Stage, realization: Realization, called: str) -> Tuple[Fraction, Dict[str, Fraction]]:
    if not (isinstance(realization, tuple) and len(realization) == 2 and isinstance(realization[1], Mapping)):
        raise ModelError(f"a realization of {called} is a weight and values by name, as in (1, {{..}}), not {realization!r}")
    return _weight(realization[0], f"a realization of {called}"), _values(stage, realization[1], called)


def _values(stage: Stage, values: Values, called: str) -> Dict[str, Fraction]:
    """A value for each random variable of a stage, in their order."""
    given: Dict[str, Number] = {}
    for key, value in values.items():
        given[key.name if isinstance(key, Variable) else key] = value
    randoms = [it.name for it in stage.randoms()]
    unknown = next((name for name in given if name not in randoms), None)
    if unknown is not None:
        raise ModelError(f'"{unknown}" has a value in {called}, and is no random variable of stage "{stage.name}"')
    missing = next((it for it in stage.randoms() if it.name not in given), None)
    if missing is not None:
        raise ModelError(f"the random variable {missing!r} has no value in {called}")
    return {name: exact(given[name], f'the value of "{name}" in {called}') for name in randoms}
