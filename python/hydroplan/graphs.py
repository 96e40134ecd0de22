"""Policy graphs: which nodes there are, and with which weights one leads to the next. Linear, Markov and lattice graphs.

A graph is made before the stages. `Model.build` calls a function of yours at each node, as SDDP.jl does (Dowson and
Kapelevich 2021).
"""
from __future__ import annotations

from dataclasses import dataclass, field
from fractions import Fraction
from typing import Any, Dict, Iterator, List, Mapping, Optional, Sequence, Tuple

from .code_places import users_line
from .errors import ModelError
from .exact import Number, exact, exact_weight

Matrix = Sequence[Sequence[Number]]


@dataclass(frozen=True)
class GraphNode:
    """A node: its name, its stage from 1, its state in that stage from 0 with a label, what it carries, and its successors.

    `value` is what a lattice gives the node. `successors` has weights by name, and `stop` is the weight of the horizon's end.
    """

    name: str
    stage: int
    state: int = 0
    label: str = ""
    value: Any = None
    successors: Mapping[str, Number] = field(default_factory=dict)
    stop: Number = 0


@dataclass(frozen=True)
class PolicyGraph:
    """Nodes in the order of their stages, and the weights with which the root leads to the first of them."""

    nodes: Tuple[GraphNode, ...]
    root: Mapping[str, Number]

    @classmethod
    def linear(cls, stages: int, discount: Number = 1) -> PolicyGraph:
        """One node for each stage, each leading to the next. A discount below 1 ends the horizon with what it leaves of 1."""
        return cls.lattice([[None]] * stages, [[[1]]] * max(0, stages - 1), discount=discount, labels=[""])

    @classmethod
    def markov(
        cls, stages: int, transition: Matrix, initial: Sequence[Number], labels: Optional[Sequence[str]] = None, discount: Number = 1,
    ) -> PolicyGraph:
        """A node for each stage and state of a Markov chain.

        `transition[i][j]` is the weight or probability with which state i leads to state j; `initial` has those of the first
        stage. Labels become the second word of the nodes' names, as in `01 dry`.
        """
        count = len(initial)
        layers = [[None] * count for _ in range(stages)]
        return cls.lattice(layers, [transition] * max(0, stages - 1), initial, discount, labels)

    @classmethod
    def lattice(
        cls, layers: Sequence[Sequence[Any]], transitions: Sequence[Matrix], initial: Optional[Sequence[Number]] = None,
        discount: Number = 1, labels: Optional[Sequence[str]] = None,
    ) -> PolicyGraph:
        """A node for each value of each layer.

        `layers[t]` has the values of stage t + 1; `transitions[t][i][j]` is the weight with which value i of stage t + 1
        leads to value j of the next. `initial` has the weights of the first layer, equal where it is not given.
        """
        if not layers or not all(layers):
            raise ModelError(f"a graph has at least one stage, and each stage a node ({users_line()})")
        _fits("transitions", len(transitions), len(layers) - 1, "steps from stage to stage")
        names = _names(layers, labels)
        steps: List[Matrix] = [*transitions, [[] for _ in layers[-1]]]
        nodes: List[GraphNode] = []
        for at, layer in enumerate(layers):
            following = names[at + 1] if at + 1 < len(layers) else []
            _fits(f"transitions[{at}]", len(steps[at]), len(layer), "nodes of the stage")
            nodes.extend(_layer(at, layer, names[at], following, steps[at], discount, labels))
        weights = initial if initial is not None else [1] * len(layers[0])
        _fits("initial", len(weights), len(layers[0]), "nodes of the first stage")
        return cls(tuple(nodes), dict(zip(names[0], weights)))


def _layer(
    at: int, values: Sequence[Any], names: Sequence[str], following: Sequence[str], matrix: Matrix, discount: Number,
    labels: Optional[Sequence[str]],
) -> Iterator[GraphNode]:
    """The nodes of a stage, with their ways to those of the next."""
    for state, value in enumerate(values):
        _fits(f"transitions[{at}][{state}]", len(matrix[state]), len(following), "nodes of the next stage")
        successors, stop = _discounted(following, matrix[state], discount)
        yield GraphNode(names[state], at + 1, state, labels[state] if labels else "", value, successors, stop)


def _names(layers: Sequence[Sequence[Any]], labels: Optional[Sequence[str]]) -> List[List[str]]:
    """Names whose byte order is that of the stages and states: `01`, `01 dry`, `01 0`."""
    width = len(str(len(layers)))
    widest = max(len(layer) for layer in layers)
    if labels is None and widest == 1:
        labels = [""]
    if labels is not None and (len(labels) != widest or len(set(labels)) != widest):
        raise ModelError(f"{widest} different labels are expected, not {list(labels)} ({users_line()})")
    own = labels or [f"{state:0{len(str(widest - 1))}d}" for state in range(widest)]
    return [[f"{at + 1:0{width}d} {own[state]}".rstrip() for state in range(len(layer))] for at, layer in enumerate(layers)]


def _discounted(names: Sequence[str], weights: Sequence[Number], discount: Number) -> Tuple[Dict[str, Number], Number]:
    """Weights of the successors, and what a discount leaves of them for the end of the horizon."""
    part = exact(discount, f"the discount ({users_line()})")
    if not 0 < part <= 1:
        raise ModelError(f"a discount is above 0 and at most 1, not {discount} ({users_line()})")
    shares = {name: exact_weight(weight, f"a weight of a transition ({users_line()})") * part for name, weight in zip(names, weights)}
    total = sum(shares.values(), Fraction(0))
    return dict(shares), total / part - total


def _fits(what: str, found: int, expected: int, of: str) -> None:
    if found != expected:
        raise ModelError(f"{what} has {found} entries, and there are {expected} {of} ({users_line()})")
