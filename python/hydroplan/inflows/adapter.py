"""Hands inflows to `hydroplan.model`: the policy graph, the random variables, and for an autoregression the states of inflow."""
from __future__ import annotations

from dataclasses import replace
from decimal import Decimal
from typing import Callable, Dict, List, Mapping, Optional, Sequence, Tuple

from hydroplan.exact import Number
from hydroplan.expressions import Variable
from hydroplan.model import GraphNode, Model, PolicyGraph, Realization as NodeRealization, Stage

from .realizations import Autoregression, Independent, Inflows, ShockStage, StageRealizations

Filler = Callable[[Stage, GraphNode, Dict[str, Variable]], None]


def model_with_inflows(
    inflows: Inflows, fill: Filler, initial: Optional[Mapping[str, Number]] = None, *, discount: Number = 1, name: Optional[str] = None,
) -> Model:
    """A model over the stages of `inflows`, whatever they were made by.

    `fill(stage, node, inflow)` fills the stage of each node: variables, constraints and objective. `inflow` has for each station
    the variable to put into its water balance. Realizations are given already. `initial` has the root's value of each state of
    yours; those of inflow are added.

    Independent and Lattice give a random variable `inflow_STATION`. Autoregression gives a state of that name and a random variable
    `shock_STATION`, with the row that the outgoing inflow is the coefficient times the incoming one plus the shock; the variable
    that `fill` gets is the outgoing inflow. The nodes of a lattice have the number of the class in `node.state`; `node.value` is the
    stage's part of `inflows`.
    """
    def build(stage: Stage, node: GraphNode) -> List[NodeRealization]:
        own = node.value
        if isinstance(own, ShockStage):
            inflow, realizations = _carried(stage, own)
        else:
            inflow, realizations = _drawn(stage, own, "inflow")
        fill(stage, node, inflow)
        return realizations

    return Model.build(policy_graph(inflows, discount), build, {**(initial or {}), **_first(inflows)}, name)


def policy_graph(inflows: Inflows, discount: Number = 1) -> PolicyGraph:
    """The policy graph of inflows, without transitions of weight 0; each node's `value` is a StageRealizations or a ShockStage."""
    if isinstance(inflows, (Independent, Autoregression)):
        layers: Sequence[object] = inflows.stages
        return PolicyGraph.lattice([[it] for it in layers], [[[1]]] * (len(layers) - 1), discount=discount)
    graph = PolicyGraph.lattice(inflows.stages, inflows.transitions, inflows.initial, discount)
    nodes = (replace(node, successors={name: it for name, it in node.successors.items() if it}) for node in graph.nodes)
    return PolicyGraph(tuple(nodes), {name: it for name, it in graph.root.items() if it})


def _first(inflows: Inflows) -> Dict[str, Decimal]:
    previous = inflows.previous if isinstance(inflows, Autoregression) else {}
    return {f"inflow_{name}": value for name, value in previous.items()}


def _drawn(stage: Stage, own: StageRealizations, what: str) -> Tuple[Dict[str, Variable], List[NodeRealization]]:
    """A random variable for each station, and its realizations."""
    randoms = {name: stage.random(f"{what}_{name}") for name in own.realizations[0].values}
    return randoms, [(it.weight, {randoms[name]: value for name, value in it.values.items()}) for it in own.realizations]


def _carried(stage: Stage, own: ShockStage) -> Tuple[Dict[str, Variable], List[NodeRealization]]:
    """A state of inflow for each station, driven by a shock."""
    shocks, realizations = _drawn(stage, own.shocks, "shock")
    found: Dict[str, Variable] = {}
    for name, shock in shocks.items():
        inflow = stage.state(f"inflow_{name}", own.lower[name], own.upper[name])
        stage.add(inflow.outgoing == own.coefficients[name] * inflow.incoming + shock, name=f"inflow_{name}")
        found[name] = inflow.outgoing
    return found, realizations
