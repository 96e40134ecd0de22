"""Writes a stochastic program as a file of StochOptFormat 1.0 (Dowson, Garcia, Pagnoncelli and others)."""
from __future__ import annotations

import json
from typing import Any, Dict, List

from .tools.stochopt import Constraint, Function, Model, Node, Quantity, Realization, Step, Subproblem
from .tools.profile import SETS

MATHOPT_VERSION = {"major": 1, "minor": 2}


class _Text(str):
    """The text of a number, written as it is."""


def stochopt_text(model: Model) -> str:
    """The file's text, in one line."""
    return _json(_file(model)) + "\n"


def _json(value: Any) -> str:
    """JSON in which numbers stand as their texts."""
    if isinstance(value, _Text):
        return str(value)
    if isinstance(value, dict):
        return "{" + ",".join(f"{json.dumps(key, ensure_ascii=False)}:{_json(it)}" for key, it in value.items()) + "}"
    if isinstance(value, list):
        return "[" + ",".join(map(_json, value)) + "]"
    return json.dumps(value, ensure_ascii=False)


def _number(quantity: Quantity) -> _Text:
    return _Text(quantity.text)


def _numbers(quantities: Dict[str, Quantity]) -> Dict[str, _Text]:
    return {name: _number(it) for name, it in quantities.items()}


def _file(model: Model) -> Dict[str, Any]:
    return {
        **model.texts,
        "version": {"major": 1, "minor": 0},
        "root": {"state_variables": _numbers(model.states), "successors": _numbers(model.root_successors)},
        "nodes": {name: _node(it) for name, it in model.nodes.items()},
        "subproblems": {name: _subproblem(it) for name, it in model.subproblems.items()},
        "validation_scenarios": [{"scenario": [_step(step) for step in it]} for it in model.scenarios],
    }


def _node(node: Node) -> Dict[str, Any]:
    alternatives = [[_number(it) for it in alternative] for alternative in node.alternatives]
    return {
        "subproblem": node.subproblem,
        "realizations": [_realization(it) for it in node.realizations],
        "successors": _numbers(node.successors),
        **({"alternatives": alternatives} if alternatives else {}),
    }


def _realization(realization: Realization) -> Dict[str, Any]:
    return {"probability": _number(realization.probability), "support": _numbers(realization.support)}


def _step(step: Step) -> Dict[str, Any]:
    return {"node": step.node, "support": _numbers(step.support)}


def _subproblem(subproblem: Subproblem) -> Dict[str, Any]:
    objective: Dict[str, Any] = {"sense": subproblem.sense}
    if subproblem.sense != "feasibility":
        objective["function"] = _function(subproblem.objective)
    return {
        "state_variables": {it: {"in": name, "out": subproblem.outgoing[it]} for it, name in subproblem.incoming.items()},
        "random_variables": list(subproblem.randoms),
        "subproblem": {
            "version": MATHOPT_VERSION,
            "variables": [{"name": name} for name in subproblem.variables],
            "objective": objective,
            "constraints": [_constraint(it) for it in subproblem.constraints],
        },
    }


def _function(function: Function) -> Dict[str, Any]:
    if function.is_variable:
        return {"type": "Variable", "name": function.terms[0].variable}
    terms: List[Dict[str, Any]] = [
        {"coefficient": _number(it.coefficient), "variable": it.variable} for it in function.terms
    ]
    constant = _Text("0") if function.constant is None else _number(function.constant)
    return {"type": "ScalarAffineFunction", "terms": terms, "constant": constant}


def _constraint(constraint: Constraint) -> Dict[str, Any]:
    name = {} if constraint.name is None else {"name": constraint.name}
    return {**name, "function": _function(constraint.function), "set": _set(constraint)}


def _set(constraint: Constraint) -> Dict[str, Any]:
    sides = {side: constraint.upper if side == "upper" else constraint.lower for side in SETS[constraint.set_type]}
    return {"type": constraint.set_type, **{name: None if it is None else _number(it) for name, it in sides.items()}}
