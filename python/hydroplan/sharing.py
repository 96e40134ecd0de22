"""A `Model` in the form that it shares with files of StochOptFormat: parts in byte order, probabilities in place of weights."""
from __future__ import annotations

from fractions import Fraction
from typing import TYPE_CHECKING, Dict, Iterable, List, Optional, Sequence

from .code_places import CodeOrigin
from .errors import ModelError, Unbounded
from .exact import text_of
from .expressions import Expression, Variable
from .stages import Constraint, Stage
from .tools import stochopt as shared
from .tools.likeness import unknown_word
from .tools.located_json import byte_order
from .tools.stochopt import find_cycle

if TYPE_CHECKING:
    from .model import Model, Node


def shared_model(model: Model) -> shared.Model:
    """The shared form of a model, or ModelError."""
    _is_whole(model)
    root = CodeOrigin("the root", model.place)
    alike = _alike(model)
    return shared.Model(
        {name: quantity(model.initial[name], f'the initial value of "{name}" ({model.place})') for name in byte_order(iter(model.initial))},
        _shares(_first(model), root.place()),
        root,
        {name: _node(model.nodes[name], alike) for name in byte_order(iter(model.nodes))},
        {name: _subproblem(model.stages[name]) for name in byte_order(iter(set(alike.values())))},
        tuple(tuple(_step(model, *step) for step in scenario) for scenario in model.scenarios),
        {} if model.name is None else {"name": model.name},
        [f'left out: stage "{it.name}" ({it.place}): no node has it' for it in model.stages.values() if it.name not in alike],
    )


def _alike(model: Model) -> Dict[str, str]:
    """For each stage that a node has, by name, the first in byte order that says the same: one subproblem is enough for them."""
    first: Dict[object, str] = {}
    used = {node.stage.name for node in model.nodes.values()}
    return {name: first.setdefault(_said(model.stages[name]), name) for name in byte_order(iter(used))}


def _said(stage: Stage) -> object:
    """All that counts of a stage but its name and its lines."""
    variables = tuple((it.name, it.kind, it.lower, it.upper) for it in stage.all_variables.values())
    rows = tuple(
        (it.name, it.relation.set_type, it.relation.lower, it.relation.upper, _by_name(it.relation.terms)) for it in stage.constraints
    )
    return variables, rows, stage.sense, _by_name(stage.objective)


def _by_name(expression: Expression) -> object:
    return tuple((it.name, coefficient) for it, coefficient in expression.terms.items()), expression.constant


def quantity(value: Fraction, place: str) -> shared.Quantity:
    """A number with its text and its place."""
    return shared.Quantity(value, text_of(value), place)


def _is_whole(model: Model) -> None:
    """Refuses a model with parts that are missing or do not fit each other."""
    if not model.nodes:
        raise ModelError(f"the model has no nodes ({model.place})")
    _known_successors(model)
    for stage in model.stages.values():
        _same_states(model, stage)
    for node in model.nodes.values():
        if node.stage.randoms() and not node.realizations:
            raise ModelError(f"{node.called()} has no realizations, and its stage the random variable {node.stage.randoms()[0]!r}")
    open_sides = [it for stage in model.stages.values() for it in _open_sides(stage)]
    if open_sides:
        raise Unbounded("each decision needs a lower and an upper bound: " + "; ".join(open_sides))


def _known_successors(model: Model) -> None:
    for called, successors in [("the root", model.first), *((it.called(), it.successors) for it in model.nodes.values())]:
        unknown = next((name for name in successors if name not in model.nodes), None)
        if unknown is not None:
            raise ModelError(f"{called} leads to a node that is not there: {unknown_word(unknown, list(model.nodes))}")
    cycle = find_cycle({name: list(node.successors) for name, node in model.nodes.items()})
    if cycle is not None:
        raise ModelError(f"nodes lead back to themselves: {' -> '.join(cycle)}; {model.nodes[cycle[0]].called()}")


def _same_states(model: Model, stage: Stage) -> None:
    for name in model.initial:
        if name not in stage.states:
            raise ModelError(f'stage "{stage.name}" ({stage.place}) lacks the state "{name}", which the model has ({model.place})')
    for name, state in stage.states.items():
        if name not in model.initial:
            raise ModelError(f'the state "{name}" ({state.incoming.place}) has no initial value in the model ({model.place})')


def _open_sides(stage: Stage) -> List[str]:
    decisions = [it for it in stage.all_variables.values() if it.kind in ("decision", "outgoing")]
    return [
        f'{it!r} of stage "{stage.name}" has no {side} bound'
        for it in decisions for side, bound in (("lower", it.lower), ("upper", it.upper)) if bound is None
    ]


def _first(model: Model) -> Dict[str, Fraction]:
    """The root's successors: those that were given, or the one node that no other leads to."""
    if model.first:
        return model.first
    led_to = {name for node in model.nodes.values() for name in node.successors}
    starts = [name for name in model.nodes if name not in led_to]
    if len(starts) != 1:
        raise ModelError(f"several nodes may be the first, {', '.join(starts)}: say by Model.root which are ({model.place})")
    return {starts[0]: Fraction(1)}


def _shares(weights: Dict[str, Fraction], place: str, stop: Fraction = Fraction(0)) -> Dict[str, shared.Quantity]:
    """Probabilities by name, in byte order: a weight's part of all weights and the stop weight."""
    total = sum(weights.values(), stop)
    if weights and total == 0:
        raise ModelError(f"no weight is above 0: {place}")
    return {name: quantity(weights[name] / total, f'the successor "{name}" of {place}') for name in byte_order(iter(weights))}


def _parts(weights: Sequence[Fraction], place: str) -> List[shared.Quantity]:
    total = sum(weights, Fraction(0))
    if weights and total == 0:
        raise ModelError(f"no weight is above 0: {place}")
    return [quantity(weight / total, f"realization {at} of {place}") for at, weight in enumerate(weights)]


def _node(node: Node, alike: Dict[str, str]) -> shared.Node:
    origin = CodeOrigin(f'node "{node.name}"', node.place)
    place = origin.place()
    probabilities = _parts([weight for weight, _ in node.realizations], place)
    realizations = tuple(
        shared.Realization(probability, _support(values, place))
        for probability, (_, values) in zip(probabilities, node.realizations)
    )
    alternatives = tuple(tuple(_parts(it, f"an alternative of {place}")) for it in node.alternatives)
    return shared.Node(alike[node.stage.name], realizations, _shares(node.successors, place, node.stop), origin, alternatives)


def _support(values: Dict[str, Fraction], place: str) -> Dict[str, shared.Quantity]:
    return {name: quantity(value, f'the value of "{name}" in {place}') for name, value in values.items()}


def _step(model: Model, name: str, values: Dict[str, Fraction]) -> shared.Step:
    return shared.Step(name, _support(values, f'a stored scenario at {model.nodes[name].called()}'))


def _subproblem(stage: Stage) -> shared.Subproblem:
    states = [stage.states[name] for name in byte_order(iter(stage.states))]
    bounds = (it for it in stage.all_variables.values() if it.lower is not None or it.upper is not None)
    return shared.Subproblem(
        {it.name: it.incoming.name for it in states},
        {it.name: it.outgoing.name for it in states},
        tuple(it.name for it in stage.randoms()),
        tuple(stage.all_variables),
        stage.sense,
        _function(stage.objective, f'the objective of stage "{stage.name}" ({stage.objective_place})'),
        (*(_row(stage, it) for it in stage.constraints), *(_bound(stage, it) for it in bounds)),
        CodeOrigin(f'stage "{stage.name}"', stage.place),
    )


def _terms(expression: Expression, place: str) -> Iterable[shared.Term]:
    for variable, coefficient in expression.terms.items():
        if coefficient:
            yield shared.Term(quantity(coefficient, f'the coefficient of "{variable.name}" in {place}'), variable.name)


def _function(expression: Expression, place: str) -> shared.Function:
    constant = quantity(expression.constant, f"the constant of {place}") if expression.constant else None
    return shared.Function(tuple(_terms(expression, place)), constant, False)


def _side(value: Optional[Fraction], place: str) -> Optional[shared.Quantity]:
    return None if value is None else quantity(value, place)


def _row(stage: Stage, constraint: Constraint) -> shared.Constraint:
    place = f'{constraint.called()} of stage "{stage.name}" ({constraint.place})'
    relation = constraint.relation
    lower, upper = _side(relation.lower, f"the side of {place}"), _side(relation.upper, f"the side of {place}")
    return shared.Constraint(_function(relation.terms, place), relation.set_type, lower, upper, constraint.name, place)


def _bound(stage: Stage, variable: Variable) -> shared.Constraint:
    place = f'the bound of "{variable.name}" of stage "{stage.name}" ({variable.place})'
    kind = "LessThan" if variable.lower is None else "GreaterThan" if variable.upper is None else "Interval"
    function = shared.Function((shared.Term(quantity(Fraction(1), place), variable.name),), None, True)
    return shared.Constraint(function, kind, _side(variable.lower, place), _side(variable.upper, place), None, place)
