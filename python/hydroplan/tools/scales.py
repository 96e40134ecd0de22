"""Scales: by what each quantity, each constraint and all costs are multiplied to be whole numbers.

Outside the proved core. A scale is chosen by the user, or found: the least one that makes all numbers whole, where
these stay small enough, fractions being read from 40 digits or more; else the least one that makes whole the simplest
fractions within one part in 10^9 of them, so 0.3 for 0.30000000000000004 and 1/3 for 0.3333333333; else the greatest
power of ten that keeps them small enough. Numbers are then rounded, and the converter says which.
"""
from __future__ import annotations

import json
import math
from dataclasses import dataclass, field
from fractions import Fraction
from typing import Iterable, Iterator, Optional

from ..exact import exact
from .located_json import Cursor
from .decimals import simplest_between
from .stochopt import Constraint, Model, Quantity, Subproblem

CLOSE = Fraction(1, 10**9)
SAME = Fraction(1, 10**40)


@dataclass
class SubproblemScales:
    """Scales of variables that are no states' and of constraints by number.

    `rows` are the constraints that are rows, and `outgoing` has the state of each variable that is an outgoing one.
    """

    variables: dict[str, Fraction] = field(default_factory=dict)
    constraints: dict[int, Fraction] = field(default_factory=dict)
    named: dict[str, Fraction] = field(default_factory=dict)
    rows: list[int] = field(default_factory=list)
    outgoing: dict[str, str] = field(default_factory=dict)


@dataclass
class Scales:
    """All scales. A number of the program divided by its scale is in the user's units."""

    cost: Optional[Fraction] = None
    values: Optional[Fraction] = None
    states: dict[str, Fraction] = field(default_factory=dict)
    subproblems: dict[str, SubproblemScales] = field(default_factory=dict)
    nodes: dict[str, str] = field(default_factory=dict)
    negated: bool = False

    def whole_cost(self) -> Fraction:
        """The scale of the costs; ValueError where it is not found yet."""
        if self.cost is None:
            raise ValueError("the costs have no scale yet")
        return self.cost

    def of_variable(self, name: str, subproblem: Subproblem, variable: str) -> Fraction:
        """The scale of a variable of a subproblem; that of its state where it is one."""
        state = subproblem.states_of().get(variable)
        return self.states[state] if state is not None else self.subproblems[name].variables[variable]


def found_scale(numbers: Iterable[Fraction], largest: int) -> Fraction:
    """The scale of numbers, as the head of this module says."""
    values = [abs(number) for number in numbers if number]
    if all(value.denominator == 1 for value in values):
        return Fraction(1)
    greatest = max(values)
    for apart in (Fraction(0), SAME, CLOSE):
        near = [simplest_between(it * (1 - apart), it * (1 + apart)) for it in values] if apart else values
        unit = math.lcm(*(value.denominator for value in near))
        if greatest * unit <= largest:
            return Fraction(unit)
    power = Fraction(1)
    while greatest * power * 10 <= largest:
        power *= 10
    return power


def complete(model: Model, chosen: Scales, largest: int) -> Scales:
    """The scales of a model: those that are chosen, and for what is left open those that are found."""
    _known(model, chosen)
    found = Scales(nodes={name: node.subproblem for name, node in model.nodes.items()}, negated=chosen.negated)
    for state in model.states:
        found.states[state] = _choose(chosen.states.get(state), chosen.values, numbers_of_state(model, state), largest)
    for name, subproblem in model.subproblems.items():
        own = chosen.subproblems.get(name, SubproblemScales())
        outgoing = {variable: state for state, variable in subproblem.outgoing.items()}
        found.subproblems[name] = SubproblemScales(rows=rows_of(subproblem), outgoing=outgoing)
        for variable in _free_variables(subproblem):
            numbers = numbers_of_variable(model, name, variable)
            scale = _choose(own.variables.get(variable), chosen.values, numbers, largest)
            found.subproblems[name].variables[variable] = scale
        _complete_rows(found, name, subproblem, own, largest)
    found.cost = _choose(chosen.cost, None, list(_costs(model, found)), largest)
    return found


def _complete_rows(found: Scales, name: str, subproblem: Subproblem, own: SubproblemScales, largest: int) -> None:
    """The scales of rows, over those of the variables; a row is chosen by its number or by its name."""
    for at in rows_of(subproblem):
        row = subproblem.constraints[at]
        chosen = own.constraints.get(at, own.named.get(row.name or ""))
        scale = _choose(chosen, None, _row_numbers(found, name, subproblem, row), largest)
        found.subproblems[name].constraints[at] = scale


def _choose(
    chosen: Optional[Fraction], common: Optional[Fraction], numbers: Iterable[Fraction], largest: int
) -> Fraction:
    return chosen or common or found_scale(numbers, largest)


def rows_of(subproblem: Subproblem) -> list[int]:
    """The numbers of the constraints that are rows of the program."""
    return [at for at, it in enumerate(subproblem.constraints) if not subproblem.is_bound(it)]


def _free_variables(subproblem: Subproblem) -> list[str]:
    states = subproblem.states_of()
    return [name for name in subproblem.variables if name not in states]


def bounds_of(subproblem: Subproblem, variable: str) -> Iterator[Quantity]:
    """The sides of all bounds of a variable."""
    for it in subproblem.constraints:
        if subproblem.is_bound(it) and it.function.terms[0].variable == variable:
            yield from (side for side in (it.lower, it.upper) if side is not None)


def numbers_of_state(model: Model, state: str) -> list[Fraction]:
    """The numbers that a state's scale has to make whole: its initial value and its bounds in all subproblems."""
    found = [model.states[state].value]
    for subproblem in model.subproblems.values():
        for variable in (subproblem.incoming[state], subproblem.outgoing[state]):
            found.extend(it.value for it in bounds_of(subproblem, variable))
    return found


def numbers_of_variable(model: Model, name: str, variable: str) -> list[Fraction]:
    """The numbers that the scale of a subproblem's variable has to make whole: its bounds, or its outcomes."""
    subproblem = model.subproblems[name]
    if variable not in subproblem.randoms:
        return [it.value for it in bounds_of(subproblem, variable)]
    nodes = [node for node in model.nodes.values() if node.subproblem == name]
    found = [it.support[variable].value for node in nodes for it in node.realizations]
    steps = (step for scenario in model.scenarios for step in scenario)
    return found + [it.support[variable].value for it in steps if model.nodes[it.node].subproblem == name]


def _row_numbers(scales: Scales, name: str, subproblem: Subproblem, row: Constraint) -> list[Fraction]:
    terms = row.function.terms
    found = [it.coefficient.value / scales.of_variable(name, subproblem, it.variable) for it in terms]
    constant = row.function.constant.value if row.function.constant else Fraction(0)
    return found + [side.value - constant for side in (row.lower, row.upper) if side is not None]


def _costs(model: Model, scales: Scales) -> Iterator[Fraction]:
    for name, subproblem in model.subproblems.items():
        for it in subproblem.objective.terms:
            yield it.coefficient.value / scales.of_variable(name, subproblem, it.variable)
        if subproblem.objective.constant is not None:
            yield subproblem.objective.constant.value


def _known(model: Model, chosen: Scales) -> None:
    """Refuses scales of what the model does not have."""
    for state in chosen.states:
        if state not in model.states:
            raise ValueError(f'a scale is given for the state "{state}", which is not there')
    for name, own in chosen.subproblems.items():
        if name not in model.subproblems:
            raise ValueError(f'scales are given for the subproblem "{name}", which is not there')
        subproblem = model.subproblems[name]
        for variable in own.variables:
            if variable not in _free_variables(subproblem):
                there = variable in subproblem.variables
                what = "is a state's: its scale is that of the state" if there else "is not there"
                raise ValueError(f'a scale is given for the variable "{variable}" of "{name}", which {what}')
        rows = rows_of(subproblem)
        names = {subproblem.constraints[at].name for at in rows}
        wrong = [*(str(at) for at in own.constraints if at not in rows), *(it for it in own.named if it not in names)]
        if wrong:
            raise ValueError(f'a scale is given for the constraint {wrong[0]} of "{name}", which is no row')


def read_scales(root: Cursor) -> Scales:
    """The scales of a file: as a user chooses them, or as the converter wrote them."""
    found = Scales(_scale_of(root.find("cost")), _scale_of(root.find("values")), _table(root.find("states")))
    subproblems = root.find("subproblems")
    for name, at in [] if subproblems is None else subproblems.members():
        own = SubproblemScales(_table(at.find("variables")))
        for key, scale in _table(at.find("constraints")).items():
            if key.isdigit():
                own.constraints[int(key)] = scale
            else:
                own.named[key] = scale
        rows = at.find("rows")
        own.rows = [] if rows is None else [int(it.number()) for it in rows.items()]
        outgoing = at.find("outgoing")
        own.outgoing = {} if outgoing is None else {variable: it.text() for variable, it in outgoing.members()}
        found.subproblems[name] = own
    nodes = root.find("nodes")
    found.nodes = {} if nodes is None else {name: at.text() for name, at in nodes.members()}
    negated = root.find("negated")
    found.negated = negated is not None and negated.value.content is True
    return found


def _table(cursor: Optional[Cursor]) -> dict[str, Fraction]:
    return {} if cursor is None else {name: _scale(at) for name, at in cursor.members()}


def _scale_of(cursor: Optional[Cursor]) -> Optional[Fraction]:
    """A scale, none where nothing is given."""
    return None if cursor is None else _scale(cursor)


def _scale(cursor: Cursor) -> Fraction:
    """A scale: a number, or a text such as "1/3"."""
    try:
        scale = exact(cursor.text()) if cursor.is_text() else cursor.number()
    except (ValueError, ZeroDivisionError):
        raise cursor.refuse("Scale", "no number, and no fraction as in \"1/3\"") from None
    if scale <= 0:
        raise cursor.refuse("Scale", "a scale is above 0")
    return scale


def write_scales(scales: Scales) -> str:
    """The text of a file of scales, which `read_scales` reads."""
    about = "./hydroplan convert multiplied by these; a number of the program divided by its scale is in the user's units"
    return json.dumps({
        "about": about,
        "negated": scales.negated,
        "cost": str(scales.cost),
        "states": _texts(scales.states),
        "nodes": scales.nodes,
        "subproblems": {
            name: {
                "variables": _texts(own.variables),
                "constraints": {str(at): str(scale) for at, scale in own.constraints.items()},
                "rows": own.rows,
                "outgoing": own.outgoing,
            }
            for name, own in scales.subproblems.items()
        },
    }, indent=1, ensure_ascii=False) + "\n"


def _texts(scales: dict[str, Fraction]) -> dict[str, str]:
    return {name: str(scale) for name, scale in scales.items()}
