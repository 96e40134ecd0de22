"""A model and its scales, written as a problem in whole numbers, with a ledger of all that was rounded or left out.

Outside the proved core. A file of StochOptFormat and a model made in Python share the steps.
"""
from __future__ import annotations

import json
from dataclasses import dataclass, field, replace
from decimal import Decimal
from fractions import Fraction
from typing import Any, Iterable, Iterator, Optional, Sequence

from . import profile
from .decimals import SUM_TOLERANCE, decimal_text, finer, full_weights, stopping_weights
from .profile import MOST_FILE_BYTES
from .ranges import complete_in_range
from .scales import Scales, bounds_of, rows_of
from .stochopt import Constraint, Function, Model, Node, Quantity, Step, Subproblem, Term, refuse_at

Json = dict[str, Any]


@dataclass(frozen=True)
class Rounding:
    """A number that was not whole at its scale: its text, its exact scaled value, and what stands in its place."""

    place: str
    text: str
    exact: Fraction
    written: Fraction

    def line(self) -> str:
        """The rounding in one line."""
        error = abs(self.written - self.exact) / abs(self.exact) if self.exact else Fraction(0)
        size = Decimal(error.numerator) / Decimal(error.denominator)
        return (
            f"rounded: {self.place}: {self.text} would be {decimal_text(self.exact, 20)} and is {self.written}"
            f" (off by {size:.1e} of it)"
        )


@dataclass
class Ledger:
    """What was rounded and what was left out, in the order in which it was met."""

    tolerance: Fraction
    roundings: list[Rounding] = field(default_factory=list)
    notes: list[str] = field(default_factory=list)

    def whole(self, given: Quantity, exact: Fraction) -> int:
        """The whole number for a scaled value of a given number; refused where it is too large or too far away."""
        written = round(exact)
        if abs(written) > profile.MOST_NUMBER:
            reason = f"{given.text} becomes {written}, above 2^40: choose a smaller scale"
            raise refuse_at(given.place, "TooLarge", reason)
        if abs(written - exact) > self.tolerance * abs(exact):
            reason = f"{given.text} would be {decimal_text(exact, 12)} and become {written}: choose a greater scale"
            raise refuse_at(given.place, "RoundedTooFar", reason)
        if written != exact:
            self.roundings.append(Rounding(given.place, given.text, exact, Fraction(written)))
        return written

    def shares(self, given: Iterable[Quantity], weights: Sequence[int], total: Fraction = Fraction(1)) -> None:
        """Notes each probability, as a part of a total, that is not exactly its weight's share of all weights."""
        every = sum(weights)
        for it, weight in zip(given, weights):
            if it.value != total * Fraction(weight, every):
                self.roundings.append(Rounding(it.place, it.text, it.value / total, Fraction(weight, every)))


@dataclass(frozen=True)
class Bounds:
    """A user's bounds for variables that have none: by subproblem and variable, or by variable alone."""

    by_subproblem: dict[tuple[str, str], tuple[Optional[Quantity], Optional[Quantity]]]
    by_variable: dict[str, tuple[Optional[Quantity], Optional[Quantity]]]

    def find(self, subproblem: str, variable: str) -> tuple[Optional[Quantity], Optional[Quantity]]:
        """The bounds of a variable; both absent where the table has none."""
        return self.by_subproblem.get((subproblem, variable)) or self.by_variable.get(variable) or (None, None)


def without_fixings(model: Model, ledger: Ledger) -> Model:
    """The model without constraints that fix a random variable or an incoming state to one value.

    Tools leave them behind that set these variables by fixing them; what comes in and the realizations give the values.
    """
    subproblems = {}
    for name, subproblem in model.subproblems.items():
        given = {*subproblem.randoms, *subproblem.incoming.values()}
        fixings = [it for it in subproblem.constraints if _fixed(it) in given]
        for it in fixings:
            ledger.notes.append(f'left out: {it.place}: it fixes "{_fixed(it)}", which is given from outside')
        kept = tuple(it for it in subproblem.constraints if it not in fixings)
        subproblems[name] = replace(subproblem, constraints=kept)
    return replace(model, subproblems=subproblems)


def _fixed(constraint: Constraint) -> Optional[str]:
    """The variable that a constraint fixes."""
    is_fixing = constraint.function.is_variable and constraint.set_type == "EqualTo"
    return constraint.function.terms[0].variable if is_fixing else None


def with_bounds(model: Model, bounds: Bounds, ledger: Ledger) -> Model:
    """The model with a bound from the table for each side that a decision lacks; refused where one stays open.

    A decision that stands in no cost and no row, and leaves as no state, needs no table: its value is of no account.
    """
    open_sides: list[str] = []
    subproblems = {}
    for name, subproblem in model.subproblems.items():
        added = []
        for variable in subproblem.decisions():
            wanted = missing_sides(subproblem, variable)
            table: dict[str, Optional[Quantity]] = dict(zip(("lower", "upper"), bounds.find(name, variable)))
            source = "from the table"
            if wanted and not _is_used(subproblem, variable):
                table, source = dict(_any_bounds(subproblem, variable)), "since nothing depends on it"
            open_sides += [f'"{variable}" of "{name}" ({side})' for side in wanted if table[side] is None]
            found = {side: bound for side, bound in table.items() if side in wanted and bound is not None}
            if found:
                added.append(_bound(variable, found, subproblem))
                taken = ", ".join(f"{side} {it.text}" for side, it in found.items())
                ledger.notes.append(f'bound: "{variable}" of "{name}" has {taken} {source}')
        subproblems[name] = replace(subproblem, constraints=(*subproblem.constraints, *added))
    if open_sides:
        reason = "each decision needs a lower and an upper bound; give --bounds for " + ", ".join(open_sides)
        raise refuse_at("$.subproblems", "Unbounded", reason)
    return replace(model, subproblems=subproblems)


def _is_used(subproblem: Subproblem, variable: str) -> bool:
    functions = [it.function for it in subproblem.constraints if not subproblem.is_bound(it)]
    terms = [term for function in (*functions, subproblem.objective) for term in function.terms]
    return variable in subproblem.outgoing.values() or any(term.variable == variable for term in terms)


def _any_bounds(subproblem: Subproblem, variable: str) -> dict[str, Quantity]:
    """One value as both sides: a side that is given, else 0."""
    given = next(bounds_of(subproblem, variable), Quantity(Fraction(0), "0", subproblem.cursor.place()))
    return {"lower": given, "upper": given}


def missing_sides(subproblem: Subproblem, variable: str) -> list[str]:
    """Which of `lower` and `upper` no bound of a variable gives."""
    own = [it for it in subproblem.constraints if subproblem.is_bound(it)]
    own = [it for it in own if it.function.terms[0].variable == variable]
    sides = (("lower", any(it.lower for it in own)), ("upper", any(it.upper for it in own)))
    return [side for side, there in sides if not there]


def _bound(variable: str, sides: dict[str, Quantity], subproblem: Subproblem) -> Constraint:
    place = subproblem.cursor.place()
    one = Quantity(Fraction(1), "1", place)
    lower, upper = sides.get("lower"), sides.get("upper")
    if lower and upper and lower.value > upper.value:
        raise refuse_at(place, "EmptyBox", f'the table bounds "{variable}" to {lower.text} to {upper.text}')
    function = Function((Term(one, variable),), None, True)
    return Constraint(function, _set_type(lower, upper, ""), lower, upper, None, place)


def _set_type(lower: Optional[Quantity], upper: Optional[Quantity], given: str) -> str:
    if given == "EqualTo":
        return given
    if lower and upper:
        return "Interval"
    return "GreaterThan" if lower else "LessThan"


def as_minimum(model: Model, may_negate: bool) -> bool:
    """Whether the costs are to be negated, because the model maximises; refused where that is not asked for."""
    senses = {it.sense for it in model.subproblems.values()} - {"feasibility"}
    if "max" not in senses:
        return False
    first = next(it for it in model.subproblems.values() if it.sense == "max")
    place = first.cursor.member("subproblem").member("objective").member("sense").place()
    if senses == {"max", "min"}:
        raise refuse_at(place, "Unsupported", "some subproblems minimise and others maximise")
    if not may_negate:
        raise refuse_at(place, "Unsupported", "sense max; with --negate-max all costs are negated and minimised")
    return True


def without_nothing(model: Model, ledger: Ledger) -> Model:
    """The model without outcomes of probability 0, the nodes that are then not reached, and scenarios through them."""
    root_successors = _positive(model.root_successors, ledger)
    nodes = {}
    for name, node in model.nodes.items():
        kept = tuple(it for it in node.realizations if it.probability.value > 0)
        if node.realizations and not kept:
            raise node.cursor.refuse("Probability", "all its realizations have probability 0")
        for it in node.realizations:
            if it.probability.value == 0:
                ledger.notes.append(f"left out: {it.probability.place}: a realization of probability 0")
        nodes[name] = replace(
            node, realizations=kept, successors=_positive(node.successors, ledger), alternatives=_alternatives(node),
        )
    reached = _reached(root_successors, nodes)
    for name in nodes:
        if name not in reached:
            ledger.notes.append(f'left out: {nodes[name].cursor.place()}: nothing leads to node "{name}"')
    nodes = {name: node for name, node in nodes.items() if name in reached}
    model = replace(model, root_successors=root_successors, nodes=nodes)
    kept_scenarios = tuple(it for it in model.scenarios if _follows(model, it))
    if len(kept_scenarios) < len(model.scenarios):
        count = len(model.scenarios) - len(kept_scenarios)
        ledger.notes.append(f"left out: {count} stored scenarios that do not follow the graph")
    return replace(model, scenarios=kept_scenarios)


def _alternatives(node: Node) -> tuple[tuple[Quantity, ...], ...]:
    """The alternatives without the realizations of probability 0; the others of a list have to sum to 1."""
    kept = [at for at, it in enumerate(node.realizations) if it.probability.value > 0]
    found = tuple(tuple(alternative[at] for at in kept) for alternative in node.alternatives)
    nothing = next((it for alternative in found for it in alternative if it.value == 0), None)
    if nothing is not None:
        raise refuse_at(nothing.place, "Probability", "an alternative has probability 0, and weights are at least 1")
    return found


def _positive(successors: dict[str, Quantity], ledger: Ledger) -> dict[str, Quantity]:
    for it in successors.values():
        if it.value == 0:
            ledger.notes.append(f"left out: {it.place}: a successor of probability 0")
    return {name: it for name, it in successors.items() if it.value > 0}


def _reached(first: Iterable[str], nodes: dict[str, Node]) -> set[str]:
    found: set[str] = set()
    waiting = list(first)
    while waiting:
        name = waiting.pop()
        if name not in found:
            found.add(name)
            waiting.extend(nodes[name].successors)
    return found


def _follows(model: Model, scenario: tuple[Step, ...]) -> bool:
    allowed = model.root_successors
    for step in scenario:
        if step.node not in allowed:
            return False
        allowed = model.nodes[step.node].successors
    return bool(scenario)


@dataclass(frozen=True)
class Writer:
    """Writes a model at its scales."""

    model: Model
    scales: Scales
    ledger: Ledger
    may_differ: bool
    successor_total: int = 1

    def problem(self) -> Json:
        """The problem as a JSON value of whole numbers."""
        _within_limits(self.model)
        scales = self.scales.states
        states = {name: self.ledger.whole(it, it.value * scales[name]) for name, it in self.model.states.items()}
        return {
            **self.model.texts,
            "version": {"major": 1, "minor": 0},
            "root": {"state_variables": states, "successors": self._root_weights()},
            "nodes": {name: self._node(node) for name, node in self.model.nodes.items()},
            "subproblems": {name: self._subproblem(name, it) for name, it in self.model.subproblems.items()},
            "validation_scenarios": [[self._step(it) for it in scenario] for scenario in self.model.scenarios],
        }

    def _root_weights(self) -> dict[str, int]:
        given = self.model.root_successors
        return dict(zip(given, self._full_weights(list(given.values()), self.model.root.place())))

    def _full_weights(self, given: list[Quantity], place: str) -> tuple[int, ...]:
        """Weights of probabilities of which one comes true."""
        found = full_weights(given, place, self.may_differ)
        total = sum((it.value for it in given), Fraction(0))
        if abs(total - 1) <= SUM_TOLERANCE:
            total = Fraction(1)
        else:
            self.ledger.notes.append(f"shares: {place}: the probabilities sum to {total}, and are taken as parts of it")
        self.ledger.shares(given, found, total)
        return found

    def _node(self, node: Node) -> Json:
        place = node.cursor.place()
        written: Json = {"subproblem": node.subproblem}
        probabilities = [it.probability for it in node.realizations]
        if probabilities:
            weights = self._full_weights(probabilities, place)
            written["realizations"] = [
                {"probability": weight, "support": self._support(node.subproblem, it.support)}
                for weight, it in zip(weights, node.realizations)
            ]
        if node.alternatives:
            written["alternatives"] = [list(self._full_weights(list(it), place)) for it in node.alternatives]
        if not node.successors:
            return written
        given = list(node.successors.values())
        *onward, stop = finer(stopping_weights(given, place), self.successor_total)
        self.ledger.shares(given, (*onward, stop))
        written["successors"] = dict(zip(node.successors, onward))
        if stop:
            written["stop"] = stop
            share = Fraction(stop, sum(onward) + stop)
            self.ledger.notes.append(f"stop: {place}: the horizon ends there with probability {share}")
        return written

    def _support(self, subproblem: str, support: dict[str, Quantity]) -> dict[str, int]:
        scales = self.scales.subproblems[subproblem].variables
        return {name: self.ledger.whole(it, it.value * scales[name]) for name, it in support.items()}

    def _step(self, step: Step) -> Json:
        return {"node": step.node, "support": self._support(self.model.nodes[step.node].subproblem, step.support)}

    def _subproblem(self, name: str, subproblem: Subproblem) -> Json:
        outgoing = subproblem.outgoing
        states = {state: {"in": name, "out": outgoing[state]} for state, name in subproblem.incoming.items()}
        return {
            "state_variables": states,
            "random_variables": list(subproblem.randoms),
            "subproblem": {
                "variables": [{"name": variable} for variable in subproblem.variables],
                "objective": self._objective(name, subproblem),
                "constraints": [self._constraint(name, subproblem, at) for at in range(len(subproblem.constraints))],
            },
        }

    def _objective(self, name: str, subproblem: Subproblem) -> Json:
        if subproblem.sense == "feasibility":
            return {"sense": "feasibility"}
        cost = self.scales.whole_cost()
        scale = -cost if self.scales.negated else cost
        constant = subproblem.objective.constant
        return {"sense": "min", "function": {
            "type": "ScalarAffineFunction",
            "terms": self._terms(name, subproblem, subproblem.objective, scale),
            "constant": self.ledger.whole(constant, constant.value * scale) if constant else 0,
        }}

    def _terms(self, name: str, subproblem: Subproblem, function: Function, scale: Fraction) -> list[Json]:
        written = []
        for it in function.terms:
            exact = it.coefficient.value * scale / self.scales.of_variable(name, subproblem, it.variable)
            written.append({"coefficient": self.ledger.whole(it.coefficient, exact), "variable": it.variable})
        return written

    def _constraint(self, name: str, subproblem: Subproblem, at: int) -> Json:
        """A constraint: a bound at the scale of its variable, a row at its own, its constant moved to the sides."""
        it = subproblem.constraints[at]
        if subproblem.is_bound(it):
            variable = it.function.terms[0].variable
            scale = self.scales.of_variable(name, subproblem, variable)
            function: Json = {"type": "Variable", "name": variable}
        else:
            scale = self.scales.subproblems[name].constraints[at]
            terms = self._terms(name, subproblem, it.function, scale)
            function = {"type": "ScalarAffineFunction", "terms": terms, "constant": 0}
        written: Json = {} if it.name is None else {"name": it.name}
        return {**written, "function": function, "set": self._set(it, scale)}

    def _set(self, constraint: Constraint, scale: Fraction) -> Json:
        constant = constraint.function.constant.value if constraint.function.constant else Fraction(0)
        kind = _set_type(constraint.lower, constraint.upper, constraint.set_type)
        sides = [("lower", constraint.lower), ("upper", constraint.upper)]
        if kind == "EqualTo":
            sides = [("value", constraint.lower)]
        written = {key: self.ledger.whole(side, (side.value - constant) * scale) for key, side in sides if side}
        return {"type": kind, **written}


def _within_limits(model: Model) -> None:
    """Refuses what passes a limit of the profile: counts and names."""
    for what, count, most in _counts(model):
        if count > most:
            raise refuse_at("$", "TooLarge", f"{count} {what}, and at most {most} are allowed")
    names = [*model.states, *model.nodes, *model.subproblems]
    names += [variable for it in model.subproblems.values() for variable in it.variables]
    long = next((name for name in names if len(name.encode("utf-8")) > profile.MOST_NAME_BYTES), None)
    if long is not None:
        raise refuse_at("$", "TooLarge", f'the name "{long}" has more than {profile.MOST_NAME_BYTES} bytes')


def _counts(model: Model) -> Iterator[tuple[str, int, int]]:
    """What is counted, how many there are, and how many there may be."""
    yield "nodes", len(model.nodes), profile.MOST_NODES
    yield "subproblems", len(model.subproblems), profile.MOST_SUBPROBLEMS
    yield "stored scenarios", len(model.scenarios), profile.MOST_SCENARIOS
    yield "states", len(model.states), profile.MOST_STATES
    for name, node in model.nodes.items():
        yield f'realizations of node "{name}"', len(node.realizations), profile.MOST_REALIZATIONS
    for name, it in model.subproblems.items():
        yield f'decisions of "{name}"', len(it.decisions()), profile.MOST_DECISIONS
        yield f'rows of "{name}"', len(rows_of(it)), profile.MOST_ROWS
        yield f'random variables of "{name}"', len(it.randoms), profile.MOST_RANDOMS


@dataclass(frozen=True)
class Options:
    """What may be chosen beside scales and bounds.

    `largest` is the greatest number that a found scale makes, `tolerance` the greatest part by which a number may be
    rounded, and `successor_total` the total that the weights of a node's successors and its stop reach at least.
    """

    negate_max: bool = False
    normalise: bool = False
    largest: int = 10**9
    tolerance: Fraction = Fraction(1, 1000)
    successor_total: int = 1


@dataclass(frozen=True)
class Converted:
    """A problem in whole numbers, its scales, what was rounded and left out, and the model as it was written: without that."""

    problem: dict[str, Any]
    scales: Scales
    ledger: Ledger
    model: Model


def compile_model(model: Model, chosen: Scales, bounds: Bounds, options: Options) -> Converted:
    """The problem of a model, or Refused."""
    ledger = Ledger(options.tolerance)
    ledger.notes.extend(model.notes)
    model = without_fixings(without_nothing(model, ledger), ledger)
    model = with_bounds(model, bounds, ledger)
    chosen.negated = as_minimum(model, options.negate_max)
    if chosen.negated:
        ledger.notes.append("sense: max was turned into min, all costs are negated")
    scales, notes = complete_in_range(model, chosen, options.largest)
    writer = Writer(model, scales, ledger, options.normalise, options.successor_total)
    problem = writer.problem()
    ledger.notes.extend(notes)
    return Converted(problem, scales, ledger, model)


def problem_text(problem: dict[str, Any], most: int = MOST_FILE_BYTES) -> str:
    """The text of a problem, in one line, or ValueError where it has more bytes than the program reads."""
    text = json.dumps(problem, ensure_ascii=False, separators=(",", ":")) + "\n"
    if len(text.encode("utf-8")) > most:
        raise ValueError(f"the problem would have more than {most} bytes")
    return text


def ledger_lines(ledger: Ledger) -> list[str]:
    """The lines of a ledger: what was left out or added, what was rounded, and how many numbers were."""
    lines = [*ledger.notes, *(it.line() for it in ledger.roundings)]
    return [*lines, f"{len(ledger.roundings)} numbers were rounded"]
