"""A stochastic program as a file of StochOptFormat gives it, with numbers exact and in their places: 1.x, and older keys of one meaning.

Outside the proved core. What the whole-number profile does not have is refused by name and place: cyclic graphs,
functions that are not linear, sets of whole numbers, cones.
"""
from __future__ import annotations

from dataclasses import dataclass, field
from fractions import Fraction
from functools import cached_property
from typing import Optional, Protocol

from .located_json import Cursor, Refused
from .profile import SETS


class Origin(Protocol):
    """Where a part of a model comes from: a value of a file, or a line of a user's code."""

    def place(self) -> str:
        """The place in words."""

    def refuse(self, kind: str, reason: str) -> Refused:
        """A refusal at this place, to be raised."""

    def member(self, *keys: str) -> Origin:
        """The place of a member."""


@dataclass(frozen=True)
class Quantity:
    """A number as it was given: its exact value, its text, and where it stands."""

    value: Fraction
    text: str
    place: str


@dataclass(frozen=True)
class Term:
    """A coefficient times a variable."""

    coefficient: Quantity
    variable: str


@dataclass(frozen=True)
class Function:
    """A sum of terms and a constant; `is_variable` where it is one variable itself."""

    terms: tuple[Term, ...]
    constant: Optional[Quantity]
    is_variable: bool


@dataclass(frozen=True)
class Constraint:
    """A function between two sides; a side may be absent. Its name may be absent as well."""

    function: Function
    set_type: str
    lower: Optional[Quantity]
    upper: Optional[Quantity]
    name: Optional[str]
    place: str


@dataclass(frozen=True)
class Subproblem:
    """The program of a stage: `incoming` and `outgoing` give each state's variables."""

    incoming: dict[str, str]
    outgoing: dict[str, str]
    randoms: tuple[str, ...]
    variables: tuple[str, ...]
    sense: str
    objective: Function
    constraints: tuple[Constraint, ...]
    cursor: Origin

    def states_of(self) -> dict[str, str]:
        """The state of each variable that is an incoming or outgoing state."""
        return self._states

    @cached_property
    def _states(self) -> dict[str, str]:
        pairs = [(name, state) for state, name in self.incoming.items()]
        return dict(pairs + [(name, state) for state, name in self.outgoing.items()])

    def decisions(self) -> list[str]:
        """The variables that are neither incoming states nor random."""
        given = {*self.incoming.values(), *self.randoms}
        return [name for name in self.variables if name not in given]

    def is_bound(self, constraint: Constraint) -> bool:
        """Whether the constraint is a bound of a variable; every other one is a row."""
        return constraint.function.is_variable and constraint.function.terms[0].variable not in self.randoms


@dataclass(frozen=True)
class Realization:
    """An outcome of the random variables with its probability."""

    probability: Quantity
    support: dict[str, Quantity]


@dataclass(frozen=True)
class Node:
    """A node of the policy graph; `alternatives` are further lists of probabilities of its realizations."""

    subproblem: str
    realizations: tuple[Realization, ...]
    successors: dict[str, Quantity]
    cursor: Origin
    alternatives: tuple[tuple[Quantity, ...], ...] = ()


@dataclass(frozen=True)
class Step:
    """A step of a stored scenario."""

    node: str
    support: dict[str, Quantity]


@dataclass(frozen=True)
class Model:
    """The whole file. `texts` are its name, author, date and description, `notes` what was passed over."""

    states: dict[str, Quantity]
    root_successors: dict[str, Quantity]
    root: Origin
    nodes: dict[str, Node]
    subproblems: dict[str, Subproblem]
    scenarios: tuple[tuple[Step, ...], ...]
    texts: dict[str, str]
    notes: list[str] = field(default_factory=list)


def quantity(cursor: Cursor) -> Quantity:
    """The number at a cursor."""
    return Quantity(cursor.number(), cursor.written(), cursor.place())


def whole_quantity(number: int, cursor: Cursor) -> Quantity:
    """A number that the file leaves out, at the place of what it belongs to."""
    return Quantity(Fraction(number), str(number), cursor.place())


def refuse_at(place: str, kind: str, reason: str) -> Refused:
    """A refusal at a place that was kept."""
    return Refused(kind, reason, place)


TEXTS = ("name", "author", "date", "description")
VARIABLE_TYPES = ("Variable", "SingleVariable")


def read_model(root: Cursor) -> Model:
    """The model of a file, or Refused."""
    notes: list[str] = []
    _version(root, notes)
    edges = _edges(root)
    subproblems = {name: _subproblem(at) for name, at in root.member("subproblems").members()}
    nodes = {name: _node(at, edges.get(name), subproblems) for name, at in root.member("nodes").members()}
    origin = root.member("root")
    states = {name: _initial(at) for name, at in _object(origin, "state_variables")}
    root_name = origin.find("name")
    own_edges = edges.get(root_name.name() if root_name else "root")
    model = Model(
        states, _successors(origin, own_edges), origin, nodes, subproblems,
        _scenarios(root, nodes, subproblems, notes), _texts(root), notes,
    )
    _known_successors(model)
    _same_states(model)
    return model


def _version(root: Cursor, notes: list[str]) -> None:
    major = root.member("version").member("major")
    if major.number() not in (0, 1):
        raise major.refuse("Version", f"version {major.written()} is not read, 1 is")
    if major.number() == 0:
        notes.append(f"{major.place()}: a file of version 0 is read as one of version 1")


def _texts(root: Cursor) -> dict[str, str]:
    found = ((key, root.find(key)) for key in TEXTS)
    return {key: at.text() for key, at in found if at is not None and at.is_text()}


def _object(cursor: Cursor, key: str) -> list[tuple[str, Cursor]]:
    """The members of an object that may be absent."""
    found = cursor.find(key)
    return [] if found is None else list(found.members())


def _array(cursor: Cursor, key: str) -> list[Cursor]:
    """The items of an array that may be absent."""
    found = cursor.find(key)
    return [] if found is None else found.items()


def _edges(root: Cursor) -> dict[str, dict[str, Cursor]]:
    """Successors by the `edges` of older files: for each node, the probabilities of those that it leads to."""
    found: dict[str, dict[str, Cursor]] = {}
    for edge in _array(root, "edges"):
        found.setdefault(edge.member("from").name(), {})[edge.member("to").name()] = edge.member("probability")
    return found


def _initial(cursor: Cursor) -> Quantity:
    return quantity(cursor.member("initial_value") if cursor.is_object() else cursor)


def _successors(cursor: Cursor, edges: Optional[dict[str, Cursor]]) -> dict[str, Quantity]:
    found = dict(_object(cursor, "successors")) or edges or {}
    return {name: _probability(at) for name, at in found.items()}


def _probability(cursor: Cursor) -> Quantity:
    found = quantity(cursor)
    if found.value < 0:
        raise cursor.refuse("Probability", f"{found.text} is below 0")
    return found


def _node(cursor: Cursor, edges: Optional[dict[str, Cursor]], subproblems: dict[str, Subproblem]) -> Node:
    at = cursor.member("subproblem")
    if at.name() not in subproblems:
        raise at.refuse("UnknownName", f'no subproblem is named "{at.name()}"')
    subproblem = subproblems[at.name()]
    realizations = tuple(_realization(item, subproblem) for item in _array(cursor, "realizations"))
    if subproblem.randoms and not realizations:
        raise cursor.refuse("Shape", "its subproblem has random variables, and it has no realizations")
    alternatives = tuple(_alternative(item, len(realizations)) for item in _array(cursor, "alternatives"))
    return Node(at.name(), realizations, _successors(cursor, edges), cursor, alternatives)


def _alternative(cursor: Cursor, count: int) -> tuple[Quantity, ...]:
    """Other probabilities of a node's realizations, which the program's `robust` reads. StochOptFormat has none."""
    items = cursor.items()
    if len(items) != count:
        raise cursor.refuse("Shape", f"{len(items)} probabilities for {count} realizations")
    return tuple(map(_probability, items))


def _realization(cursor: Cursor, subproblem: Subproblem) -> Realization:
    return Realization(_probability(cursor.member("probability")), _support(cursor, subproblem))


def _support(cursor: Cursor, subproblem: Subproblem) -> dict[str, Quantity]:
    support = cursor.find("support")
    if not subproblem.randoms:
        return {}
    if support is None:
        raise cursor.refuse("Shape", "the key `support` is missing")
    return {name: quantity(support.member(name)) for name in subproblem.randoms}


def _subproblem(cursor: Cursor) -> Subproblem:
    program = cursor.member("subproblem")
    variables = _names([item.member("name") for item in program.member("variables").items()])
    pairs = _object(cursor, "state_variables")
    incoming = {state: _variable(at.member("in"), variables) for state, at in pairs}
    outgoing = {state: _variable(at.member("out"), variables) for state, at in pairs}
    randoms = tuple(_variable(item, variables) for item in _array(cursor, "random_variables"))
    _used_once([*incoming.values(), *outgoing.values(), *randoms], cursor)
    sense, objective = _objective(program.member("objective"), variables)
    constraints = tuple(_constraint(item, variables) for item in program.member("constraints").items())
    return Subproblem(incoming, outgoing, randoms, variables, sense, objective, constraints, cursor)


def _names(cursors: list[Cursor]) -> tuple[str, ...]:
    found: dict[str, Cursor] = {}
    for at in cursors:
        if at.name() in found:
            raise at.refuse("Duplicate", f'"{at.name()}" stands at {found[at.name()].place()} already')
        found[at.name()] = at
    return tuple(found)


def _used_once(names: list[str], cursor: Cursor) -> None:
    twice = next((name for at, name in enumerate(names) if name in names[:at]), None)
    if twice is not None:
        raise cursor.refuse("Duplicate", f'"{twice}" is used twice among states and random variables')


def _variable(cursor: Cursor, variables: tuple[str, ...]) -> str:
    if cursor.name() not in variables:
        raise cursor.refuse("UnknownName", f'no variable is named "{cursor.name()}"')
    return cursor.name()


def _objective(cursor: Cursor, variables: tuple[str, ...]) -> tuple[str, Function]:
    sense = cursor.member("sense")
    if sense.text() not in ("min", "max", "feasibility"):
        raise sense.refuse("Unsupported", f'sense "{sense.text()}"')
    if sense.text() == "feasibility":
        return "feasibility", Function((), None, False)
    return sense.text(), _function(cursor.member("function"), variables)


def _function(cursor: Cursor, variables: tuple[str, ...]) -> Function:
    kind = cursor.member("type", "head")
    if kind.text() in VARIABLE_TYPES:
        name = _variable(cursor.member("name", "variable"), variables)
        return Function((Term(whole_quantity(1, cursor), name),), None, True)
    if kind.text() != "ScalarAffineFunction":
        raise kind.refuse("Unsupported", f"a function of type {kind.text()}; the profile has linear ones alone")
    constant = cursor.find("constant")
    terms = tuple(
        Term(quantity(item.member("coefficient")), _variable(item.member("variable", "variable_name"), variables))
        for item in cursor.member("terms").items()
    )
    return Function(terms, None if constant is None else quantity(constant), False)


def _constraint(cursor: Cursor, variables: tuple[str, ...]) -> Constraint:
    chosen = cursor.member("set")
    kind = chosen.member("type", "head")
    if kind.text() not in SETS:
        name = cursor.find("name")
        called = f' (constraint "{name.text()}")' if name is not None and name.is_text() else ""
        raise kind.refuse("Unsupported", f"a set of type {kind.text()}{called}; the profile has {', '.join(SETS)}")
    lower, upper = _sides(chosen, kind.text())
    name = cursor.find("name")
    return Constraint(
        _function(cursor.member("function"), variables), kind.text(), lower, upper,
        name.text() if name is not None and name.is_text() else None, cursor.place(),
    )


def _sides(cursor: Cursor, kind: str) -> tuple[Optional[Quantity], Optional[Quantity]]:
    """The sides. In an interval null stands for a side that is absent, as tools write infinities."""
    if kind == "EqualTo":
        side = quantity(cursor.member("value"))
        return side, side
    lower = _side(cursor, "lower", kind) if kind in ("GreaterThan", "Interval") else None
    upper = _side(cursor, "upper", kind) if kind in ("LessThan", "Interval") else None
    if kind == "Interval" and lower is None and upper is None:
        raise cursor.refuse("Shape", "both sides are null")
    if lower is not None and upper is not None and lower.value > upper.value:
        raise cursor.refuse("EmptyBox", f"{lower.text} is above {upper.text}")
    return lower, upper


def _side(cursor: Cursor, key: str, kind: str) -> Optional[Quantity]:
    found = cursor.member(key)
    return None if kind == "Interval" and found.is_null() else quantity(found)


def _scenarios(
    root: Cursor, nodes: dict[str, Node], subproblems: dict[str, Subproblem], notes: list[str]
) -> tuple[tuple[Step, ...], ...]:
    found = []
    for item in _array(root, "validation_scenarios"):
        if item.is_object() and item.find("probability") is not None:
            notes.append(f"{item.place()}: the probability of a stored scenario is left out: the profile has none")
        steps = item.member("scenario").items() if item.is_object() else item.items()
        found.append(tuple(_step(step, nodes, subproblems) for step in steps))
    return tuple(found)


def _step(cursor: Cursor, nodes: dict[str, Node], subproblems: dict[str, Subproblem]) -> Step:
    at = cursor.member("node")
    if at.name() not in nodes:
        raise at.refuse("UnknownName", f'no node is named "{at.name()}"')
    return Step(at.name(), _support(cursor, subproblems[nodes[at.name()].subproblem]))


def _known_successors(model: Model) -> None:
    """Refuses a successor that is no node, and a node that can reach itself."""
    lists = [(model.root, model.root_successors), *((it.cursor, it.successors) for it in model.nodes.values())]
    for cursor, successors in lists:
        unknown = next((name for name in successors if name not in model.nodes), None)
        if unknown is not None:
            raise cursor.refuse("UnknownName", f'its successor "{unknown}" is no node')
    cycle = find_cycle({name: list(node.successors) for name, node in model.nodes.items()})
    if cycle is not None:
        raise model.nodes[cycle[0]].cursor.refuse("Cycle", "the profile has no cycles: " + " -> ".join(cycle))


def find_cycle(links: dict[str, list[str]]) -> Optional[list[str]]:
    """Nodes that lead to each other in a ring, the first of them again at the end; none where there is no cycle."""
    done: set[str] = set()
    for start in links:
        if start in done:
            continue
        path, waiting = [start], [iter(links[start])]
        while path:
            follower = next(waiting[-1], None)
            if follower is None:
                done.add(path.pop())
                waiting.pop()
            elif follower in path:
                return [*path[path.index(follower):], follower]
            elif follower not in done:
                path.append(follower)
                waiting.append(iter(links[follower]))
    return None


def _same_states(model: Model) -> None:
    for name, subproblem in model.subproblems.items():
        if set(subproblem.incoming) != set(model.states):
            raise subproblem.cursor.refuse("States", f'the states of subproblem "{name}" are not those of the root')
