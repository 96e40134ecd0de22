"""A stage: variables with bounds, states, random variables, constraints and an objective."""
from __future__ import annotations

from dataclasses import dataclass
from fractions import Fraction
from typing import Dict, Iterable, List, Optional, Union

from .code_places import CodePlace, users_line
from .errors import ModelError
from .exact import Number, exact
from .expressions import Expression, Linear, Operand, Relation, Variable, as_linear


class State(Operand):
    """What is carried from stage to stage: a variable as it comes in, and one as it goes out."""

    def __init__(self, name: str, incoming: Variable, outgoing: Variable) -> None:
        self.name = name
        self.incoming = incoming
        self.outgoing = outgoing

    def linear(self) -> Expression:
        """No expression: a state has two variables."""
        raise ModelError(f'the state "{self.name}" has two variables: use its .incoming or its .outgoing ({users_line()})')


@dataclass(frozen=True)
class Constraint:
    """A constraint of a stage with its name and its line."""

    relation: Relation
    name: Optional[str]
    place: CodePlace

    def called(self) -> str:
        """The constraint in words."""
        return "a constraint" if self.name is None else f'constraint "{self.name}"'


class Stage:
    """The program of one or more nodes. Make it by `Model.stage`, or in the builder of `Model.build`."""

    def __init__(self, name: str) -> None:
        self.name = name
        self.place = users_line()
        self.states: Dict[str, State] = {}
        self.all_variables: Dict[str, Variable] = {}
        self.constraints: List[Constraint] = []
        self.sense = "feasibility"
        self.objective = Expression({}, Fraction(0))
        self.objective_place = self.place

    def variable(self, name: str, lower: Optional[Number] = None, upper: Optional[Number] = None) -> Variable:
        """A decision between two bounds, in the user's units. Compiling asks for both bounds."""
        return self._made(name, "decision", lower, upper)

    def state(self, name: str, lower: Optional[Number] = None, upper: Optional[Number] = None) -> State:
        """A state. The bounds are those of its outgoing variable, a decision; what comes in is bounded by where it comes from.

        Its variables are called by its name with `_in` and `_out` behind it.
        """
        if name in self.states:
            raise ModelError(f'the state "{name}" of stage "{self.name}" is there already ({users_line()})')
        incoming = self._made(f"{name}_in", "incoming", None, None)
        self.states[name] = State(name, incoming, self._made(f"{name}_out", "outgoing", lower, upper))
        return self.states[name]

    def random(self, name: str) -> Variable:
        """A random variable: a number that each realization of a node gives, before the decisions are made."""
        return self._made(name, "random", None, None)

    def add(self, relation: Relation, name: Optional[str] = None) -> Constraint:
        """Adds a constraint, as in `stage.add(hydro + thermal == demand, name="energy")`."""
        found = Constraint(relation, name, users_line())
        if not isinstance(relation, Relation):
            raise ModelError(f"{found.called()} is {relation!r}, and no comparison of expressions ({found.place})")
        self._own(relation.terms, found.called(), found.place)
        if not any(relation.terms.terms.values()):
            raise ModelError(f"{found.called()} has no variables: they cancel out ({found.place})")
        earlier = next((it for it in self.constraints if name is not None and it.name == name), None)
        if earlier is not None:
            raise ModelError(f"{found.called()} ({found.place}) has the name of one that is there already ({earlier.place})")
        self.constraints.append(found)
        return found

    def add_all(self, relations: Iterable[Relation]) -> List[Constraint]:
        """Adds each of several constraints, as in `stage.add_all(total(it) <= 1 for it in used)`."""
        return [self.add(it) for it in relations]

    def minimize(self, cost: Linear) -> None:
        """Sets the stage's cost."""
        self._objective("min", cost)

    def maximize(self, revenue: Linear) -> None:
        """Sets the stage's revenue. All stages of a model minimize, or all maximize."""
        self._objective("max", revenue)

    def randoms(self) -> List[Variable]:
        """The random variables, in the order in which they were made."""
        return [it for it in self.all_variables.values() if it.kind == "random"]

    def _objective(self, sense: str, function: Linear) -> None:
        self.objective_place = users_line()
        self.sense, self.objective = sense, as_linear(function)
        self._own(self.objective, "the objective", self.objective_place)

    def _made(self, name: str, kind: str, lower: Optional[Number], upper: Optional[Number]) -> Variable:
        place = users_line()
        earlier = self.all_variables.get(name)
        if earlier is not None:
            raise ModelError(f'the variable "{name}" of stage "{self.name}" ({place}) is there already: {earlier!r}')
        low, high = (_side(it, side, name, place) for it, side in ((lower, "lower"), (upper, "upper")))
        if low is not None and high is not None and low > high:
            raise ModelError(f'the lower bound {low} of "{name}" is above its upper bound {high} ({place})')
        self.all_variables[name] = Variable(name, kind, self, place, low, high)
        return self.all_variables[name]

    def _own(self, expression: Expression, what: str, place: CodePlace) -> None:
        """Refuses variables of other stages."""
        for variable in expression.terms:
            if variable.stage is not self:
                raise ModelError(
                    f'{what} of stage "{self.name}" ({place}) has the variable {variable!r} of stage "{variable.stage.name}"'
                )


def _side(bound: Optional[Number], side: str, name: str, place: CodePlace) -> Union[Fraction, None]:
    return None if bound is None else exact(bound, f'the {side} bound of "{name}" ({place})')
