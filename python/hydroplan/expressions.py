"""Linear expressions of a stage's variables, and constraints that are made of them by operators."""
from __future__ import annotations

from dataclasses import dataclass
from fractions import Fraction
from typing import TYPE_CHECKING, Dict, Iterable, NoReturn, Optional, Union

from .code_places import CodePlace, users_line
from .errors import ModelError, NotLinear
from .exact import Number, exact, is_number

if TYPE_CHECKING:
    from .stages import Stage


class Operand:
    """What stands in an expression: a variable or a sum. Operators give expressions and constraints, all exact."""

    __array_ufunc__ = None  # numpy's numbers leave the operators to this class

    def linear(self) -> Expression:
        """The operand as a sum of terms and a constant."""
        raise NotImplementedError

    def __add__(self, other: Linear) -> Expression:
        return self.linear().plus(as_linear(other), 1)

    __radd__ = __add__

    def __sub__(self, other: Linear) -> Expression:
        return self.linear().plus(as_linear(other), -1)

    def __rsub__(self, other: Linear) -> Expression:
        return as_linear(other).plus(self.linear(), -1)

    def __neg__(self) -> Expression:
        return self.linear().times(Fraction(-1))

    def __pos__(self) -> Expression:
        return self.linear()

    def __mul__(self, other: Linear) -> Expression:
        return _product(self.linear(), as_linear(other))

    __rmul__ = __mul__

    def __truediv__(self, other: Linear) -> Expression:
        divisor = as_linear(other)
        if divisor.terms:
            _not_linear("the quotient", self.linear(), divisor)
        if divisor.constant == 0:
            raise ModelError(f"{_called(self.linear())} is divided by 0 ({users_line()})")
        return self.linear().times(1 / divisor.constant)

    def __rtruediv__(self, other: Linear) -> NoReturn:
        raise NotLinear(f"a number divided by {_called(self.linear())} is not linear ({users_line()})")

    def __pow__(self, other: Linear) -> NoReturn:
        raise NotLinear(f"a power of {_called(self.linear())} is not linear ({users_line()})")

    def __eq__(self, other: Linear) -> Relation:  # type: ignore[override]
        return _relation(self, other, "EqualTo")

    def __le__(self, other: Linear) -> Relation:
        return _relation(self, other, "LessThan")

    def __ge__(self, other: Linear) -> Relation:
        return _relation(self, other, "GreaterThan")

    def __lt__(self, other: Linear) -> NoReturn:
        raise ModelError(f"a strict inequality is no constraint: use <= or >= ({users_line()})")

    __gt__ = __lt__

    def __ne__(self, other: object) -> NoReturn:
        raise ModelError(f"!= is no constraint ({users_line()})")

    def __hash__(self) -> int:
        return id(self)

    def __bool__(self) -> NoReturn:
        raise ModelError(f"an expression is neither true nor false ({users_line()})")


class Variable(Operand):
    """A variable of a stage. `kind` is `decision`, `incoming`, `outgoing` or `random`; bounds are in the user's units."""

    def __init__(
        self, name: str, kind: str, stage: Stage, place: CodePlace, lower: Optional[Fraction] = None, upper: Optional[Fraction] = None,
    ) -> None:
        self.name = name
        self.kind = kind
        self.stage = stage
        self.place = place
        self.lower = lower
        self.upper = upper

    def linear(self) -> Expression:
        """The variable as an expression."""
        return Expression({self: Fraction(1)}, Fraction(0))

    def __repr__(self) -> str:
        return f'"{self.name}" ({self.place})'


class Expression(Operand):
    """A sum of coefficients times variables, and a constant."""

    def __init__(self, terms: Dict[Variable, Fraction], constant: Fraction) -> None:
        self.terms = terms
        self.constant = constant

    def linear(self) -> Expression:
        """The expression itself."""
        return self

    def plus(self, other: Expression, sign: int) -> Expression:
        """The sum with another expression, or the difference where the sign is -1."""
        terms = dict(self.terms)
        for variable, coefficient in other.terms.items():
            terms[variable] = terms.get(variable, Fraction(0)) + sign * coefficient
        return Expression(terms, self.constant + sign * other.constant)

    def times(self, factor: Fraction) -> Expression:
        """The expression with each number multiplied."""
        return Expression({it: factor * coefficient for it, coefficient in self.terms.items()}, factor * self.constant)

    def __repr__(self) -> str:
        pieces = [f"{coefficient} {variable.name}" for variable, coefficient in self.terms.items()]
        return " + ".join([*pieces, str(self.constant)] if self.constant or not pieces else pieces)


Linear = Union[Operand, Number]


@dataclass(frozen=True, eq=False)
class Relation:
    """A constraint: terms without a constant, between two sides of which one may be absent; `set_type` as in StochOptFormat."""

    terms: Expression
    set_type: str
    lower: Optional[Fraction]
    upper: Optional[Fraction]

    def __bool__(self) -> NoReturn:
        raise ModelError(
            f"a constraint is neither true nor false: for two sides, as in 10 <= x <= 20, write between(10, x, 20) ({users_line()})"
        )


def as_linear(value: object) -> Expression:
    """An expression of an operand or a number; ModelError for anything else."""
    if isinstance(value, Operand):
        return value.linear()
    if not is_number(value):
        raise ModelError(f"{value!r} is neither a number nor an expression ({users_line()})")
    return Expression({}, exact(value))


def total(terms: Iterable[Linear]) -> Expression:
    """The sum of variables, expressions and numbers: the same as `sum`, but quick for many, and an expression also of none."""
    found: Dict[Variable, Fraction] = {}
    constant = Fraction(0)
    for term in map(as_linear, terms):
        constant += term.constant
        for variable, coefficient in term.terms.items():
            found[variable] = found.get(variable, Fraction(0)) + coefficient
    return Expression(found, constant)


def dot(numbers: Iterable[Number], terms: Iterable[Linear]) -> Expression:
    """The sum of numbers times variables or expressions, in their order: of both there are as many."""
    place, found, coefficients = users_line(), list(map(as_linear, terms)), list(numbers)
    if len(coefficients) != len(found):
        raise ModelError(f"dot has {len(coefficients)} numbers for {len(found)} terms ({place})")
    return total(exact(number, f"a number of dot ({place})") * term for number, term in zip(coefficients, found))


def between(lower: Number, expression: Linear, upper: Number) -> Relation:
    """The constraint that an expression is at least `lower` and at most `upper`."""
    place, terms = users_line(), as_linear(expression)
    low, high = exact(lower, f"the lower side ({place})"), exact(upper, f"the upper side ({place})")
    if low > high:
        raise ModelError(f"the lower side {low} is above the upper side {high} ({place})")
    return Relation(Expression(terms.terms, Fraction(0)), "Interval", low - terms.constant, high - terms.constant)


def _relation(left: Linear, right: Linear, set_type: str) -> Relation:
    difference = as_linear(left).plus(as_linear(right), -1)
    side = -difference.constant
    terms = Expression(difference.terms, Fraction(0))
    return Relation(terms, set_type, None if set_type == "LessThan" else side, None if set_type == "GreaterThan" else side)


def _product(left: Expression, right: Expression) -> Expression:
    if left.terms and right.terms:
        _not_linear("the product", left, right)
    return left.times(right.constant) if left.terms else right.times(left.constant)


def _not_linear(what: str, left: Expression, right: Expression) -> NoReturn:
    hint = ""
    if any(it.kind == "random" for it in (*left.terms, *right.terms)):
        hint = "; random values stand by themselves, and a random factor is stated by nodes with stages of their own"
    raise NotLinear(f"{what} of {_called(left)} and {_called(right)} is not linear ({users_line()}){hint}")


def _called(expression: Expression) -> str:
    return next((repr(variable) for variable in expression.terms), str(expression.constant))
