"""Numbers as a user gives them, exactly: whole numbers, decimals, fractions, texts, and floats by their shortest text."""
from __future__ import annotations

import math
import operator
import re
from decimal import Decimal
from fractions import Fraction
from typing import SupportsIndex, Union

from .errors import ModelError
from .tools.decimals import decimal_text
from .tools.profile import MOST_WEIGHT

Number = Union[int, float, str, Decimal, Fraction, SupportsIndex]

TEXT = re.compile(r"[+-]?(?:\d+(?:\.\d*)?|\.\d+)(?:[eE][+-]?\d{1,3})?\Z")
QUOTIENT = re.compile(r"[+-]?\d+/\d+\Z")
MOST_DIGITS = 300
MOST_CHARACTERS = 1000
TOO_LONG = 10**MOST_DIGITS
DIGITS = 60


def exact(number: object, what: str = "a number") -> Fraction:
    """The value of a number, exactly; `what` it is says the message of ModelError where it is none.

    A float stands for its shortest text, so 0.1 is one tenth. A text is a decimal or a quotient, as in "0.1" and "1/3".
    """
    found = _exact(number)
    if found is None:
        raise ModelError(f"{what} has to be a number, and is {_begun(repr(number))}")
    if _is_long(found):
        raise ModelError(f"{what} has more than {MOST_DIGITS} digits")
    return found


def _begun(text: str) -> str:
    """A text, or the beginning of a long one."""
    return text if len(text) <= MOST_CHARACTERS else f"{text[:MOST_DIGITS]}.. of {len(text):,} characters"


def exact_weight(number: object, what: str) -> Fraction:
    """The value of a weight or a probability, exactly; ModelError where it is below 0 or no number.

    A float stands for the fraction with a denominator of at most 65,535 that rounds to it, where there is one, so 1/6 for
    0.16666666666666666, and else for its shortest text.
    """
    found = exact(number, what)
    if found < 0:
        raise ModelError(f"{what} is below 0: {number}")
    if isinstance(number, float):
        simple = Fraction(number).limit_denominator(MOST_WEIGHT)
        return simple if float(simple) == number else found
    return found


def is_number(value: object) -> bool:
    """Whether a value can stand for a number: a text that is none cannot, nor one of more than 300 digits."""
    found = _exact(value)
    return found is not None and not _is_long(found)


def _is_long(value: Fraction) -> bool:
    return max(abs(value.numerator), value.denominator) >= TOO_LONG


def _exact(number: object) -> Union[Fraction, None]:
    if isinstance(number, bool):
        return None
    if isinstance(number, (int, Fraction)):
        return Fraction(number)
    if isinstance(number, Decimal):
        return _of_text(str(number))
    if isinstance(number, float):
        return _of_text(float.__repr__(number))
    if isinstance(number, str):
        return _of_text(number.strip())
    if hasattr(number, "dtype") and hasattr(number, "item"):
        return _of_text(str(number))
    if hasattr(number, "__index__"):
        return Fraction(operator.index(number))
    return None


def _of_text(text: str) -> Union[Fraction, None]:
    if len(text) > MOST_CHARACTERS:
        return None
    if QUOTIENT.match(text):
        return Fraction(text) if int(text.partition("/")[2]) else None
    return Fraction(text) if TEXT.match(text) else None


def text_of(value: Fraction) -> str:
    """A value as a decimal: exactly where it has an end, else with 60 digits."""
    if value.denominator == 1:
        return str(value.numerator)
    rest, twos, fives = value.denominator, 0, 0
    while rest % 2 == 0:
        rest, twos = rest // 2, twos + 1
    while rest % 5 == 0:
        rest, fives = rest // 5, fives + 1
    if rest == 1:
        return decimal_text(value, max(twos, fives))
    return decimal_text(value, DIGITS + max(0, len(str(value.denominator)) - len(str(abs(value.numerator)))))


def at_most(value: Fraction) -> float:
    """The greatest float that is not above a value, so that a bound from below stays one."""
    return _directed(value, -1)


def at_least(value: Fraction) -> float:
    """The least float that is not below a value, so that a bound from above stays one."""
    return _directed(value, 1)


def _directed(value: Fraction, sign: int) -> float:
    found = float(value)
    while sign * Fraction(found) < sign * value:
        found = math.nextafter(found, sign * math.inf)
    return found
