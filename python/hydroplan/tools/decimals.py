"""Exact numbers as texts, decimals that are rounded in a stated direction, and probabilities as whole-number weights. No floats.

Outside the proved core. Weights have the exact shares where their total allows it, else the nearest that it allows.
"""
from __future__ import annotations

import math
from enum import Enum
from fractions import Fraction
from typing import Sequence

from .profile import MOST_WEIGHT
from .stochopt import Quantity, refuse_at


class Direction(Enum):
    """Where a number that does not end within the digits goes."""

    NEAREST = "nearest"
    DOWN = "down"
    UP = "up"


def whole(value: Fraction, direction: Direction) -> int:
    """The whole number next to a value; a tie to nearest goes to the even one."""
    if direction is Direction.DOWN:
        return value.numerator // value.denominator
    if direction is Direction.UP:
        return -(-value.numerator // value.denominator)
    return round(value)


def decimal_text(value: Fraction, digits: int, direction: Direction = Direction.NEAREST) -> str:
    """The value with at most so many digits behind the point, without zeros at the end."""
    units = whole(value * 10**digits, direction)
    sign = "-" if units < 0 else ""
    front, behind = divmod(abs(units), 10**digits)
    tail = f"{behind:0{digits}d}".rstrip("0") if digits else ""
    return f"{sign}{front}.{tail}" if tail else f"{sign}{front}"


def exact_text(value: Fraction) -> str:
    """The value as a whole number or as numerator/denominator, in lowest terms."""
    return str(value)


def simplest_between(low: Fraction, high: Fraction) -> Fraction:
    """The fraction of least denominator with low <= it <= high, for 0 <= low <= high (Stern-Brocot)."""
    floor = whole(low, Direction.UP)
    if floor <= high:
        return Fraction(floor)
    below = whole(low, Direction.DOWN)
    rest = simplest_between(1 / (high - below), 1 / (low - below))
    return below + 1 / rest


def last_digit(text: str) -> Fraction:
    """What one unit of the last digit of a number stands for: 1/1000 in 0.125, 10 in 3e1."""
    mantissa, _, exponent = text.lower().partition("e")
    _, _, behind = mantissa.partition(".")
    return Fraction(10) ** (int(exponent or "0") - len(behind))


SUM_TOLERANCE = Fraction(1, 10**6)
NOISE = Fraction(1, 10**9)


def full_weights(given: Sequence[Quantity], place: str, may_differ: bool) -> tuple[int, ...]:
    """Weights of probabilities that have to sum to 1; `may_differ`: they are taken as shares of their sum."""
    total = sum((it.value for it in given), Fraction(0))
    if total <= 0:
        raise refuse_at(place, "Probability", "no probability is above 0")
    if abs(total - 1) > SUM_TOLERANCE and not may_differ:
        raise refuse_at(place, "Probability", f"the probabilities sum to {total}, not to 1")
    return _shares([it.value / total for it in given], _simplest(given) if abs(total - 1) <= SUM_TOLERANCE else [])


def stopping_weights(given: Sequence[Quantity], place: str) -> tuple[int, ...]:
    """Weights of successors and, last, of the end of the horizon, which has what the probabilities leave of 1.

    A last weight of 0 says that the horizon does not end there.
    """
    total = sum((it.value for it in given), Fraction(0))
    if total > 1 + SUM_TOLERANCE:
        raise refuse_at(place, "Probability", f"the probabilities of its successors sum to {total}")
    if total >= 1 - NOISE:
        return (*full_weights(given, place, False), 0)
    simple = _simplest(given)
    return _shares([*(it.value for it in given), 1 - total], [*simple, 1 - sum(simple, Fraction(0))])


def finer(weights: Sequence[int], least: int) -> tuple[int, ...]:
    """The same shares in weights whose total is at least `least`, as far as the total allows it.

    The multipliers of a cut are whole at a scale with the total of a node's successor weights as a factor, so a greater
    total rounds them finer.
    """
    total = sum(weights)
    factor = max(1, min(-(-least // total), MOST_WEIGHT // total))
    return tuple(factor * weight for weight in weights)


def _simplest(given: Sequence[Quantity]) -> list[Fraction]:
    """For each number the simplest fraction that it may be the decimal of: 1/3 for 0.3333."""
    found = []
    for it in given:
        half = last_digit(it.text) / 2
        found.append(simplest_between(max(Fraction(0), it.value - half), it.value + half))
    return found


def _shares(meant: list[Fraction], simple: list[Fraction]) -> tuple[int, ...]:
    """The weights of the shares that are meant; of the simple ones where these sum to 1 and the others do not fit."""
    for shares in (meant, simple):
        if shares and sum(shares) == 1 and min(shares) > 0 and sum(_in_lowest_terms(shares)) <= MOST_WEIGHT:
            return _in_lowest_terms(shares)
    return _apportioned(meant)


def _in_lowest_terms(shares: Sequence[Fraction]) -> tuple[int, ...]:
    unit = math.lcm(*(share.denominator for share in shares))
    whole = [share.numerator * (unit // share.denominator) for share in shares]
    return tuple(number // math.gcd(*whole) for number in whole)


def _apportioned(shares: Sequence[Fraction]) -> tuple[int, ...]:
    """Weights of the greatest total, by largest remainders (Hamilton), each at least 1."""
    weights = [max(1, math.floor(share * MOST_WEIGHT)) for share in shares]
    by_remainder = sorted(range(len(shares)), key=lambda at: weights[at] - shares[at] * MOST_WEIGHT)
    missing = MOST_WEIGHT - sum(weights)
    for at in by_remainder[: max(0, missing)]:
        weights[at] += 1
    if missing < 0:
        weights[weights.index(max(weights))] += missing
    return tuple(weights)
