"""Numbers and units as they are written on the page."""
from __future__ import annotations

import math
from dataclasses import dataclass
from typing import Iterable, List, Optional

from .folder import Units

FIGURES = 4
MOST_DECIMALS = 6
NOTHING = "–"
ROOM_OF_MONEY, ROOM_OF_ENERGY = 10, 100
MULTIPLES = ((1e12, "trillion"), (1e9, "billion"), (1e6, "million"), (1e3, "thousand"), (1.0, ""))
ENERGY_MULTIPLES = {"MWh": ((1e6, "TWh"), (1e3, "GWh"), (1.0, "MWh"))}


@dataclass(frozen=True)
class Unit:
    """A unit in which numbers are shown: a number of the file, divided by `divisor`, is one of `name`."""

    divisor: float
    name: str

    def of(self, value: float) -> float:
        """The number in this unit."""
        return value / self.divisor


def decimals_for(values: Iterable[Optional[float]], figures: int = FIGURES) -> int:
    """How many decimals show the greatest of the values with so many figures."""
    greatest = max((abs(it) for it in values if it is not None and math.isfinite(it)), default=0.0)
    if greatest == 0:
        return 0
    return min(MOST_DECIMALS, max(0, figures - 1 - math.floor(math.log10(greatest))))


def number(value: Optional[float], decimals: int) -> str:
    """A number with commas between thousands and so many decimals; a dash where there is none."""
    if value is None or not math.isfinite(value):
        return NOTHING
    text = f"{value:,.{decimals}f}"
    return text[1:] if text.startswith("-") and not text.strip("-0.,") else text


def numbers(values: Iterable[Optional[float]], figures: int = FIGURES) -> List[str]:
    """The numbers of a column, all with the same decimals."""
    kept = list(values)
    decimals = decimals_for(kept, figures)
    return [number(it, decimals) for it in kept]


def rounded_down(value: float, decimals: int) -> str:
    """The greatest number of so many decimals that is at most the value: what is said of a lower bound stays true."""
    size = 10.0**decimals
    return number(math.floor(value * size) / size, decimals)


def rounded_up(value: float, decimals: int) -> str:
    """The least number of so many decimals that is at least the value."""
    size = 10.0**decimals
    return number(math.ceil(value * size) / size, decimals)


def share(value: Optional[float]) -> str:
    """A share as per cent; what is above 0 and below 0.1 per cent, and what is nearly all, is not rounded to 0 and 100."""
    if value is None or not math.isfinite(value):
        return NOTHING
    if 0 < value < 0.001:
        return "<0.1 %"
    decimals = 1 if abs(value) < 0.1 and value != 0 else 0
    if 0.995 <= value < 1:
        return ">99 %"
    return f"{100 * value:.{decimals}f} %"


def money_unit(units: Units, values: Iterable[Optional[float]]) -> Unit:
    """A unit of money in which the greatest of the values has two to four figures before the point, where there is one."""
    greatest = units.money_scale * max((abs(it) for it in values if it is not None and math.isfinite(it)), default=0.0)
    size, word = next(((size, word) for size, word in MULTIPLES if greatest >= ROOM_OF_MONEY * size), MULTIPLES[-1])
    return Unit(size / units.money_scale, f"{word} {units.money}".strip())


def energy_unit(units: Units, values: Iterable[Optional[float]]) -> Unit:
    """A unit of energy for the values: of MWh also GWh and TWh, from a hundred of them on."""
    greatest = max((abs(it) for it in values if it is not None and math.isfinite(it)), default=0.0)
    multiples = ENERGY_MULTIPLES.get(units.energy, ((1.0, units.energy),))
    return Unit(*next(((size, word) for size, word in multiples if greatest >= ROOM_OF_ENERGY * size), multiples[-1]))


def price_unit(units: Units, per: str) -> Unit:
    """A unit of money for one of something, as EUR/MWh."""
    return Unit(1.0 / units.money_scale, f"{units.money}/{per}")
