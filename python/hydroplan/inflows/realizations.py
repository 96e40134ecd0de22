"""What is made of a record: realizations for each stage, a lattice of classes, or an autoregression; and how these are written.

Numbers are rounded to whole units of a resolution, so that a weighted total stays as near as it can. For equal weights this is the method
of the largest remainder (Hamilton 1792). With other weights it is a controlled rounding in one dimension (Cox 1987), found by dynamic
programming over the total.
"""
from __future__ import annotations

import csv
import json
from dataclasses import dataclass
from decimal import Decimal
from fractions import Fraction
from itertools import product
from math import ceil, floor
from typing import Any, Dict, Iterator, List, Mapping, Sequence, TextIO, Tuple, Union

from ..exact import Number, exact, text_of
from .records import InflowError, Record

Choice = Tuple[Fraction, Tuple[int, ...]]


def rounded(values: Sequence[Fraction], weights: Sequence[int]) -> List[int]:
    """Each value rounded down or up, with the weighted total as near to that of the values as rounding can bring it.

    Among several ways, the least weighted sum of squared changes counts, then the earlier values. The total is off by at most half
    of the greatest weight; so with weights of 1 the mean of n values is off by at most 1/(2n). Weights are above 0.
    """
    if len(set(weights)) <= 1:
        return _of_equal_weights(values)
    parts = [value - floor(value) for value in values]
    wanted = sum((weight * part for weight, part in zip(weights, parts)), Fraction(0))
    choices: Dict[int, Choice] = {0: (Fraction(0), ())}
    for part, weight in zip(parts, weights):
        choices = _with_one_more(choices, part, weight)
    total = min(choices, key=lambda it: (abs(it - wanted), choices[it][0], it))
    return [floor(value) + up for value, up in zip(values, choices[total][1])]


def _of_equal_weights(values: Sequence[Fraction]) -> List[int]:
    """The greatest remainders are rounded up, so many that the total is the nearest whole number."""
    found = [floor(value) for value in values]
    ups = ceil(sum(values, Fraction(0)) - sum(found) - Fraction(1, 2))
    order = sorted(range(len(values)), key=lambda at: (found[at] - values[at], at))
    for at in order[:ups]:
        found[at] += 1
    return found


def _with_one_more(choices: Dict[int, Choice], part: Fraction, weight: int) -> Dict[int, Choice]:
    """The cheapest way to each total, with one more value that is rounded down or, where it is not whole, up."""
    found: Dict[int, Choice] = {}
    ways = [(0, part)] if part == 0 else [(0, part), (1, 1 - part)]
    for (total, (change, ups)), (up, by) in product(choices.items(), ways):
        entry, key = (change + weight * by * by, (*ups, up)), total + weight * up
        if key not in found or _rank(entry) < _rank(found[key]):
            found[key] = entry
    return found


def _rank(choice: Choice) -> Choice:
    """What decides between two ways to one total: the change, then whether earlier values go up."""
    return choice[0], tuple(-it for it in choice[1])


def decimal_of(units: int, resolution: Decimal) -> Decimal:
    """So many units of a resolution, as a decimal with its digits."""
    return Decimal(units) * resolution


Matrix = Tuple[Tuple[int, ...], ...]
MOST_UNITS = 1 << 40


@dataclass(frozen=True)
class Horizon:
    """So many stages from a step of the year on, from 1, and the least step of numbers that is kept, in the record's unit."""

    stages: int
    start: int = 1
    resolution: Number = "0.1"

    def steps(self, record: Record) -> List[int]:
        """The step of the year of each stage; InflowError where the horizon does not fit the record."""
        if self.stages < 1:
            raise InflowError(f"a horizon has at least one stage, and not {self.stages}")
        if not 1 <= self.start <= record.steps:
            raise InflowError(f"the start is one of the {record.kind}s 1 to {record.steps}, and not {self.start}")
        return [(self.start - 1 + at) % record.steps + 1 for at in range(self.stages)]

    def unit(self) -> Decimal:
        """The resolution as a decimal; InflowError where it is not above 0 or has no end as a decimal."""
        return decimal_step(self.resolution, "the resolution")


def decimal_step(step: Number, what: str) -> Decimal:
    """A least step of numbers as a decimal; InflowError where it is not above 0 or has no end as a decimal."""
    value = exact(step, what)
    found = Decimal(text_of(value)) if value > 0 else Decimal(0)
    if value <= 0 or Fraction(found) != value:
        raise InflowError(f"{what} is a decimal above 0, and not {step}")
    return found


@dataclass(frozen=True)
class Realization:
    """One outcome of a stage: its weight, a value for each station, and the record's years that it stands for."""

    weight: int
    values: Dict[str, Decimal]
    years: Tuple[int, ...]


@dataclass(frozen=True)
class StageRealizations:
    """The realizations of one stage, from 1, or of one of its classes, from 0; `step` is the stage's step of the year."""

    stage: int
    step: int
    realizations: Tuple[Realization, ...]
    number: int = 0

    @property
    def weight(self) -> int:
        """The sum of the weights."""
        return sum(it.weight for it in self.realizations)


@dataclass(frozen=True)
class About:
    """What was made of which record: the method with its source, unit, resolution, stations, kind of step, and notes."""

    method: str
    source: str
    unit: str
    resolution: Decimal
    stations: Tuple[str, ...]
    kind: str
    notes: Tuple[str, ...] = ()


@dataclass(frozen=True)
class Independent:
    """Realizations for each stage, drawn whatever came before. Values are inflows at the resolution."""

    about: About
    stages: Tuple[StageRealizations, ...]


@dataclass(frozen=True)
class Lattice:
    """Classes for each stage, each with its realizations, and the weights with which one leads to those of the next.

    `stages[t][i]` is class i of stage t + 1; `transitions[t][i][j]` is the weight with which it leads to class j of stage t + 2, 0
    where it does not; `initial[i]` is the weight of class i of the first stage.
    """

    about: About
    stages: Tuple[Tuple[StageRealizations, ...], ...]
    transitions: Tuple[Matrix, ...]
    initial: Tuple[int, ...]


@dataclass(frozen=True)
class ShockStage:
    """One stage of an autoregression: inflow is the coefficient times the inflow of the stage before, plus a shock.

    Values of `shocks` are shocks. `lower` and `upper` have between what bounds the inflow always is, at the resolution. `estimates`
    are the coefficients as the record gives them, `raised` says how many residuals would have led below 0, and `changed` which
    stations' coefficients were drawn towards 0 for that.
    """

    shocks: StageRealizations
    coefficients: Dict[str, Decimal]
    lower: Dict[str, Decimal]
    upper: Dict[str, Decimal]
    estimates: Dict[str, float]
    raised: Dict[str, int]
    changed: Tuple[str, ...] = ()


@dataclass(frozen=True)
class Autoregression:
    """A periodic autoregression of order 1: `previous` has the inflow of the step before the first stage."""

    about: About
    stages: Tuple[ShockStage, ...]
    previous: Dict[str, Decimal]


Inflows = Union[Independent, Lattice, Autoregression]


def realizations_of(
    record: Record, rows: Sequence[Sequence[Fraction]], weights: Sequence[int], years: Sequence[Sequence[int]], resolution: Decimal,
) -> Tuple[Realization, ...]:
    """Realizations of rows of values, rounded by `rounding.rounded` for each station."""
    columns = [in_units([row[at] for row in rows], weights, resolution) for at in range(len(record.stations))]
    found = []
    for at, (weight, own) in enumerate(zip(weights, years)):
        values = {name: decimal_of(column[at], resolution) for name, column in zip(record.stations, columns)}
        found.append(Realization(weight, values, tuple(own)))
    return tuple(found)


def in_units(values: Sequence[Fraction], weights: Sequence[int], resolution: Decimal) -> List[int]:
    """Values in whole units of a resolution; InflowError where one has more than 2^40 of them."""
    found = rounded([value / Fraction(resolution) for value in values], weights)
    most = max(abs(it) for it in found)
    if most > MOST_UNITS:
        raise InflowError(f"a value is {most} times the resolution {resolution}, which is more than 2^40: take a coarser one")
    return found


def write_csv(inflows: Inflows, file: TextIO) -> None:
    """Writes a row for each realization: stage, step, class, weight, a column for each station, and the record's years.

    In an autoregression the stations' columns are shocks, and coefficients by station follow. A lattice's transitions are in JSON
    alone.
    """
    names = list(inflows.about.stations)
    head = ["stage", inflows.about.kind, "class", "weight", *names]
    if isinstance(inflows, Autoregression):
        head += [f"coefficient {name}" for name in names]
    rows = csv.writer(file, lineterminator="\n")
    rows.writerow([*head, "years"])
    for it in inflows.stages:
        rows.writerows(_rows(it, names))


def _rows(it: Union[StageRealizations, ShockStage, Tuple[StageRealizations, ...]], names: List[str]) -> Iterator[List[object]]:
    coefficients = [it.coefficients[name] for name in names] if isinstance(it, ShockStage) else []
    layer = (it.shocks,) if isinstance(it, ShockStage) else (it,) if isinstance(it, StageRealizations) else it
    for own, found in ((own, found) for own in layer for found in own.realizations):
        values: List[object] = [found.values[name] for name in names]
        yield [own.stage, own.step, own.number, found.weight, *values, *coefficients, " ".join(map(str, found.years))]


def write_json(inflows: Inflows, file: TextIO) -> None:
    """Writes what there is as one object: method, source, unit, resolution, stations, notes, and a member `stages`.

    Each stage has its classes, one but in a lattice, with realizations; in a lattice each class has the weights of the next stage's
    classes. Numbers are decimals at the resolution.
    """
    about = inflows.about
    found: Dict[str, Any] = {
        "method": about.method, "source": about.source, "unit": about.unit, "resolution": _number(about.resolution),
        "kind": about.kind, "stations": list(about.stations), "notes": list(about.notes),
    }
    if isinstance(inflows, Lattice):
        found["initial"] = list(inflows.initial)
    if isinstance(inflows, Autoregression):
        found["previous"] = _numbers(inflows.previous)
    found["stages"] = list(_stages(inflows))
    json.dump(found, file, ensure_ascii=False, indent=1)
    file.write("\n")


def _stages(inflows: Inflows) -> Iterator[Dict[str, Any]]:
    if isinstance(inflows, Independent):
        for own in inflows.stages:
            yield {"stage": own.stage, "step": own.step, "classes": [_class(own)]}
    elif isinstance(inflows, Lattice):
        for at, layer in enumerate(inflows.stages):
            classes = [_class(it) for it in layer]
            for number, found in enumerate(classes if at < len(inflows.transitions) else ()):
                found["successors"] = list(inflows.transitions[at][number])
            yield {"stage": layer[0].stage, "step": layer[0].step, "classes": classes}
    else:
        for it in inflows.stages:
            bounds = {"coefficients": _numbers(it.coefficients), "lower": _numbers(it.lower), "upper": _numbers(it.upper)}
            yield {"stage": it.shocks.stage, "step": it.shocks.step, **bounds, "classes": [_class(it.shocks)]}


def _class(own: StageRealizations) -> Dict[str, Any]:
    return {"realizations": [
        {"weight": it.weight, "values": _numbers(it.values), "years": list(it.years)} for it in own.realizations
    ]}


def _numbers(values: Mapping[str, Decimal]) -> Dict[str, Union[int, float]]:
    return {name: _number(value) for name, value in values.items()}


def _number(value: Decimal) -> Union[int, float]:
    """A decimal as JSON writes it: its shortest text."""
    return int(value) if value == value.to_integral_value() else float(value)
