"""PAR(1), the periodic autoregression of order 1: inflow is carried on, and shocks are the record's.

In step s with mean m, deviation d and correlation r with the step before, inflow is

    x(t) = b x(t-1) + w,    b = r d(s) / d(s-1),    w = m(s) - b m(s-1) + residual

(Thomas and Fiering 1962; Pereira, Oliveira, Costa and Kelman 1984). A realization of w has the residuals of one year at all stations,
so shocks are correlated between stations as in the record.
"""
from __future__ import annotations

from dataclasses import dataclass
from decimal import Decimal
from fractions import Fraction
from math import ceil, floor, fsum, sqrt
from typing import Dict, List, Mapping, Optional, Sequence, Tuple, TypeVar

from ..exact import Number, exact
from .comparison import Statistics, statistics_of
from .realizations import About, Autoregression, Horizon, Realization, ShockStage, StageRealizations, decimal_of, decimal_step, in_units
from .records import InflowError, Record

FINENESS = 10**6
MOST_FACTOR = 2
TOLERANCE = 1e-9

Real = TypeVar("Real", float, Fraction)


def fitted(residuals: Sequence[Fraction], mean: Fraction, deviation: float, least: int) -> List[Fraction]:
    """The shocks max(least, c + k residual), with this mean exactly and with this deviation as nearly as k allows.

    k has six decimals and is at most twice what it would be without the least shock; where that is not enough, the deviation is
    smaller. `mean` is at or above `least`. All numbers are in one unit.
    """
    floats = [float(it) for it in residuals]
    own = deviation_of(floats)
    if own == 0:
        return [mean] * len(residuals)
    low = round(deviation / own * FINENESS)
    high = low * MOST_FACTOR
    if _deviation_with(floats, low, mean, least) >= deviation * (1 - TOLERANCE):
        high = low
    while high - low > 1:
        middle = (low + high) // 2
        if _deviation_with(floats, middle, mean, least) < deviation:
            low = middle
        else:
            high = middle
    return _filled(residuals, Fraction(high, FINENESS), mean, Fraction(least))


def keeps_deviation(residuals: Sequence[Fraction], mean: Fraction, deviation: float, least: int) -> bool:
    """Whether `fitted` finds shocks with this deviation."""
    floats = [float(it) for it in residuals]
    own = deviation_of(floats)
    if own == 0:
        return deviation == 0
    return _deviation_with(floats, MOST_FACTOR * round(deviation / own * FINENESS), mean, least) >= deviation * (1 - TOLERANCE)


def deviation_of(values: Sequence[float]) -> float:
    """The deviation of numbers, with their count as the divisor."""
    mean = fsum(values) / len(values)
    return sqrt(fsum((it - mean) ** 2 for it in values) / len(values))


def _deviation_with(residuals: Sequence[float], factor: int, mean: Fraction, least: int) -> float:
    """The deviation of the shocks with so many millionths as their factor."""
    return deviation_of(_filled(residuals, factor / FINENESS, float(mean), float(least)))


def _filled(residuals: Sequence[Real], factor: Real, mean: Real, least: Real) -> List[Real]:
    """max(least, c + factor times residual) with this mean: c is found from the greatest residuals, as many as stay above."""
    scaled = [factor * it for it in residuals]
    order = sorted(scaled, reverse=True)
    count, rest, total = len(order), sum(order, mean - mean), mean * len(order)
    while count > 1 and (total - least * (len(order) - count) - rest) / count + order[count - 1] < least:
        count -= 1
        rest -= order[count]
    shift = (total - least * (len(order) - count) - rest) / count
    return [max(least, shift + it) for it in scaled]


METHOD = "PAR(1)"
SOURCE = "periodic autoregression of order 1 (Thomas and Fiering 1962; Pereira, Oliveira, Costa and Kelman 1984)"
LEAST_YEARS = 3


def periodic_autoregression(
    record: Record, horizon: Horizon, *, previous: Optional[Mapping[str, Number]] = None, coefficient_step: Number = "0.01",
    most_raised: Number = "0.2",
) -> Autoregression:
    """PAR(1) with the inflow as a state: coefficients at `coefficient_step`, and a shock for each year that has a step before it.

    `previous` is the inflow of the step before the first stage by station; the record's mean where it is not given. Coefficients are
    rounded first, then residuals are taken, so that means stay the record's where `previous` is the mean: each is off by at most half
    a resolution divided by the number of shocks.

    Inflow does not fall below 0, on any path. For each stage the least inflow that can come before it is known, and so is the least
    shock that leads from there to 0. Shocks are max(least, c + k residual), with k and c such that mean and deviation of the shocks
    stay what they are to be (`shocks.fitted`). Nothing has to be added to the linear program: no variable for what is short, and no
    penalty among the costs. Where more than the part `most_raised` of the residuals would lead below 0, or their mean would, or the
    deviation could not be kept with a k of at most 2, the coefficient is drawn towards 0 in its steps until that is no longer so; the
    correlation with the step before is then smaller than the record's. The notes say how many shocks were raised and which
    coefficients were changed.

    InflowError where the record has a value below 0 or fewer than 3 years, or `previous` is not one number at or above 0 for each
    station.
    """
    if len(record.years) < LEAST_YEARS or any(it < 0 for year in record.values for row in year for it in row):
        raise InflowError(f"PAR(1) needs at least {LEAST_YEARS} years, and inflows at or above 0")
    steps, resolution = horizon.steps(record), horizon.unit()
    rules = _Rules(resolution, Fraction(decimal_step(coefficient_step, "the step of coefficients")), exact(most_raised, "most_raised"))
    known = {step: statistics_of(record, step) for step in range(1, record.steps + 1)}
    before = steps[0] - 1 or record.steps
    given = _previous(record, known[before], previous, resolution)
    lines = [_Line(record, at, rules, known, given[name]) for at, name in enumerate(record.stations)]
    for line in lines if previous is not None else ():
        line.mean = record.mean(before, line.station) / Fraction(resolution)
    stages = tuple(_stage(record, lines, stage, step) for stage, step in enumerate(steps, 1))
    about = About(METHOD, SOURCE, record.unit, resolution, record.stations, record.kind, (*record.notes, *_notes(record, stages)))
    return Autoregression(about, stages, {name: decimal_of(units, resolution) for name, units in given.items()})


def coefficient(known: Mapping[int, Statistics], station: str, step: int) -> float:
    """b of a step: the correlation times the deviation over that of the step before; 0 where there is none.

    `known` has the statistics of each step of the year.
    """
    before = step - 1 or len(known)
    correlation = known[step].lag[station]
    if correlation is None or known[before].deviation[station] == 0:
        return 0.0
    return correlation * known[step].deviation[station] / known[before].deviation[station]


def _previous(record: Record, known: Statistics, given: Optional[Mapping[str, Number]], resolution: Decimal) -> Dict[str, int]:
    """The inflow before the first stage in units, by station."""
    if given is not None and set(given) != set(record.stations):
        raise InflowError(f"a previous inflow is expected for each of {', '.join(record.stations)}, and not for {', '.join(given)}")
    values = {name: known.mean[name] if given is None else exact(given[name], f"the previous inflow of {name}") for name in record.stations}
    if min(values.values()) < 0:
        raise InflowError("a previous inflow is at or above 0")
    return {name: in_units([value], [1], resolution)[0] for name, value in values.items()}


def _stage(record: Record, lines: Sequence[_Line], stage: int, step: int) -> ShockStage:
    """The next stage of all stations."""
    found = {name: line.next(step) for name, line in zip(record.stations, lines)}
    resolution = lines[0].rules.resolution
    shocks = tuple(
        Realization(1, {name: decimal_of(it.units[at], resolution) for name, it in found.items()}, (record.years[year],))
        for at, (year, _, _) in enumerate(record.pairs_of(step))
    )
    return ShockStage(
        StageRealizations(stage, step, shocks),
        {name: it.coefficient for name, it in found.items()},
        {name: decimal_of(it.least, resolution) for name, it in found.items()},
        {name: decimal_of(it.greatest, resolution) for name, it in found.items()},
        {name: it.estimate for name, it in found.items()},
        {name: it.raised for name, it in found.items()},
        tuple(name for name, it in found.items() if it.is_changed),
    )


def _notes(record: Record, stages: Sequence[ShockStage]) -> List[str]:
    """How many shocks were raised, and which coefficients were changed, each step and station once."""
    raised = [(count, name, it.shocks) for it in stages for name, count in it.raised.items()]
    count, name, most = max(raised, key=lambda it: it[0])
    found = []
    if count:
        every = sum(len(shocks.realizations) for _, _, shocks in raised)
        found.append(
            f"shocks raised, so that inflow stays at or above 0: {sum(it for it, _, _ in raised)} of {every}; "
            f"most, {count} of {len(most.realizations)}, for {name} in stage {most.stage}, {record.kind} {most.step}"
        )
    changed: Dict[Tuple[int, str], str] = {}
    for it in stages:
        for name in it.changed:
            changed[it.shocks.step, name] = f"{it.coefficients[name]} in place of {it.estimates[name]:.3f}"
    words = "coefficient drawn towards 0, so that inflow stays at or above 0"
    return [*found, *(f"{words}: {name}, {record.kind} {step}: {it}" for (step, name), it in sorted(changed.items()))]


@dataclass(frozen=True)
class _Rules:
    """What was chosen: the resolution, the step of coefficients, and the greatest part of shocks that are raised."""

    resolution: Decimal
    coefficient_step: Fraction
    most_raised: Fraction


@dataclass(frozen=True)
class _Step:
    """A stage of one station: coefficient and its estimate, shocks and bounds of inflow in units, and how many were raised."""

    coefficient: Decimal
    estimate: float
    units: List[int]
    least: int
    greatest: int
    raised: int
    is_changed: bool


class _Line:
    """One station from stage to stage: its mean, and between what bounds its inflow is, in units of the resolution."""

    def __init__(self, record: Record, station: int, rules: _Rules, known: Mapping[int, Statistics], previous: int) -> None:
        self.record = record
        self.station = station
        self.name = record.stations[station]
        self.rules = rules
        self.known = known
        self.unit = Fraction(rules.resolution)
        self.least = self.greatest = previous
        self.mean = Fraction(previous)

    def next(self, step: int) -> _Step:
        """The next stage."""
        estimate = coefficient(self.known, self.name, step)
        part, is_changed = self._coefficient(estimate, step)
        residuals, mean, low = self._residuals(step, part), self._mean_shock(step, part), self._least_shock(part)
        shocks = fitted(residuals, mean, self._deviation(step, part), low)
        units = in_units([it * self.unit for it in shocks], [1] * len(shocks), self.rules.resolution)
        self.mean = part * self.mean + Fraction(sum(units), len(units))
        self.least, self.greatest = floor(part * self._end(part, -1) + min(units)), ceil(part * self._end(part, 1) + max(units))
        decimal = Decimal(part.numerator) / Decimal(part.denominator)
        return _Step(decimal, estimate, units, self.least, self.greatest, self._raised(residuals, mean, low), is_changed)

    def _coefficient(self, estimate: float, step: int) -> Tuple[Fraction, bool]:
        """The coefficient in whole steps, at which few enough shocks are raised; whether it had to be drawn towards 0 for that."""
        unit = self.rules.coefficient_step
        first = count = round(Fraction(estimate) / unit)
        while count and not self._is_fit(step, count * unit):
            count -= 1 if count > 0 else -1
        return count * unit, count != first

    def _is_fit(self, step: int, part: Fraction) -> bool:
        """Whether the mean shock is not below the least one, not too many others are, and the deviation can be kept."""
        residuals, mean, low = self._residuals(step, part), self._mean_shock(step, part), self._least_shock(part)
        if mean < low or self._raised(residuals, mean, low) > self.rules.most_raised * len(residuals):
            return False
        return keeps_deviation(residuals, mean, self._deviation(step, part), low)

    def _raised(self, residuals: Sequence[Fraction], mean: Fraction, low: int) -> int:
        return sum(mean + it < low for it in residuals)

    def _residuals(self, step: int, part: Fraction) -> List[Fraction]:
        """What each year's inflow has beside the coefficient times the inflow before, less the mean of that."""
        at = self.station
        found = [(after[at] - part * before[at]) / self.unit for _, before, after in self.record.pairs_of(step)]
        mean = sum(found, Fraction(0)) / len(found)
        return [it - mean for it in found]

    def _mean_shock(self, step: int, part: Fraction) -> Fraction:
        return self.record.mean(step, self.station) / self.unit - part * self.mean

    def _least_shock(self, part: Fraction) -> int:
        """The least shock that never leads below 0."""
        return ceil(-part * self._end(part, -1))

    def _deviation(self, step: int, part: Fraction) -> float:
        """The shocks' deviation: what the inflow's has beside the coefficient times that of the inflow before."""
        own, before = (self.known[it].deviation[self.name] for it in (step, step - 1 or self.record.steps))
        return sqrt(max(0.0, own**2 - (float(part) * before) ** 2)) / float(self.unit)

    def _end(self, part: Fraction, sign: int) -> int:
        """The inflow before that leads to the least inflow for sign -1, to the greatest for 1."""
        return self.greatest if part * sign > 0 else self.least
