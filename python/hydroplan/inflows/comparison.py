"""The record beside what was made of it: statistics by step and station, exact or of drawn paths, and their picture."""
from __future__ import annotations

import importlib
import os
import random
from dataclasses import dataclass
from fractions import Fraction
from itertools import combinations
from math import sqrt
from typing import Any, Dict, Iterator, List, Mapping, Optional, Sequence, Tuple, Union

from ..tables import package
from ..tools.shown_names import shown_in_picture, shown_name
from .realizations import About, Autoregression, Independent, Inflows, Lattice, Matrix, Realization, StageRealizations
from .records import InflowError, Record

Pair = Tuple[str, str]


@dataclass(frozen=True)
class Statistics:
    """Of one step or stage: mean and deviation by station, correlation with the step before by station, and between stations.

    Deviations have the number of years as their divisor, as those of a distribution do. A correlation is None where a deviation is
    0. A mean is exact.
    """

    step: int
    mean: Dict[str, Fraction]
    deviation: Dict[str, float]
    lag: Dict[str, Optional[float]]
    cross: Dict[Pair, Optional[float]]


def statistics_of(record: Record, step: int) -> Statistics:
    """The statistics of a record's step, from 1. The correlation with the step before is over the years that have one."""
    numpy = package("numpy")
    own = numpy.array([[float(it) for it in row] for row in record.of_step(step)])
    pairs = record.pairs_of(step)
    before = numpy.array([[float(it) for it in row] for _, row, _ in pairs])
    after = numpy.array([[float(it) for it in row] for _, _, row in pairs])
    names = record.stations
    return Statistics(
        step,
        {name: record.mean(step, at) for at, name in enumerate(names)},
        {name: float(own[:, at].std()) for at, name in enumerate(names)},
        {name: _correlation(numpy, before[:, at], after[:, at]) if pairs else None for at, name in enumerate(names)},
        {
            (names[one], names[other]): _correlation(numpy, own[:, one], own[:, other])
            for one, other in combinations(range(len(names)), 2)
        },
    )


def _correlation(numpy: Any, one: Any, other: Any) -> Optional[float]:
    """The correlation of two columns, None where one of them does not vary."""
    if len(one) < 2 or one.min() == one.max() or other.min() == other.max():
        return None
    return float(numpy.corrcoef(one, other)[0, 1])


Covariances = Dict[Pair, Fraction]


def statistics_by_stage(inflows: Inflows) -> List[Statistics]:
    """Statistics of each stage from the exact distribution; the first has no correlation with the step before, which is known.

    Means are exact, and so is what deviations and correlations are taken from, but in an autoregression, where floats carry
    covariances from stage to stage.
    """
    if isinstance(inflows, Autoregression):
        return _of_autoregression(inflows)
    return _of_lattice(inflows if isinstance(inflows, Lattice) else _as_lattice(inflows))


def _as_lattice(inflows: Independent) -> Lattice:
    """The lattice with one class at each stage."""
    one: Matrix = ((1,),)
    return Lattice(inflows.about, tuple((it,) for it in inflows.stages), (one,) * (len(inflows.stages) - 1), (1,))


def class_probabilities(lattice: Lattice) -> List[List[Fraction]]:
    """The probability of each class at each stage."""
    found = [_shares(lattice.initial)]
    for matrix in lattice.transitions:
        shares = [_shares(row) for row in matrix]
        found.append([sum((p * row[j] for p, row in zip(found[-1], shares)), Fraction(0)) for j in range(len(shares[0]))])
    return found


def _shares(weights: Sequence[int]) -> List[Fraction]:
    return [Fraction(it, sum(weights)) for it in weights]


def _of_lattice(lattice: Lattice) -> List[Statistics]:
    names = lattice.about.stations
    found: List[Statistics] = []
    probabilities = class_probabilities(lattice)
    means = [[_means(own, names) for own in layer] for layer in lattice.stages]
    squares = _by_content(lattice, names)
    for at, layer in enumerate(lattice.stages):
        mean = {name: sum((p * own[name] for p, own in zip(probabilities[at], means[at])), Fraction(0)) for name in names}
        covariances = {
            pair: sum((p * own[pair] for p, own in zip(probabilities[at], squares[at])), Fraction(0)) - mean[pair[0]] * mean[pair[1]]
            for pair in _pairs(names)
        }
        lag = {name: Fraction(0) for name in names}
        if at:
            lag = {name: _products(lattice, at, probabilities, means, name) - found[-1].mean[name] * mean[name] for name in names}
        found.append(_statistics(layer[0].step, mean, covariances, lag, found[-1] if found else None))
    return found


def _products(
    lattice: Lattice, at: int, probabilities: List[List[Fraction]], means: List[List[Dict[str, Fraction]]], name: str,
) -> Fraction:
    """The expected product of a station's inflow with that of the stage before."""
    total = Fraction(0)
    for i, row in enumerate(lattice.transitions[at - 1]):
        following = sum((share * means[at][j][name] for j, share in enumerate(_shares(row))), Fraction(0))
        total += probabilities[at - 1][i] * means[at - 1][i][name] * following
    return total


def _by_content(lattice: Lattice, names: Sequence[str]) -> List[List[Covariances]]:
    """The expected products of stations in each class; classes that come again every year are computed once."""
    known: Dict[Tuple[int, int], Covariances] = {}
    for layer in lattice.stages:
        for own in layer:
            if (own.step, own.number) not in known:
                known[own.step, own.number] = _squares(own, names)
    return [[known[own.step, own.number] for own in layer] for layer in lattice.stages]


def _pairs(names: Sequence[str]) -> List[Pair]:
    return [*((name, name) for name in names), *combinations(names, 2)]


def _means(own: StageRealizations, names: Sequence[str]) -> Dict[str, Fraction]:
    return {
        name: sum((it.weight * Fraction(it.values[name]) for it in own.realizations), Fraction(0)) / own.weight for name in names
    }


def _squares(own: StageRealizations, names: Sequence[str]) -> Covariances:
    """The expected product of each pair of stations."""
    rows = [(it.weight, {name: Fraction(it.values[name]) for name in names}) for it in own.realizations]
    return {
        (one, other): sum((weight * row[one] * row[other] for weight, row in rows), Fraction(0)) / own.weight
        for one, other in _pairs(names)
    }


def _statistics(
    step: int, mean: Dict[str, Fraction], covariances: Covariances, lag: Dict[str, Fraction], before: Optional[Statistics],
) -> Statistics:
    deviation = {name: sqrt(covariances[name, name]) for name in mean}
    earlier = {name: 0.0 for name in mean} if before is None else before.deviation
    return Statistics(
        step, mean, deviation,
        {name: _ratio(float(lag[name]), deviation[name] * earlier[name]) for name in mean},
        {pair: _ratio(float(covariances[pair]), deviation[pair[0]] * deviation[pair[1]]) for pair in combinations(mean, 2)},
    )


def _ratio(covariance: float, deviations: float) -> Optional[float]:
    return covariance / deviations if deviations > 0 else None


def _of_autoregression(inflows: Autoregression) -> List[Statistics]:
    """Covariances go from stage to stage by the coefficients, and the shocks add theirs."""
    names, found = inflows.about.stations, []
    mean = {name: Fraction(value) for name, value in inflows.previous.items()}
    covariances: Covariances = {pair: Fraction(0) for pair in _pairs(names)}
    before: Optional[Statistics] = None
    for it in inflows.stages:
        part = {name: Fraction(value) for name, value in it.coefficients.items()}
        shock, squares = _means(it.shocks, names), _squares(it.shocks, names)
        lag = {name: part[name] * covariances[name, name] for name in names}
        mean = {name: part[name] * mean[name] + shock[name] for name in names}
        covariances = {
            (one, other): _short(part[one] * part[other] * covariances[one, other] + squares[one, other] - shock[one] * shock[other])
            for one, other in _pairs(names)
        }
        before = _statistics(it.shocks.step, mean, covariances, lag, before)
        found.append(before)
    return found


def _short(value: Fraction) -> Fraction:
    """A covariance as the float next to it, so that its digits do not grow from stage to stage."""
    return Fraction(float(value))


Path = List[Dict[str, float]]


def drawn_paths(inflows: Inflows, count: int, *, seed: int) -> List[Path]:
    """So many paths: for each stage the inflow by station. The same seed gives the same paths (Python's Mersenne Twister)."""
    source = random.Random(seed)
    return [_path(inflows, source) for _ in range(count)]


def _path(inflows: Inflows, source: random.Random) -> Path:
    if isinstance(inflows, Independent):
        return [_floats(_one(own, source).values) for own in inflows.stages]
    return _through(inflows, source) if isinstance(inflows, Lattice) else _carried(inflows, source)


def _through(inflows: Lattice, source: random.Random) -> Path:
    found: Path = []
    number: Optional[int] = None
    for at, layer in enumerate(inflows.stages):
        weights = inflows.initial if number is None else inflows.transitions[at - 1][number]
        number = source.choices(range(len(layer)), weights)[0]
        found.append(_floats(_one(layer[number], source).values))
    return found


def _carried(inflows: Autoregression, source: random.Random) -> Path:
    found, inflow = [], _floats(inflows.previous)
    for own in inflows.stages:
        shock = _one(own.shocks, source).values
        inflow = {name: float(own.coefficients[name]) * value + float(shock[name]) for name, value in inflow.items()}
        found.append(inflow)
    return found


def _one(own: StageRealizations, source: random.Random) -> Realization:
    realizations: Sequence[Realization] = own.realizations
    return source.choices(realizations, [it.weight for it in realizations])[0]


def _floats(values: Mapping[str, object]) -> Dict[str, float]:
    return {name: float(value) for name, value in values.items()}  # type: ignore[arg-type]


MEASURES = ("mean", "deviation", "lag-1 correlation", "cross-correlation")


@dataclass(frozen=True)
class ComparisonRow:
    """One number of the record and of the model. `other` is the second station of a cross-correlation, empty else.

    `stage` is the last stage of this step of the year, at which the start counts least. None stands where nothing varies, and for
    the correlation of a first stage.
    """

    measure: str
    step: int
    stage: int
    station: str
    other: str
    record: Optional[float]
    model: Optional[float]


@dataclass(frozen=True)
class Comparison:
    """All that is compared of a record and a model, ordered by measure, station and step."""

    about: About
    rows: Tuple[ComparisonRow, ...]

    def table(self) -> Any:
        """The rows as a pandas table; MissingPackage where pandas is not there."""
        return package("pandas").DataFrame([vars(row) for row in self.rows], columns=list(ComparisonRow.__annotations__))

    def of(self, measure: str, station: str, other: str = "") -> List[ComparisonRow]:
        """The rows of one measure and station, by step."""
        return [it for it in self.rows if (it.measure, it.station, it.other) == (measure, station, other)]

    def pairs(self) -> List[Pair]:
        """The pairs of stations that are compared."""
        return list(dict.fromkeys((it.station, it.other) for it in self.rows if it.other))

    def text(self) -> str:
        """The comparison in lines: a block for each station with a line for each step, and a line for each pair of stations."""
        lines: List[str] = []
        for station in self.about.stations:
            lines.extend(self._block(station))
        return "".join(line.rstrip() + "\n" for line in [*lines, *self._cross()])

    def _block(self, station: str) -> List[str]:
        head = f"{shown_name(station)} ({self.about.unit})"
        sides = "   record    model" * 2 + " record  model"
        lines = [f"{head:16}{'mean':^18}{'deviation':^18}{'lag-1':^14}", f"{self.about.kind:>8}{'':8}{sides}"]
        columns = [self.of(measure, station) for measure in MEASURES[:3]]
        for mean, deviation, lag in zip(*columns):
            sizes = "".join(_number(it, 9, 2) for row in (mean, deviation) for it in (row.record, row.model))
            lines.append(f"{mean.step:8}{'':8}{sizes}{_number(lag.record, 7, 2)}{_number(lag.model, 7, 2)}")
        return [*lines, ""]

    def _cross(self) -> List[str]:
        """For each pair of stations the means over the steps, and where record and model are furthest apart."""
        if not self.pairs():
            return []
        lines = [f"{'cross-correlation':34} record  model   furthest apart"]
        for one, other in self.pairs():
            rows = [it for it in self.of(MEASURES[3], one, other) if it.record is not None and it.model is not None]
            if rows:
                record, model = (sum(getattr(it, side) for it in rows) / len(rows) for side in ("record", "model"))
                far = max(rows, key=lambda it: abs((it.record or 0) - (it.model or 0)))
                apart = f"{abs((far.record or 0) - (far.model or 0)):.2f} in {self.about.kind} {far.step}"
                lines.append(f"{shown_name(f'{one}, {other}'):34}{_number(record, 7, 2)}{_number(model, 7, 2)}   {apart}")
        return lines


def compare(record: Record, inflows: Inflows) -> Comparison:
    """The record beside the exact distribution of what was made of it, each step at its last stage of the horizon.

    Nothing is drawn: `moments.statistics_by_stage` says how the distribution is had. numpy is needed for the record's side.
    InflowError where the inflows have other stations or another unit than the record.
    """
    if (inflows.about.stations, inflows.about.unit) != (record.stations, record.unit):
        raise InflowError(f"the inflows are of {', '.join(inflows.about.stations)} in {inflows.about.unit}, and the record is not")
    last: Dict[int, Tuple[int, Statistics]] = {it.step: (at, it) for at, it in enumerate(statistics_by_stage(inflows), 1)}
    sides = [(at, statistics_of(record, step), model) for step, (at, model) in sorted(last.items())]
    found: List[ComparisonRow] = []
    for measure in MEASURES:
        names = sides[0][1].cross if measure == MEASURES[3] else [(name, "") for name in record.stations]
        for pair in names:
            found.extend(_rows(measure, pair, sides))
    return Comparison(inflows.about, tuple(found))


def _rows(measure: str, pair: Pair, sides: List[Tuple[int, Statistics, Statistics]]) -> Iterator[ComparisonRow]:
    for stage, own, model in sides:
        numbers = [_measured(it, measure, pair) for it in (own, model)]
        yield ComparisonRow(measure, own.step, stage, pair[0], pair[1], numbers[0], None if _is_first(measure, stage) else numbers[1])


def _is_first(measure: str, stage: int) -> bool:
    return measure == MEASURES[2] and stage == 1


def _measured(it: Statistics, measure: str, pair: Pair) -> Optional[float]:
    if measure == MEASURES[0]:
        return float(it.mean[pair[0]])
    if measure == MEASURES[1]:
        return it.deviation[pair[0]]
    return it.lag[pair[0]] if measure == MEASURES[2] else it.cross[pair]


def _number(value: Optional[float], width: int, digits: int) -> str:
    return f"{'-':>{width}}" if value is None else f"{value:{width}.{digits}f}"


def draw_comparison(comparison: Comparison, path: Union[str, "os.PathLike[str]"]) -> None:
    """Draws two panels for each station by step, of the record and beside it of the model.

    On the left are means with bars of one deviation, on the right correlations with the step before. The file's ending says its
    form, as in `.png` and `.svg`. MissingPackage where matplotlib is not there.
    """
    package("matplotlib")
    stations, about = comparison.about.stations, comparison.about
    figure = importlib.import_module("matplotlib.figure").Figure(figsize=(11, 1 + 2.4 * len(stations)), layout="tight")
    panels = figure.subplots(len(stations), 2, squeeze=False)
    for (left, right), station in zip(panels, stations):
        means, deviations, lags = (comparison.of(measure, station) for measure in MEASURES[:3])
        for side, shift, colour in (("record", -0.12, "black"), ("model", 0.12, "tab:blue")):
            steps, look = [row.step + shift for row in means], {"color": colour, "markersize": 3, "label": side}
            left.errorbar(steps, _side(means, side), _side(deviations, side), fmt="o", capsize=2, **look)
            right.plot([row.step for row in lags], _side(lags, side), marker="o", **look)
        left.set_ylabel(f"{shown_in_picture(station)}\n{about.unit}")
        left.legend(fontsize="small")
    panels[0][0].set_title(f"mean and deviation: {about.method}")
    panels[0][1].set_title("correlation with the step before")
    for axes in panels[-1]:
        axes.set_xlabel(about.kind)
    figure.savefig(path)


def _side(rows: List[ComparisonRow], side: str) -> List[float]:
    """The numbers of one side; no number where there is none."""
    numbers = [getattr(row, side) for row in rows]
    return [float("nan") if it is None else it for it in numbers]
