"""Realizations that are the record's own years: all of them, groups of years that are alike, or Markov classes from dry to wet."""
from __future__ import annotations

import importlib
from fractions import Fraction
from typing import Any, Dict, List, Optional, Sequence, Tuple

from ..tables import package
from .realizations import About, Horizon, Independent, Lattice, Matrix, Realization, StageRealizations, realizations_of
from .records import InflowError, Record, Row

METHOD = "years as they are"
SOURCE_OF_YEARS = "empirical distribution of the record (Efron 1979)"


def independent_years(record: Record, horizon: Horizon) -> Independent:
    """Each stage has the record's years as equally likely realizations, each with the inflows of all stations of one year.

    This is the empirical distribution of each step, from which the bootstrap draws (Efron 1979, Bootstrap methods: another look at
    the jackknife). Stages do not depend on each other. Where the resolution is not as fine as the record, values are rounded down or
    up so that each station's mean is off by at most the resolution divided by twice the number of years.
    """
    steps, resolution = horizon.steps(record), horizon.unit()
    known = {step: _years_of_step(record, step, horizon) for step in sorted(set(steps))}
    about = About(METHOD, SOURCE_OF_YEARS, record.unit, resolution, record.stations, record.kind, record.notes)
    return Independent(about, tuple(StageRealizations(at, step, known[step]) for at, step in enumerate(steps, 1)))


def _years_of_step(record: Record, step: int, horizon: Horizon) -> Tuple[Realization, ...]:
    rows = record.of_step(step)
    return realizations_of(record, rows, [1] * len(rows), [[year] for year in record.years], horizon.unit())


SOURCE_OF_GROUPS = "k-means (MacQueen 1967; Lloyd 1982) from centres by Arthur and Vassilvitskii (2007)"
ATTEMPTS = 10
PASSES = 50


def grouped_years(record: Record, horizon: Horizon, groups: int, *, seed: int) -> Independent:
    """Each stage has so many groups of years: a group's inflow is the mean of its years, its weight how many they are.

    Groups are those of k-means (MacQueen 1967; Lloyd 1982) over all stations at once, each standardized by its mean and deviation in
    the step. `scipy.cluster.vq.kmeans2` finds them from centres drawn as Arthur and Vassilvitskii (2007) do; the best of 10 attempts
    of 50 passes counts, in the sum of squared distances. `seed`, from 0 to 2^32 - 1, decides the draws.

    k-means is taken, and no reduction to some of the years, since the weighted mean of groups' means is the record's mean: nothing
    has to be shifted afterwards. Deviations become smaller, by what the years differ within their groups. Values are rounded down or
    up so that each station's mean stays as near as it can (`rounding.rounded`): off by at most half a resolution times the greatest
    weight's share of the years. Groups stand in the order of their total inflow. A step with fewer different years than groups has a
    group for each of them, which a note says.

    InflowError where the groups are no number from 1 to that of the years.
    """
    if isinstance(groups, bool) or not isinstance(groups, int) or not 1 <= groups <= len(record.years):
        raise InflowError(f"the number of groups is 1 to {len(record.years)}, as many as there are years, and not {groups}")
    if not 0 <= seed < 1 << 32:
        raise InflowError(f"a seed is a whole number from 0 to 2^32 - 1, and not {seed}")
    steps, resolution = horizon.steps(record), horizon.unit()
    known = {step: _groups_of_step(record, step, groups, seed, horizon) for step in sorted(set(steps))}
    method = f"{groups} groups of years, seed {seed}"
    fewer = {step: len(own) for step, own in known.items() if len(own) < groups}
    notes = [f"{record.kind} {step} has no more than {count} groups: as many years differ" for step, count in fewer.items()]
    about = About(method, SOURCE_OF_GROUPS, record.unit, resolution, record.stations, record.kind, (*record.notes, *notes))
    return Independent(about, tuple(StageRealizations(at, step, known[step]) for at, step in enumerate(steps, 1)))


def _groups_of_step(record: Record, step: int, groups: int, seed: int, horizon: Horizon) -> Tuple[Realization, ...]:
    rows = record.of_step(step)
    groups = min(groups, len(set(rows)))
    labels = _labels(rows, groups, [seed, step])
    members = [[at for at, label in enumerate(labels) if label == group] for group in range(groups)]
    means = [_mean([rows[at] for at in own]) for own in members]
    order = sorted(range(groups), key=lambda group: (sum(means[group]), members[group]))
    return realizations_of(
        record, [means[it] for it in order], [len(members[it]) for it in order],
        [[record.years[at] for at in members[it]] for it in order], horizon.unit(),
    )


def _mean(rows: Sequence[Row]) -> Row:
    return tuple(sum(column, Fraction(0)) / len(rows) for column in zip(*rows))


def _labels(rows: Sequence[Row], groups: int, seeds: Sequence[int]) -> List[int]:
    """The group of each row: of several attempts the one with the least sum of squared distances, none of its groups empty."""
    numpy, vq = package("numpy"), _clusters()
    points = _standardized(numpy, rows)
    random = numpy.random.RandomState(list(seeds))
    best: Optional[Tuple[float, List[int]]] = None
    for _ in range(ATTEMPTS):
        try:
            centres, labels = vq.kmeans2(points, groups, iter=PASSES, minit="++", missing="raise", seed=random)
        except vq.ClusterError:
            continue
        distance = float(((points - centres[labels]) ** 2).sum())
        if len(set(labels)) == groups and (best is None or distance < best[0]):
            best = (distance, [int(it) for it in labels])
    if best is None:
        raise InflowError(f"{ATTEMPTS} attempts left some of {groups} groups empty: take fewer groups or another seed")
    return best[1]


def _standardized(numpy: Any, rows: Sequence[Row]) -> Any:
    """Rows as an array of floats, each column less its mean and divided by its deviation where that is not 0."""
    points = numpy.array([[float(it) for it in row] for row in rows])
    deviations = points.std(axis=0)
    return (points - points.mean(axis=0)) / numpy.where(deviations > 0, deviations, 1)


def _clusters() -> Any:
    package("scipy")
    return importlib.import_module("scipy.cluster.vq")


SOURCE_OF_CLASSES = "Markov chain of classes with counted transitions (Philpott and de Matos 2012)"


def markov_classes(
    record: Record, horizon: Horizon, classes: int, *, by: Optional[str] = None, before: Optional[int] = None,
) -> Lattice:
    """A lattice with so many classes at each stage, from dry to wet, and the years of a class as its equally likely realizations.

    Each step's years are ranked by their total over all stations, or by the station `by`; the year of rank r of n, from 0, is in class
    floor(r c / n), so classes have as many years as one another, or one more. Years that are equal are ranked in the order of time.
    A transition's weight is how often the record goes from the one class to the other, the last step of a year to the first of the
    next too (Markov chains in stochastic dual dynamic programming: Philpott and de Matos 2012).

    A transition that the record never makes has weight 0: the lattice does not make it either. A class that the record never leaves,
    since its only year is the last, leads to the next step's classes by their numbers of years. Both are said in the notes. The first
    stage's classes have their numbers of years as weights, or the transitions from class `before` of the step before it.

    Up to rounding, each stage until the end of the year has the record's joint distribution. After that, probabilities of classes are
    off a little: the step over the end of the year has one pair of years less.

    InflowError where the classes are no number from 1 to that of the years, or `before` is none of them.
    """
    if isinstance(classes, bool) or not isinstance(classes, int) or not 1 <= classes <= len(record.years):
        raise InflowError(f"the number of classes is 1 to {len(record.years)}, as many as there are years, and not {classes}")
    if before is not None and not 0 <= before < classes:
        raise InflowError(f"the class before is 0 to {classes - 1}, and not {before}")
    found = _Classing(record, classes, by)
    steps = horizon.steps(record)
    stages = tuple(found.layer(stage, step, horizon) for stage, step in enumerate(steps, 1))
    transitions = tuple(found.transitions(step) for step in steps[1:])
    initial = found.sizes(steps[0]) if before is None else found.transitions(steps[0])[before]
    notes = [note for step in sorted(set(steps[1:] if before is None else steps)) for note in found.notes(step)]
    return Lattice(_about(record, horizon, f"{classes} Markov classes by {by or 'the total'}", notes), stages, transitions, initial)


def _about(record: Record, horizon: Horizon, method: str, notes: Sequence[str]) -> About:
    return About(method, SOURCE_OF_CLASSES, record.unit, horizon.unit(), record.stations, record.kind, (*record.notes, *notes))


class _Classing:
    """The class of each year in each step, and what is counted of them."""

    def __init__(self, record: Record, classes: int, by: Optional[str]) -> None:
        self.record = record
        self.classes = classes
        self.position = None if by is None else record.position(by)
        self.of_years: Dict[int, List[int]] = {step: self._of_step(step) for step in range(1, record.steps + 1)}

    def _of_step(self, step: int) -> List[int]:
        """The class of each year, in the order of years."""
        rows = self.record.of_step(step)
        order = sorted(range(len(rows)), key=lambda at: (self._measure(rows[at]), at))
        found = [0] * len(rows)
        for rank, at in enumerate(order):
            found[at] = rank * self.classes // len(rows)
        return found

    def _measure(self, row: Row) -> Fraction:
        return sum(row, Fraction(0)) if self.position is None else row[self.position]

    def sizes(self, step: int) -> Tuple[int, ...]:
        """How many years each class has."""
        return tuple(self.of_years[step].count(number) for number in range(self.classes))

    def counted(self, step: int) -> List[List[int]]:
        """How often the record goes from each class of the step before to each class of a step."""
        found = [[0] * self.classes for _ in range(self.classes)]
        before = self.of_years[step - 1 or self.record.steps]
        for at, _, _ in self.record.pairs_of(step):
            found[before[at if step > 1 else at - 1]][self.of_years[step][at]] += 1
        return found

    def transitions(self, step: int) -> Matrix:
        """The weights into a step: what was counted, and the classes' sizes for a class that was never left."""
        return tuple(tuple(row) if any(row) else self.sizes(step) for row in self.counted(step))

    def layer(self, stage: int, step: int, horizon: Horizon) -> Tuple[StageRealizations, ...]:
        """The classes of a stage with their realizations."""
        rows, found = self.record.of_step(step), []
        for number in range(self.classes):
            members = [at for at, own in enumerate(self.of_years[step]) if own == number]
            years = [[self.record.years[at]] for at in members]
            realizations = realizations_of(self.record, [rows[at] for at in members], [1] * len(members), years, horizon.unit())
            found.append(StageRealizations(stage, step, realizations, number))
        return tuple(found)

    def notes(self, step: int) -> List[str]:
        """What is said of transitions into a step that were never made."""
        kind, before, counted = self.record.kind, step - 1 or self.record.steps, self.counted(step)
        words = f"from {kind} {before} to {step}"
        never = [f"{i} to {j}" for i, row in enumerate(counted) if any(row) for j, count in enumerate(row) if count == 0]
        found = [f"never made {words}, and weight 0: class {', '.join(never)}"] if never else []
        left = [str(i) for i, row in enumerate(counted) if not any(row)]
        if left:
            found.append(f"never left {words}, and led on by the classes' years: class {', '.join(left)}")
        unreached = [str(j) for j in range(self.classes) if not any(row[j] for row in self.transitions(step))]
        return [*found, f"never come to {words}: class {', '.join(unreached)}"] if unreached else found
