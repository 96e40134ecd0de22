"""A study as all sections see it: its results, its years, its dates, its sources of energy, and the sums over its decisions.

decisions.csv is read in parts: a study may have millions of its rows, and none is kept.
"""
from __future__ import annotations

import math
from dataclasses import dataclass
from typing import Any, Dict, Iterable, List, Optional, Sequence, Tuple

from ..tables import package
from .charts import Layer
from .folder import QUANTILES, Element, ReportError, Results, Stage, Summary, Year, years_of

LARGEST = 3
"""So many elements of a kind stand by themselves where a kind has more; the others are put together."""
KIND_OF = {
    "taken": "renewable", "imported": "import", "discharged": "battery", "exported": "export", "charged": "charging", "deficit": "deficit",
}
ORDER = ("renewable", "reservoir", "import", "thermal", "battery", "deficit", "export", "charging")
KIND_WORDS = {
    "renewable": "renewables", "reservoir": "water (all turbines)", "import": "imports", "thermal": "thermals", "battery": "from batteries",
    "deficit": "missing (deficit)", "export": "exports", "charging": "into batteries",
}
TOGETHER = {"reservoir", "battery", "deficit", "charging"}


@dataclass(frozen=True)
class Source:
    """Something that gives energy (sign 1) or takes it (sign -1): its look, its words and its series."""

    look: str
    words: str
    series: Tuple[Series, ...]
    sign: int

    def values(self, sums: Sums) -> Any:
        """The mean energy by stage, at least 0, in the file's unit."""
        return sum(sums.of_stage[it] for it in self.series) / max(1, sums.scenarios)


def sources_of(study: ShownStudy, bus: Optional[str] = None) -> List[Source]:
    """The sources of the study, or of one bus, in the order in which they are stacked."""
    sums = study.sums
    if sums is None:
        return []
    kinds: Dict[str, List[Series]] = {}
    for series in _there(sums):
        if bus is None or _bus_of(study, series) == bus:
            kinds.setdefault(_kind(study, series), []).append(series)
    return [source for kind in sorted(kinds, key=_place) for source in _of_kind(study, sums, kind, kinds[kind])]


def _there(sums: Sums) -> List[Series]:
    """The series of energy whose mean is more than rounding in some stage."""
    return [it for it in sums.of_quantity(*SUPPLY, *LOAD) if sums.of_stage[it].max() > ROUNDING * sums.scenarios]


def _place(kind: str) -> Tuple[int, str]:
    return (ORDER.index(kind) if kind in ORDER else ORDER.index("thermal"), kind)


def _kind(study: ShownStudy, series: Series) -> str:
    """What a series is put with: what its quantity says, and of generation whether it is a reservoir's."""
    name, quantity = series
    return KIND_OF.get(quantity) or ("thermal" if study.summary.element(name, "reservoir") is None else "reservoir")


def _bus_of(study: ShownStudy, series: Series) -> Optional[str]:
    if series[1] == "deficit":
        return series[0]
    kind = _kind(study, series)
    element = study.summary.element(series[0], "battery" if kind == "charging" else kind)
    return None if element is None else element.bus


def _of_kind(study: ShownStudy, sums: Sums, kind: str, found: Sequence[Series]) -> List[Source]:
    """The sources of a kind: one by one where they are few in the whole study, else the largest ones and the others together.

    The largest sources, and so the colours, are those of the whole study, also where a bus is drawn.
    """
    sign, words = (-1 if kind in ("export", "charging") else 1), KIND_WORDS.get(kind, kind)
    if kind in TOGETHER:
        return [Source(f"source-{kind}", words, tuple(found), sign)]
    everything = [it for it in _there(sums) if _kind(study, it) == kind]
    ranked = sorted(everything, key=lambda it: -float(sums.of_stage[it].sum()))
    singles = ranked if len(ranked) <= LARGEST + 1 else ranked[:LARGEST]
    looks = {series: f"source-{kind}-{place + 1}" for place, series in enumerate(singles)}
    alone = [Source(looks[it], it[0] if sign > 0 else f"to {it[0]}", (it,), sign) for it in singles if it in found]
    others = tuple(it for it in found if it not in looks)
    return alone + ([Source(f"source-{kind}-{LARGEST + 1}", f"other {words}", others, sign)] if others else [])


def layers_of(sources: Sequence[Source], sums: Sums, divisor: float, sign: int) -> List[Layer]:
    """Those of the sources with this sign as layers of a stack."""
    return [Layer(it.look, it.words, [float(value) / divisor for value in it.values(sums)]) for it in sources if it.sign == sign]


NEAR_EMPTY = 0.05
"""A reservoir is called near empty with at most this share of its range above its least volume."""
SUPPLY = ("generation", "taken", "imported", "discharged", "deficit")
LOAD = ("exported", "charged")
OF_ENERGY = {*SUPPLY, *LOAD, "stored", "sent", "sent_back", "demand"}
MISSING = "missing"
ROUNDING = 0.001
"""So much energy (MWh) or water (hm3) that is missing is rounding."""
MOST_SCENARIOS = 1_000_000
FIRST_ROOM = 1_024

Series = Tuple[str, str]


class Sums:
    """What is kept of decisions: arrays over scenarios, stages (in the order of the calendar) and years.

    `of_stage[series]` has the sum over blocks and scenarios by stage, where a series is an element and a quantity.
    `of_year[series]` has the sum over blocks by scenario and year, for what gives or takes energy. `occurs[series]` says in which scenarios
    a deficit or a missed need is more than rounding. `inflow` and `volume` have the sum over all reservoirs by scenario and stage. `near_empty`
    counts scenarios by stage for each reservoir, and `first_near_empty` has the place of the first such stage by scenario,
    the number of stages where there is none.
    """

    def __init__(self, summary: Summary, years: List[Year]) -> None:
        self.numpy: Any = package("numpy")
        self.stages = len(summary.stages)
        self.years = len(years)
        self.place_of_stage = _lookup(self.numpy, [it.number for it in summary.stages], range(self.stages))
        year_of = {number: place for place, year in enumerate(years) for number in year.numbers}
        self.year_of_place = self.numpy.array([year_of[it.number] for it in summary.stages])
        self.thresholds = {it.name: _threshold(self.numpy, it, self.stages) for it in summary.elements_of("reservoir")}
        self.of_stage: Dict[Series, Any] = {}
        self.of_year: Dict[Series, Any] = {}
        self.occurs: Dict[Series, Any] = {}
        self.near_empty: Dict[str, Any] = {}
        self.first_near_empty: Dict[str, Any] = {}
        self.room = FIRST_ROOM
        self.there = self.numpy.zeros(self.room, dtype=bool)
        self.inflow = self.numpy.zeros((self.room, self.stages))
        self.volume = self.numpy.zeros((self.room, self.stages))

    @property
    def scenarios(self) -> int:
        """How many scenarios there are."""
        return int(self.there.sum())

    def of_quantity(self, *quantities: str) -> List[Series]:
        """The series of these quantities, in the order in which they came."""
        return [it for it in self.of_stage if it[1] in quantities]

    def add(self, part: Any) -> None:
        """Adds the rows of a part of decisions.csv."""
        numpy = self.numpy
        scenarios, numbers = part["scenario"].to_numpy(), part["stage"].to_numpy()
        self._make_room(int(scenarios.min()), int(scenarios.max()))
        places = self.place_of_stage[numpy.clip(numbers, 0, len(self.place_of_stage) - 1)]
        if (numbers < 0).any() or (numbers >= len(self.place_of_stage)).any() or (places < 0).any():
            raise ReportError("decisions.csv: a row has a stage that the calendar of summary.json has not")
        self.there[scenarios] = True
        elements, quantities = part["element"].cat, part["quantity"].cat
        values = part["value"].fillna(0.0).to_numpy()
        codes = elements.codes.to_numpy().astype("int64") * len(quantities.categories) + quantities.codes.to_numpy()
        order = numpy.argsort(codes, kind="stable")
        kinds, starts = numpy.unique(codes[order], return_index=True)
        for code, rows in zip(kinds, numpy.split(order, starts[1:])):
            element, quantity = divmod(int(code), len(quantities.categories))
            series = (str(elements.categories[element]), str(quantities.categories[quantity]))
            self._add_series(series, scenarios[rows], places[rows], values[rows])

    def _add_series(self, series: Series, scenarios: Any, places: Any, values: Any) -> None:
        """Adds the rows of one series."""
        numpy, (element, quantity) = self.numpy, series
        sums = self.of_stage.setdefault(series, numpy.zeros(self.stages))
        sums += numpy.bincount(places, values, self.stages)
        if quantity in SUPPLY or quantity in LOAD:
            self._add_table(self._array(self.of_year, series, self.years), scenarios, self.year_of_place[places], values)
        if quantity == "deficit" or quantity.startswith(MISSING):
            self._array(self.occurs, series)[scenarios[values > ROUNDING]] = True
        if quantity in ("inflow", "volume") and element in self.thresholds:
            self._add_table(self.inflow if quantity == "inflow" else self.volume, scenarios, places, values)
        if quantity == "volume" and element in self.thresholds:
            self._add_near_empty(element, scenarios, places, values)

    def _add_near_empty(self, reservoir: str, scenarios: Any, places: Any, values: Any) -> None:
        numpy, low = self.numpy, values <= self.thresholds[reservoir][places]
        counts = self.near_empty.setdefault(reservoir, numpy.zeros(self.stages))
        counts += numpy.bincount(places[low], minlength=self.stages)
        if reservoir not in self.first_near_empty:
            self.first_near_empty[reservoir] = numpy.full(self.room, self.stages)
        numpy.minimum.at(self.first_near_empty[reservoir], scenarios[low], places[low])

    def _add_table(self, table: Any, scenarios: Any, columns: Any, values: Any) -> None:
        """Adds the values at their scenarios and columns."""
        first, width = int(scenarios.min()), table.shape[1]
        rows = int(scenarios.max()) - first + 1
        sums = self.numpy.bincount((scenarios - first) * width + columns, values, rows * width)
        table[first:first + rows] += sums.reshape(rows, width)

    def _array(self, arrays: Dict[Series, Any], series: Series, columns: Optional[int] = None) -> Any:
        """The array of a series, made where there is none: of numbers for so many columns, or else of truths."""
        if series not in arrays:
            arrays[series] = self.numpy.zeros(self.room, dtype=bool) if columns is None else self.numpy.zeros((self.room, columns))
        return arrays[series]

    def _make_room(self, least: int, greatest: int) -> None:
        """Makes all arrays so long that they have a row for this scenario."""
        if least < 0 or greatest > MOST_SCENARIOS:
            raise ReportError(f"decisions.csv: scenarios are numbered from 0 to {MOST_SCENARIOS}, and not {least if least < 0 else greatest}")
        more = max(greatest + 1, 2 * self.room) - self.room
        if greatest < self.room:
            return
        self.room += more
        self.there, self.inflow, self.volume = (self._longer(it, more) for it in (self.there, self.inflow, self.volume))
        for arrays in (self.of_year, self.occurs):
            arrays.update({series: self._longer(it, more) for series, it in arrays.items()})
        self.first_near_empty = {name: self._longer(it, more, self.stages) for name, it in self.first_near_empty.items()}

    def _longer(self, array: Any, more: int, value: int = 0) -> Any:
        """The array with so many more rows of this value."""
        return self.numpy.concatenate([array, self.numpy.full((more, *array.shape[1:]), value, dtype=array.dtype)])


def read_sums(results: Results, years: List[Year]) -> Optional[Sums]:
    """The sums over decisions.csv; None where it is not there or empty."""
    return _added(Sums(results.summary, years), results.parts("decisions"))


def _added(sums: Sums, parts: Iterable[Any]) -> Optional[Sums]:
    for part in parts:
        if len(part):
            sums.add(part)
    return sums if sums.scenarios else None


def _lookup(numpy: Any, numbers: Iterable[int], places: Iterable[int]) -> Any:
    """An array that has the place of each number at the number, and -1 elsewhere."""
    pairs = dict(zip(numbers, places))
    return numpy.array([pairs.get(it, -1) for it in range(max(pairs) + 1)])


def _threshold(numpy: Any, reservoir: Element, stages: int) -> Any:
    """The volume by stage up to which a reservoir is near empty; not a number where a limit is not given."""
    if not reservoir.minimum or not reservoir.maximum:
        return numpy.full(stages, numpy.nan)
    low, high = (numpy.array([numpy.nan if it is None else it for it in limits]) for limits in (reservoir.minimum, reservoir.maximum))
    return low + NEAR_EMPTY * (numpy.nanmax(high) - numpy.nanmin(low))


TENTHS = 10
NORMAL_95 = 1.959964


@dataclass(frozen=True)
class Weather:
    """One year over scenarios, the driest first.

    `order` has the scenarios' numbers; `inflow` their water (volume, over all reservoirs), `cost` what the year costs, and
    `cost_onwards` what it and all that comes after it costs, all in that order; costs are None without costs.csv.
    """

    year: Year
    order: Any
    inflow: Any
    cost: Optional[Any]
    cost_onwards: Optional[Any]

    @property
    def tenth(self) -> int:
        """How many scenarios are a tenth of all: at least one."""
        return max(1, math.ceil(len(self.order) / TENTHS))

    @property
    def groups(self) -> List[slice]:
        """Equally many scenarios each, from the driest to the wettest; at most ten groups."""
        count = min(TENTHS, len(self.order))
        edges = [round(it * len(self.order) / count) for it in range(count + 1)]
        return [slice(first, last) for first, last in zip(edges, edges[1:])]

    @property
    def driest(self) -> slice:
        """The driest tenth."""
        return slice(0, self.tenth)

    @property
    def wettest(self) -> slice:
        """The wettest tenth."""
        return slice(len(self.order) - self.tenth, len(self.order))


def weather_of(results: Results, sums: Sums, years: Sequence[Year]) -> List[Weather]:
    """The weather of each year, where decisions.csv has inflows; else an empty list."""
    numpy = package("numpy")
    there = numpy.flatnonzero(sums.there)
    if not sums.of_quantity("inflow") or not sums.inflow[there].any():
        return []
    costs = costs_by_stage(results)
    return [_weather(numpy, sums, there, year, costs) for year in years]


def costs_by_stage(results: Results) -> Optional[Any]:
    """A DataFrame of costs with a row for each scenario and a column for each stage; None without costs.csv."""
    costs = results.table("costs")
    return None if costs is None else costs.pivot_table("cost", "scenario", "stage", "sum")


def _weather(numpy: Any, sums: Sums, there: Any, year: Year, costs: Optional[Any]) -> Weather:
    places = sums.place_of_stage[year.numbers]
    inflow = sums.inflow[there][:, places].sum(axis=1)
    order = numpy.argsort(inflow, kind="stable")
    scenarios = there[order]
    if costs is None or not set(scenarios) <= set(costs.index):
        return Weather(year, scenarios, inflow[order], None, None)
    onwards = [it for it in costs.columns if it >= year.numbers[0]]
    cost = costs[[it for it in onwards if it <= year.numbers[-1]]].sum(axis=1)
    after = costs[onwards].sum(axis=1)
    return Weather(year, scenarios, inflow[order], cost.loc[scenarios].to_numpy(), after.loc[scenarios].to_numpy())


def mean_and_half_width(values: Any) -> List[Optional[float]]:
    """The mean and half of its interval at 95 per cent by the normal distribution; None in its place for one value."""
    count = len(values)
    deviation = float(values.std(ddof=1)) if count > 1 else None
    return [float(values.mean()), None if deviation is None else NORMAL_95 * deviation / math.sqrt(count)]


Edges = List[Tuple[float, float]]


class ShownStudy:
    """Reads a folder once. ReportError where a file of it cannot be read."""

    def __init__(self, results: Results) -> None:
        self.results = results
        self.summary: Summary = results.summary
        self.years: List[Year] = years_of(self.summary.stages)
        self.sums: Optional[Sums] = read_sums(results, self.years)
        self.weather: List[Weather] = [] if self.sums is None else weather_of(results, self.sums, self.years)
        self._tables: Dict[str, Any] = {}

    def table(self, name: str) -> Optional[Any]:
        """A table of the folder, read once; None where it is not there."""
        if name not in self._tables:
            self._tables[name] = self.results.table(name)
        return self._tables[name]

    @property
    def dates(self) -> Tuple[float, float]:
        """The first and the last day, as ordinals."""
        return float(self.summary.stages[0].start.toordinal()), float(self.summary.stages[-1].end.toordinal())

    def edges(self, numbers: Sequence[int]) -> Edges:
        """The first day of each stage and the day after its last."""
        return [(float(it.start.toordinal()), float(it.end.toordinal())) for it in self.stages(numbers)]

    def ends(self, numbers: Sequence[int]) -> Edges:
        """The end of each stage, twice."""
        return [(end, end) for _, end in self.edges(numbers)]

    def stages(self, numbers: Sequence[int]) -> List[Stage]:
        """The stages of these numbers. ReportError where the calendar lacks one."""
        return [self.summary.stage(int(it)) for it in numbers]

    def whole_years(self) -> List[Year]:
        """The years that are whole, or all where none is."""
        return [it for it in self.years if it.is_whole] or self.years


def in_order(names: Sequence[str], order: Sequence[str]) -> List[str]:
    """The names in the order of the study, and behind them those that the study does not name."""
    there = set(names)
    known = [it for it in order if it in there]
    return [*known, *(it for it in dict.fromkeys(names) if it not in set(known))]


def quantiles_of(numpy: Any, values: Any) -> Dict[str, Any]:
    """The quantiles over the rows of an array, by the names of the files' columns (linear between two values)."""
    shares = {"least": 0.0, "p05": 0.05, "p10": 0.1, "p25": 0.25, "p50": 0.5, "p75": 0.75, "p90": 0.9, "p95": 0.95, "greatest": 1.0}
    found = dict(zip(shares, numpy.quantile(values, list(shares.values()), axis=0)))
    return {name: values.mean(axis=0) if name == "mean" else found[name] for name in QUANTILES}
