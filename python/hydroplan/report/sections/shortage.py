"""What dry, mean and wet years cost and where the energy comes from in them, and what is missing."""
from __future__ import annotations

from typing import Any, List, Optional, Sequence

from ...tables import package
from ..charts import Group, draw_groups
from ..content import ESTIMATED, Block, Column, Figure, Key, Missing, Paragraph, Section, Table, word_column
from ..formats import Unit, decimals_for, energy_unit, money_unit, number, share
from ..shown_study import MISSING, ROUNDING, Series, ShownStudy, Source, Sums, Weather, in_order, mean_and_half_width, sources_of

ORDER_WORDS = (
    "For each year the scenarios are put in the order of the water that comes into all reservoirs in that year; the driest tenth of them "
    "is called dry, the wettest tenth wet."
)
OF_ONWARDS = 2
ONWARDS = "Onwards: the year and all that comes after it, since a dry year leaves lakes that are emptier."


def dry_years_section(study: ShownStudy) -> Section:
    """The section of dry and wet years."""
    title = "What a dry year costs"
    if not study.weather:
        return Section("dry", title, [Missing("decisions.csv has no inflows of reservoirs: dry and wet scenarios are not told apart.")])
    blocks: List[Block] = []
    if all(it.cost is not None for it in study.weather):
        blocks += [_costs(study), _tenths(study)]
    else:
        blocks.append(Missing("costs.csv is not there or has not all scenarios of decisions.csv: what dry years cost is not known."))
    return Section("dry", title, [*blocks, *_energy(study)])


def weather_unit(study: ShownStudy) -> Unit:
    """The unit of costs by year."""
    return money_unit(study.summary.units, [abs(float(it.cost_onwards.mean())) for it in study.weather if it.cost_onwards is not None])


def _costs(study: ShownStudy) -> Table:
    unit, volume = weather_unit(study), study.summary.units.volume
    rows, decimals = [], decimals_for([unit.of(float(abs(it.cost_onwards).max())) for it in study.weather if it.cost_onwards is not None], 4)
    water = decimals_for([float(it.inflow.max()) for it in study.weather])
    for weather in study.weather:
        rows += [_cost_row(weather, name, rows_of, unit, (water, decimals)) for name, rows_of in _parts(weather)]
    columns = [
        word_column("year"), Column("scenarios"), Column("inflow, mean", volume), Column("cost of the year, mean", unit.name),
        Column("± half of the interval", unit.name), Column("more than the mean year", unit.name), Column("cost onwards, mean", unit.name),
        Column("more than the mean, onwards", unit.name),
    ]
    kept = len(columns) if len(study.weather) > 1 else len(columns) - OF_ONWARDS
    note = f"{ORDER_WORDS} {_onwards(study)}Costs are discounted to the study's beginning. Intervals: 95 per cent, by the normal distribution."
    return Table("What a dry year costs against a mean and a wet one", ESTIMATED, columns[:kept], [it[:kept] for it in rows], note)


def _onwards(study: ShownStudy) -> str:
    """What onwards means, where there are years that come after one."""
    return f"{ONWARDS} " if len(study.weather) > 1 else ""


def _parts(weather: Weather) -> List[Any]:
    everything = slice(0, len(weather.order))
    return [("dry", weather.driest), ("mean", everything), ("wet", weather.wettest)]


def _cost_row(weather: Weather, name: str, part: slice, unit: Unit, decimals: Sequence[int]) -> List[str]:
    assert weather.cost is not None and weather.cost_onwards is not None
    mean, half = mean_and_half_width(weather.cost[part])
    onwards = float(weather.cost_onwards[part].mean())
    more = [value - float(all_of.mean()) for value, all_of in ((mean or 0.0, weather.cost), (onwards, weather.cost_onwards))]
    differences: List[Optional[float]] = [None, None] if name == "mean" else [unit.of(it) for it in more]
    money = [unit.of(mean or 0.0), None if half is None else unit.of(half), differences[0], unit.of(onwards), differences[1]]
    return [
        f"{weather.year.name}, {name}", f"{len(weather.order[part]):,}", number(float(weather.inflow[part].mean()), decimals[0]),
        *(number(it, decimals[1]) for it in money),
    ]


def _tenths(study: ShownStudy) -> Figure:
    unit = weather_unit(study)
    drawings = [_tenth_drawing(study, it, unit) for it in study.weather]
    keys = [
        Key("dry", "the driest"), Key("middle", "between"), Key("wet", "the wettest"), Key("whisker", "8 of 10 scenarios of the bar", "line"),
        Key("level", "mean of all scenarios", "line"),
    ]
    after = " and all that comes after it" if len(study.weather) > 1 else ""
    note = f"Cost of the year{after}, by tenths of the scenarios from the driest year to the wettest. {_onwards(study)}"
    return Figure("Costs from a dry to a wet year", ESTIMATED, drawings, note, keys)


def _tenth_drawing(study: ShownStudy, weather: Weather, unit: Unit) -> Any:
    numpy, found = package("numpy"), []
    costs = weather.cost_onwards
    assert costs is not None
    for place, part in enumerate(weather.groups):
        look = "dry" if place == 0 else "wet" if place == len(weather.groups) - 1 else "middle"
        mean, low, high = (unit.of(float(it)) for it in (costs[part].mean(), *numpy.quantile(costs[part], [0.1, 0.9])))
        water = f"{weather.inflow[part].mean():,.0f} {study.summary.units.volume}"
        found.append(Group(look, mean, low, high, f"group {place + 1}: {water} come in, mean cost {mean:,.4g} {unit.name}"))
    words = f"{weather.year.name}: from {found[0].mean:,.4g} {unit.name} in the driest group to {found[-1].mean:,.4g} in the wettest."
    driest, wettest = (f"{weather.inflow[it].mean():,.0f} {study.summary.units.volume}" for it in (weather.groups[0], weather.groups[-1]))
    ends = (f"dry: {driest}", f"wet: {wettest}")
    return draw_groups(weather.year.name, unit.name, found, unit.of(float(costs.mean())), ends, words)


def _energy(study: ShownStudy) -> List[Block]:
    """What serves the demand in dry, mean and wet years, as the mean over the whole years of the study."""
    sums = study.sums
    if sums is None:
        return []
    names = {year.name for year in study.whole_years()}
    weathers = [(place, it) for place, it in enumerate(study.weather) if it.year.name in names]
    found = [(source, [_mean_energy(sums, source, weathers, part) for part in range(3)]) for source in sources_of(study)]
    if not found:
        return []
    unit = energy_unit(study.summary.units, [it for _, line in found for it in line])
    decimals = decimals_for(unit.of(it) for _, line in found for it in line)
    rows = [[source.words, *(number(unit.of(it), decimals) for it in (*line, line[0] - line[1]))] for source, line in found]
    heads = ("dry year", "mean year", "wet year", "dry less mean")
    columns = [word_column("source"), *(Column(head, f"{unit.name} a year") for head in heads)]
    note = f"Mean over {'the whole years' if len(names) > 1 else 'the year'} of the study. Exports and charging are below 0."
    return [Table("Where the energy comes from in a dry, a mean and a wet year", ESTIMATED, columns, rows, note)]


def _mean_energy(sums: Sums, source: Source, weathers: Sequence[Any], part: int) -> float:
    """The mean over the scenarios of a part (dry, all, wet) and over years, in the file's unit."""
    totals = [
        float(sums.of_year[series][weather.order[_parts(weather)[part][1]], year].mean())
        for year, weather in weathers for series in source.series
    ]
    return source.sign * sum(totals) / max(1, len(weathers))


MOST_ROWS = 24


def missing_section(study: ShownStudy) -> Section:
    """The section of deficits and of needs that were not met."""
    deficits = study.table("deficits")
    blocks: List[Block] = [Missing("deficits.csv is not there: how much energy is missing is not known.")]
    if deficits is not None:
        blocks = _deficits(study, deficits)
    return Section("missing", "What is missing", [*blocks, *_needs(study)])


def _deficits(study: ShownStudy, deficits: Any) -> List[Block]:
    kept = deficits[(deficits["share_of_scenarios"] > 0) & (deficits["greatest"] > ROUNDING)]
    if not len(kept):
        return [Paragraph("No energy is missing in any simulated scenario. That is estimated: other scenarios can come.")]
    return [_by_year(study, deficits), _by_date(study, kept)]


def _by_year(study: ShownStudy, deficits: Any) -> Table:
    """The expected energy that is missing at each bus in each year, and the greatest share of scenarios in a stage and block."""
    buses = in_order(list(deficits["bus"]), study.summary.buses)
    parts = [[deficits[(deficits["bus"] == bus) & deficits["stage"].isin(year.numbers)] for year in study.years] for bus in buses]
    sums = [[float(it["mean"].sum()) for it in row] for row in parts]
    unit = energy_unit(study.summary.units, [it for row in sums for it in row])
    decimals = decimals_for((unit.of(it) for row in sums for it in row), 3)
    rows = [
        [bus, *(cell for total, part in zip(totals, row) for cell in (number(unit.of(total), decimals), share(_greatest(part))))]
        for bus, totals, row in zip(buses, sums, parts)
    ]
    parts_of_year = (Column("missing, mean", unit.name), Column("in at most", "of scenarios"))
    columns = [word_column("bus"), *(it for _ in study.years for it in parts_of_year)]
    note = "Behind the mean stands the greatest share of scenarios in which energy is missing in one stage and block of the year."
    return Table("Energy that is missing, by year", ESTIMATED, columns, rows, note, [(year.name, 2) for year in study.years])


def _greatest(part: Any) -> float:
    return float(part["share_of_scenarios"].max()) if len(part) else 0.0


def _by_date(study: ShownStudy, kept: Any) -> Table:
    """The stages and blocks with the greatest expected deficits, in the order of dates."""
    most = kept.nlargest(MOST_ROWS, "mean").sort_values(["stage", "bus", "block"])
    unit = energy_unit(study.summary.units, most["greatest"])
    decimals = decimals_for((unit.of(float(it)) for it in most["greatest"]), 4)
    energies = [[number(unit.of(float(it)), decimals) for it in (row.mean, row.p95, row.greatest)] for row in most.itertuples()]
    rows = [
        [study.summary.stage(int(row.stage)).name, str(row.bus), str(row.block), share(float(row.share_of_scenarios)), *energy]
        for row, energy in zip(most.itertuples(), energies)
    ]
    heads = [Column(head, is_number=False) for head in ("stage", "bus", "block")]
    columns = [*heads, Column("missing in", "of scenarios"), *(Column(head, unit.name) for head in ("mean", "95 %", "greatest"))]
    left = len(kept) - len(most)
    note = f"{left} more rows with smaller means stand in deficits.csv." if left else ""
    return Table("When energy is missing", ESTIMATED, columns, rows, note)


def _needs(study: ShownStudy) -> List[Block]:
    """Needs of reservoirs that were missed: minimum outflows, targets, alert volumes, evaporation, irrigation."""
    sums = study.sums
    if sums is None:
        return []
    needs = [it for it in sums.of_stage if it[1].startswith(MISSING) and sums.occurs[it].any()]
    if not needs:
        return [Paragraph("No need of a reservoir (an outflow, a target, an alert volume, irrigation) is missed in any simulated scenario.")]
    decimals = decimals_for((float(sums.of_stage[it].sum()) / sums.scenarios for it in needs), 3)
    rows = [_need(study, sums, it, decimals) for it in needs]
    unit = study.summary.units.volume
    columns = [
        word_column("element"), word_column("need"), Column("missing, mean over the study", unit), Column("missed at any time", "of scenarios"),
        word_column("most in"),
    ]
    return [Table("Needs that are missed", ESTIMATED, columns, rows, "A volume that is missing counts in each stage anew.")]


def _need(study: ShownStudy, sums: Sums, series: Series, decimals: int) -> List[str]:
    line, (name, quantity) = sums.of_stage[series] / sums.scenarios, series
    words = quantity[len(MISSING):].replace("_", " ").strip() or quantity
    ever = float(sums.occurs[series][sums.there].mean())
    return [name, words, number(float(line.sum()), decimals), share(ever), study.summary.stages[int(line.argmax())].name]
