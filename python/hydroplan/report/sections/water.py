"""The water in the reservoirs, when they come near empty, and what water is worth."""
from __future__ import annotations

from dataclasses import dataclass
from typing import Any, Dict, List, Optional, Sequence, Tuple

from ...tables import package
from ..charts import CUT_OFF, FAN_KEYS, LIMIT_KEY, LINE_LOOKS, Curve, Fan, draw_curves, draw_fan, draw_heat, draw_over_dates
from ..content import ESTIMATED, Block, Column, Figure, Key, Missing, Paragraph, Section, Table, word_column
from ..folder import MONTHS, Element, Stage, Year
from ..formats import Unit, decimals_for, number, price_unit, share
from ..shown_study import NEAR_EMPTY, ShownStudy, in_order, quantiles_of

NEAR_EMPTY_WORDS = f"Near empty: at most {100 * NEAR_EMPTY:.0f} per cent of the reservoir's range above its least volume."


def lakes_section(study: ShownStudy) -> Section:
    """The section of storage."""
    stored = study.table("storage_quantiles")
    blocks: List[Block] = [Paragraph("A volume stands at the end of its stage: that of January at the end of January.")]
    if study.sums is None:
        blocks.append(Missing("decisions.csv is not there: all reservoirs together, and how often they are near empty, are not known."))
    else:
        blocks += [*_all_together(study), *_near_empty(study)]
    if stored is None:
        blocks.append(Missing("storage_quantiles.csv is not there: the volumes of single reservoirs are not known."))
    else:
        blocks += [_fans(study, stored), _lowest(study, stored), _volumes(study, stored)]
    return Section("lakes", "When the lakes fill and empty", blocks)


def total_quantiles(study: ShownStudy) -> Optional[Dict[str, Any]]:
    """The quantiles of the volume of all reservoirs together by stage; None where volumes are not known."""
    sums = study.sums
    if sums is None or not any(name in sums.thresholds for name, quantity in sums.of_stage if quantity == "volume"):
        return None
    return quantiles_of(package("numpy"), sums.volume[sums.there])


def total_limit(study: ShownStudy) -> Optional[Tuple[List[float], List[float]]]:
    """The least and greatest volumes of all reservoirs together by stage; None where one of them is not given."""
    limits = [(it.minimum, it.maximum) for it in study.summary.elements_of("reservoir")]
    if not limits or any(None in side or not side for pair in limits for side in pair):
        return None
    least, greatest = ([sum(it) for it in zip(*(pair[side] for pair in limits))] for side in (0, 1))
    return least, greatest


def _all_together(study: ShownStudy) -> List[Block]:
    found, numbers = total_quantiles(study), [it.number for it in study.summary.stages]
    if found is None:
        return []
    limit = total_limit(study)
    lines = [("limit", line) for line in limit] if limit else []
    median = [float(it) for it in found["p50"]]
    lowest = median.index(min(median))
    words = (
        f"All reservoirs together hold least at the end of {study.summary.stages[lowest].name}: {median[lowest]:,.0f} "
        f"{study.summary.units.volume} in the median, {float(found['p05'][lowest]):,.0f} in 1 of 20 scenarios or less."
    )
    fan = Fan("", study.summary.units.volume, study.ends(numbers), found, lines)
    drawing = draw_fan(fan, study.dates, words, True)
    return [Figure("Water in all reservoirs together", ESTIMATED, [drawing], words, [*FAN_KEYS, LIMIT_KEY], True)]


def _near_empty(study: ShownStudy) -> List[Block]:
    sums, stages = study.sums, study.summary.stages
    names = [it.name for it in study.summary.elements_of("reservoir") if sums is not None and it.name in sums.near_empty and it.maximum]
    if sums is None or not names:
        return []
    shares = [[float(it) for it in sums.near_empty[name] / sums.scenarios] for name in names]
    often = [(max(line), line.index(max(line)), name) for name, line in zip(names, shares)]
    most = max(often, key=lambda it: it[0])
    words = "No reservoir comes near empty in any scenario."
    if most[0] > 0:
        words = f"Most often it is {most[2]}, at the end of {stages[most[1]].name}: {share(most[0])} of the scenarios."
    drawing = draw_heat(list(zip(names, shares)), study.edges([it.number for it in stages]), words)
    caption = "How many of 100 scenarios are near empty at the end of each stage"
    figure = Figure(caption, ESTIMATED, [drawing], f"{NEAR_EMPTY_WORDS} {words}", is_wide=True)
    rows = [[stage.name, *(share(line[place]) for line in shares)] for place, stage in enumerate(stages)]
    columns = [word_column("end of"), *(Column(it, "of scenarios") for it in names)]
    table = Table("Share of scenarios near empty, by date", ESTIMATED, columns, rows, NEAR_EMPTY_WORDS, is_folded=True)
    return [figure, _first_times(study, names), table]


def _first_times(study: ShownStudy, names: Sequence[str]) -> Table:
    """How many scenarios ever come near empty, and when first."""
    sums, stages, numpy = study.sums, study.summary.stages, package("numpy")
    assert sums is not None
    rows = []
    for name in names:
        first = sums.first_near_empty[name][sums.there]
        ever = first[first < sums.stages]
        shares = sums.near_empty[name] / sums.scenarios
        worst = int(numpy.argmax(shares))
        median = stages[int(numpy.sort(ever)[(len(ever) - 1) // 2])].name if len(ever) else "–"
        peak = [stages[worst].name, share(float(shares[worst]))] if len(ever) else ["–", "–"]
        rows.append([name, share(len(ever) / sums.scenarios), stages[int(ever.min())].name if len(ever) else "–", median, *peak])
    columns = [
        word_column("reservoir"), Column("near empty at any time", "of scenarios"), word_column("never before the end of"),
        word_column("first time, median of those"), word_column("most often at the end of"), Column("then", "of scenarios"),
    ]
    return Table("When a reservoir comes near empty", ESTIMATED, columns, rows, NEAR_EMPTY_WORDS)


def _fans(study: ShownStudy, stored: Any) -> Figure:
    order = [it.name for it in study.summary.elements]
    drawings = [_fan(study, name, stored[stored["reservoir"] == name]) for name in in_order(list(stored["reservoir"]), order)]
    return Figure("Water by reservoir", ESTIMATED, drawings, keys=[*FAN_KEYS, LIMIT_KEY])


def _fan(study: ShownStudy, name: str, rows: Any) -> Any:
    numbers, element = [int(it) for it in rows["stage"]], study.summary.store(name)
    unit = str(rows["unit"].iloc[0]) or study.summary.units.volume
    lines = [("limit", _at(study, numbers, line)) for line in (element.minimum, element.maximum) if line] if element else []
    median = [float(it) for it in rows["p50"]]
    low, high = (study.summary.stage(numbers[median.index(it)]).name for it in (min(median), max(median)))
    words = f"{name}: the median lies between {min(median):,.0f} {unit} at the end of {low} and {max(median):,.0f} {unit} at the end of {high}."
    return draw_fan(Fan(name, unit, study.ends(numbers), rows, lines), study.dates, words)


def _at(study: ShownStudy, numbers: Sequence[int], line: Sequence[Optional[float]]) -> List[Optional[float]]:
    """The numbers of an element's line at these stages."""
    places = {it.number: place for place, it in enumerate(study.summary.stages)}
    return [line[places[it]] for it in numbers]


def _lowest(study: ShownStudy, stored: Any) -> Table:
    """When each reservoir is lowest in each year, and how low then."""
    names = in_order(list(stored["reservoir"]), [it.name for it in study.summary.elements])
    rows = [[name, *(cell for year in study.years for cell in _low(study, stored[stored["reservoir"] == name], name, year))] for name in names]
    unit = study.summary.units.volume
    parts = [word_column("end of"), Column("median", unit), Column("of its range"), Column("5 %", unit)]
    columns = [word_column("reservoir"), *(part for _ in study.years for part in parts)]
    groups = [(year.name, len(parts)) for year in study.years]
    note = "The end of the stage with the least median, this median, its share of the reservoir's range, and what 1 of 20 scenarios is below."
    return Table("When each reservoir is lowest", ESTIMATED, columns, rows, note, groups)


def _low(study: ShownStudy, rows: Any, name: str, year: Year) -> List[str]:
    kept = rows[rows["stage"].isin(year.numbers)]
    if not len(kept):
        return ["–"] * 4
    row = kept.loc[kept["p50"].idxmin()]
    decimals = decimals_for(rows["p50"], 3)
    part = _share_of_range(study.summary.store(name), float(row["p50"]))
    return [study.summary.stage(int(row["stage"])).name, number(row["p50"], decimals), share(part), number(row["p05"], decimals)]


def _share_of_range(element: Optional[Element], volume: float) -> Optional[float]:
    """How much of the range between the least and the greatest volume of all stages is filled; None where they are not given."""
    lows, highs = ([it for it in line if it is not None] for line in ((element.minimum, element.maximum) if element else ((), ())))
    if not lows or not highs or max(highs) <= min(lows):
        return None
    return (volume - min(lows)) / (max(highs) - min(lows))


def _volumes(study: ShownStudy, stored: Any) -> Table:
    """The median and two quantiles of each reservoir by date."""
    names = in_order(list(stored["reservoir"]), [it.name for it in study.summary.elements])
    parts = ("p10", "p50", "p90")
    wide = {(name, part): stored[stored["reservoir"] == name].set_index("stage")[part] for name in names for part in parts}
    decimals = {name: decimals_for(wide[name, "p90"], 3) for name in names}
    stages = study.stages(sorted({int(it) for it in stored["stage"]}))
    rows = [[it.name, *(number(wide[name, part].get(it.number), decimals[name]) for name in names for part in parts)] for it in stages]
    heads = [Column(head, study.summary.units.volume) for _ in names for head in ("10 %", "median", "90 %")]
    groups = [(name, len(parts)) for name in names]
    return Table("Volumes by date", ESTIMATED, [word_column("end of"), *heads], rows, "storage_quantiles.csv has more.", groups, is_folded=True)


HEADLINE_MONTH = 3
CURVES_OF_A_PANEL = 4
LEVELS = (("low", 0.1), ("middle", 0.5), ("high", 0.9))
LEVEL_WORDS = "Low, middle and high are the volumes of water_values.csv nearest to 10, 50 and 90 per cent of the range that it has."
NOTE = (
    "What one more unit of water is worth at the beginning of a stage, by the cuts of the trained plan: undiscounted, with all other "
    "reservoirs at the median of the scenarios. The cuts are certified, their slopes are not."
)


@dataclass(frozen=True)
class Worth:
    """The value of water in a stage (and node) at a low, a middle and a high volume."""

    stage: Stage
    node: str
    volumes: Sequence[float]
    values: Sequence[float]


def water_section(study: ShownStudy) -> Section:
    """The section of water values."""
    values = study.table("water_values")
    blocks: List[Block] = [Missing("water_values.csv is not there: what water is worth is not known.")]
    if values is not None:
        blocks = [Paragraph(NOTE), _in_march(study, values), _over_time(study, values), _curves(study, values), *_by_month(study, values)]
    return Section("water", f"What water is worth{_in_words(study)}", blocks)


def _in_words(study: ShownStudy) -> str:
    return f" in {MONTHS[HEADLINE_MONTH - 1]} and in other months" if _has_march(study) else ""


def _has_march(study: ShownStudy) -> bool:
    return any(it.start.month == HEADLINE_MONTH for it in study.summary.stages)


def headline_stages(study: ShownStudy) -> List[Stage]:
    """The first stage that begins in March of each year; where no stage begins in March, the first stage of each year."""
    marches = [it for it in study.summary.stages if it.start.month == HEADLINE_MONTH]
    if not marches:
        return [it.stages[0] for it in study.years]
    return [it for it in marches if not any(other.start.year == it.start.year and other.number < it.number for other in marches)]


def worths_of(values: Any, reservoir: str, stages: Sequence[Stage]) -> List[Worth]:
    """The values of a reservoir's water, for each stage and node that the file has."""
    of_number = {it.number: it for it in stages}
    rows = values[(values["reservoir"] == reservoir) & values["stage"].isin(list(of_number))]
    groups = rows.groupby(["stage", "node"], sort=False, observed=True)
    found = [_worth(of_number[int(number_of)], str(node), part) for (number_of, node), part in groups]
    return sorted(found, key=lambda it: it.stage.number)


def _worth(stage: Stage, node: str, rows: Any) -> Worth:
    volumes = [float(it) for it in rows["volume"]]
    low, high = min(volumes), max(volumes)
    places = [min(range(len(volumes)), key=lambda place: abs(volumes[place] - low - part * (high - low))) for _, part in LEVELS]
    return Worth(stage, node, [volumes[it] for it in places], [float(rows["value"].iloc[it]) for it in places])


def names_of(study: ShownStudy, values: Any) -> List[str]:
    """The reservoirs of the file, in the order of the study."""
    return in_order(list(values["reservoir"]), [it.name for it in study.summary.elements])


def value_unit(study: ShownStudy) -> Unit:
    """The unit of water values: money for a unit of volume."""
    return price_unit(study.summary.units, study.summary.units.volume)


def _in_march(study: ShownStudy, values: Any) -> Table:
    stages, names, unit = headline_stages(study), names_of(study, values), value_unit(study)
    found = {name: worths_of(values, name, stages) for name in names}
    heads = list(dict.fromkeys((it.stage.number, it.node) for worths in found.values() for it in worths))
    nodes = {number for number, _ in heads if sum(number == other for other, _ in heads) > 1}
    decimals = decimals_for([unit.of(it) for worths in found.values() for worth in worths for it in worth.values], 3)
    rows = [[name, *_cells(found[name], heads, unit, decimals)] for name in names]
    groups = [(study.summary.stage(it).name + (f", {node}" if it in nodes else ""), len(LEVELS)) for it, node in heads]
    columns = [word_column("reservoir"), *(Column(f"at {level} volume", unit.name) for _ in heads for level, _ in LEVELS)]
    title = "What water is worth in March" if _has_march(study) else "What water is worth in the first stage of each year"
    return Table(title, ESTIMATED, columns, rows, LEVEL_WORDS, groups)


def _cells(worths: Sequence[Worth], heads: Sequence[Any], unit: Unit, decimals: int) -> List[str]:
    there = {(it.stage.number, it.node): it for it in worths}
    kept = [there.get(head) for head in heads]
    return [number(None if it is None else unit.of(it.values[level]), decimals) for it in kept for level in range(len(LEVELS))]


def _over_time(study: ShownStudy, values: Any) -> Figure:
    drawings = [_time_drawing(study, name, worths_of(values, name, study.summary.stages)) for name in names_of(study, values)]
    keys = [Key(look, f"at {level} volume", "line") for look, (level, _) in zip(LINE_LOOKS, LEVELS)]
    return Figure("What water is worth over time", ESTIMATED, drawings, LEVEL_WORDS, keys)


def _time_drawing(study: ShownStudy, name: str, worths: Sequence[Worth]) -> Any:
    unit = value_unit(study)
    first = [it for it, before in zip(worths, [None, *worths]) if before is None or before.stage.number != it.stage.number]
    days = [float(it.stage.start.toordinal()) for it in first]
    curves = [Curve(look, days, [unit.of(it.values[level]) for it in first]) for level, look in enumerate(LINE_LOOKS[: len(LEVELS)])]
    middle = curves[1].ys
    dearest = max(range(len(first)), key=lambda place: middle[place] or 0.0)
    words = f"{name}: at the middle volume water is worth most in {first[dearest].stage.name}, {middle[dearest]:,.0f} {unit.name}."
    return draw_over_dates(name, unit.name, curves, study.dates, words)


def curve_stages(study: ShownStudy) -> List[Stage]:
    """At most four stages of the middle year: those of March, June, September and December where there are such."""
    year = study.years[len(study.years) // 2]
    quarters = [it for it in year.stages if it.start.month % 3 == 0]
    kept = [it for it, before in zip(quarters, [None, *quarters]) if before is None or before.start.month != it.start.month]
    if len(kept) == CURVES_OF_A_PANEL or len(year.stages) <= CURVES_OF_A_PANEL:
        return kept if len(kept) == CURVES_OF_A_PANEL else list(year.stages)
    return [year.stages[it * len(year.stages) // CURVES_OF_A_PANEL] for it in range(CURVES_OF_A_PANEL)]


def _curves(study: ShownStudy, values: Any) -> Figure:
    stages = [it for it in curve_stages(study) if (values["stage"] == it.number).any()]
    stages = stages or study.stages(sorted(set(values["stage"]))[:CURVES_OF_A_PANEL])
    drawings = [_curve_drawing(study, name, values[values["reservoir"] == name], stages) for name in names_of(study, values)]
    keys = [Key(look, stage.name, "line") for look, stage in zip(LINE_LOOKS, stages)]
    note = f"Where a stage has several nodes, the curve of the first of them. {CUT_OFF}"
    return Figure("What water is worth by how much there is", ESTIMATED, drawings, note, keys)


def _curve_drawing(study: ShownStudy, name: str, rows: Any, stages: Sequence[Stage]) -> Any:
    unit, volume = value_unit(study), study.summary.units.volume
    curves = [_curve(look, rows[rows["stage"] == stage.number], unit) for look, stage in zip(LINE_LOOKS, stages)]
    kept = [it for it in curves if it is not None]
    ends = ", ".join(f"{stage.name}: {it.ys[0]:,.0f} to {it.ys[-1]:,.0f}" for stage, it in zip(stages, curves) if it is not None)
    return draw_curves(name, (unit.name, f"volume, {volume}"), kept, f"{name}: from the least to the greatest volume, {unit.name}, {ends}.")


def _curve(look: str, rows: Any, unit: Unit) -> Optional[Curve]:
    """The curve of the first node; None where the file has nothing of the stage."""
    if not len(rows):
        return None
    kept = rows[rows["node"] == rows["node"].iloc[0]].sort_values("volume")
    return Curve(look, [float(it) for it in kept["volume"]], [unit.of(float(it)) for it in kept["value"]])


def _by_month(study: ShownStudy, values: Any) -> List[Table]:
    """A folded table for each reservoir: the values of each stage at three volumes."""
    return [_month_table(study, name, worths_of(values, name, study.summary.stages)) for name in names_of(study, values)]


def _month_table(study: ShownStudy, name: str, worths: Sequence[Worth]) -> Table:
    unit, volume = value_unit(study), study.summary.units.volume
    found = ([it for worth in worths for it in worth.volumes], [unit.of(it) for worth in worths for it in worth.values])
    decimals = [decimals_for(it, 3) for it in found]
    numbers = [worth.stage.number for worth in worths]
    rows = [
        [
            worth.stage.name + (f", {worth.node}" if numbers.count(worth.stage.number) > 1 else ""),
            *(cell for at, value in zip(worth.volumes, worth.values) for cell in (number(at, decimals[0]), number(unit.of(value), decimals[1]))),
        ]
        for worth in worths
    ]
    columns = [word_column("stage"), *(it for _ in LEVELS for it in (Column("volume", volume), Column("worth", unit.name)))]
    groups = [(f"{level} volume", 2) for level, _ in LEVELS]
    return Table(f"What water of {name} is worth, by date", ESTIMATED, columns, rows, groups=groups, is_folded=True)
