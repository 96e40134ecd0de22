"""What serves the demand over time, and the prices by bus."""
from __future__ import annotations

from typing import Any, Dict, List, Optional, Sequence

from ..charts import CUT_OFF, FAN_KEYS, Fan, Stack, draw_fan, draw_stack
from ..content import ESTIMATED, GIVEN, Block, Column, Figure, Key, Missing, Paragraph, Section, Table, word_column
from ..folder import Year
from ..formats import Unit, decimals_for, energy_unit, number, price_unit
from ..shown_study import ShownStudy, Source, Sums, in_order, layers_of, sources_of

DEMAND_KEY = Key("demand", "demand (given)", "line")
REST = (
    "The stack stands above the demand by what is below 0, and by what pumps take and lines lose. Demand that is random stands as its mean."
)


def energy_section(study: ShownStudy) -> Section:
    """The section of generation and demand."""
    title, sums = "Where the energy comes from", study.sums
    sources = sources_of(study)
    if sums is None or not sources:
        return Section("energy", title, [Missing("decisions.csv is not there or has no generation: sources of energy are not known.")])
    unit = energy_unit(study.summary.units, [float(it) for source in sources for it in source.values(sums)])
    whole = _stack(study, sums, sources, unit, None)
    note = f"Mean over {sums.scenarios:,} scenarios, for each stage. {REST}"
    drawing = draw_stack(whole, _edges(study), _stack_words(study, whole), True)
    figure = Figure("Energy by source", ESTIMATED, [drawing], note, [*whole.keys, DEMAND_KEY], True)
    blocks: List[Block] = [figure, _energy_by_year(study, sums, sources, unit)]
    if len(study.summary.buses) > 1:
        blocks.insert(1, _by_bus(study, sums, unit, whole))
    return Section("energy", title, blocks)


def demand_of(study: ShownStudy, bus: Optional[str] = None) -> List[Optional[float]]:
    """The energy that is asked for in each stage, of a bus or of all; None where nothing is said of a stage."""
    hours = {it.number: it.hours for it in study.summary.stages}
    found: Dict[int, float] = {}
    for row in study.summary.demand:
        number_of = int(row["stage"])
        if number_of in hours and (bus is None or row.get("bus") == bus):
            length = hours[number_of].get(str(row.get("block", "")), 0.0)
            found[number_of] = found.get(number_of, 0.0) + float(row["power"]) * length
    return [found.get(it.number) for it in study.summary.stages]


def _edges(study: ShownStudy) -> Any:
    return study.edges([it.number for it in study.summary.stages])


def _stack(study: ShownStudy, sums: Sums, sources: Sequence[Source], unit: Unit, bus: Optional[str]) -> Stack:
    demand = [None if it is None else unit.of(it) for it in demand_of(study, bus)]
    above, below = (layers_of(sources, sums, unit.divisor, sign) for sign in (1, -1))
    return Stack(bus or "", f"{unit.name} a stage", above, below, demand)


def _stack_words(study: ShownStudy, stack: Stack) -> str:
    """The shares of the sources in all that is supplied."""
    total = sum(sum(it.values) for it in stack.above) or 1.0
    shares = ", ".join(f"{it.words} {100 * sum(it.values) / total:.0f} %" for it in stack.above)
    return f"Of all energy supplied{' at ' + stack.title if stack.title else ''}: {shares}."


def _by_bus(study: ShownStudy, sums: Sums, unit: Unit, whole: Stack) -> Figure:
    stacks = [_stack(study, sums, sources_of(study, bus), unit, bus) for bus in study.summary.buses]
    drawings = [draw_stack(it, _edges(study), _stack_words(study, it)) for it in stacks]
    note = "Where the demand stands above the stack, lines bring what is between; where it stands below, they take it away."
    return Figure("Energy by source at each bus", ESTIMATED, drawings, note, [*whole.keys, DEMAND_KEY])


def _energy_by_year(study: ShownStudy, sums: Sums, sources: Sequence[Source], unit: Unit) -> Table:
    places = {year.name: [sums.place_of_stage[it] for it in year.numbers] for year in study.years}
    lines = [(it.words, [it.sign * float(it.values(sums)[places[year.name]].sum()) for year in study.years]) for it in sources]
    demand = demand_of(study)
    lines.append(("demand", [sum(demand[it] or 0.0 for it in places[year.name]) for year in study.years]))
    shown = energy_unit(study.summary.units, [it for _, line in lines for it in line])
    decimals = decimals_for(shown.of(it) for _, line in lines for it in line)
    rows = [[words, *(number(shown.of(it), decimals) for it in line)] for words, line in lines]
    columns = [word_column("source"), *(Column(year.name, shown.name) for year in study.years)]
    marks = [*([""] * len(sources)), GIVEN]
    note = "Exports and charging are below 0."
    return Table("Energy by source and year, mean over scenarios", ESTIMATED, columns, rows, note, row_marks=marks)


WORDS = "A price is what one more MWh of demand would cost by the trained plan, undiscounted. It is estimated; nothing is proved of it."


def prices_section(study: ShownStudy) -> Section:
    """The section of prices."""
    prices = study.table("price_quantiles")
    blocks: List[Block] = [Missing("price_quantiles.csv is not there: prices are not known.")]
    if prices is not None:
        blocks = [Paragraph(_price_words(study)), _fans(study, prices), _prices_by_year(study, prices)]
    return Section("prices", "What energy is worth", blocks)


def _price_words(study: ShownStudy) -> str:
    """What a price is, and in how many scenarios prices were looked for where the summary says so."""
    count = study.summary.prices.get("scenarios")
    return WORDS if count is None else f"{WORDS} Prices were looked for in {count:,} scenarios."


def _pairs(study: ShownStudy, prices: Any) -> List[Any]:
    """Buses and blocks in the order of the study."""
    buses = in_order(list(prices["bus"]), study.summary.buses)
    blocks = in_order(list(prices["block"]), list(study.summary.stages[0].hours))
    there = {*zip(prices["bus"], prices["block"])}
    return [(bus, block) for bus in buses for block in blocks if (bus, block) in there]


def _label(prices: Any, bus: str, block: str) -> str:
    return bus if prices["block"].nunique() < 2 else f"{bus}, {block}"


def _fans(study: ShownStudy, prices: Any) -> Figure:
    scale = 1 / price_unit(study.summary.units, "").divisor
    drawings = [_fan(study, prices, bus, block, scale) for bus, block in _pairs(study, prices)]
    return Figure("Prices by bus", ESTIMATED, drawings, CUT_OFF, FAN_KEYS)


def _fan(study: ShownStudy, prices: Any, bus: str, block: str, scale: float) -> Any:
    rows = prices[(prices["bus"] == bus) & (prices["block"] == block)].sort_values("stage")
    numbers = [int(it) for it in rows["stage"]]
    unit, label = _unit(study, rows), _label(prices, bus, block)
    shown = {it: [float(value) * scale for value in rows[it]] for it in ("p05", "p10", "p25", "p50", "p75", "p90", "p95", "least", "greatest")}
    dearest = max(range(len(numbers)), key=lambda place: shown["p50"][place])
    words = f"{label}: the median is greatest in {study.summary.stage(numbers[dearest]).name}, {shown['p50'][dearest]:,.1f} {unit}."
    return draw_fan(Fan(label, unit, study.edges(numbers), shown), study.dates, words)


def _unit(study: ShownStudy, rows: Any) -> str:
    """The unit of the file, where numbers are as they are there; else that of the study."""
    given = str(rows["unit"].iloc[0])
    return given if given and study.summary.units.money_scale == 1 else price_unit(study.summary.units, study.summary.units.energy).name


def _prices_by_year(study: ShownStudy, prices: Any) -> Table:
    """Means over scenarios and hours of each year, with the greatest 95 per cent quantile of its stages."""
    scale = 1 / price_unit(study.summary.units, "").divisor
    pairs = _pairs(study, prices)
    found = [[it for year in study.years for it in _of_year(study, prices, pair, year)] for pair in _whole_and_blocks(prices, pairs)]
    decimals = decimals_for((it for row in found for it in row if it is not None), 3)
    labels = [f"{bus}, all blocks" if block is None else _label(prices, bus, block) for bus, block in _whole_and_blocks(prices, pairs)]
    rows = [[label, *(number(None if it is None else it * scale, decimals) for it in row)] for label, row in zip(labels, found)]
    unit = _unit(study, prices)
    parts = (Column("mean", unit), Column("95 %, greatest of the stages", unit))
    columns = [word_column("bus"), *(it for _ in study.years for it in parts)]
    note = "Means over scenarios and the year's hours. Behind each stands the greatest of its stages' prices that 1 of 20 scenarios is above."
    return Table("Prices by year", ESTIMATED, columns, rows, note, [(year.name, 2) for year in study.years])


def _whole_and_blocks(prices: Any, pairs: Sequence[Any]) -> List[Any]:
    """Each bus as a whole and then its blocks, where there are several."""
    if prices["block"].nunique() < 2:
        return list(pairs)
    buses = dict.fromkeys(bus for bus, _ in pairs)
    return [it for bus in buses for it in ((bus, None), *(pair for pair in pairs if pair[0] == bus))]


def _of_year(study: ShownStudy, prices: Any, pair: Any, year: Year) -> List[Optional[float]]:
    bus, block = pair
    kept = prices[(prices["bus"] == bus) & prices["stage"].isin(year.numbers)]
    kept = kept if block is None else kept[kept["block"] == block]
    if not len(kept):
        return [None, None]
    hours = [study.summary.stage(stage).hours.get(name, study.summary.stage(stage).length) for stage, name in zip(kept["stage"], kept["block"])]
    mean = sum(float(price) * long for price, long in zip(kept["mean"], hours)) / (sum(hours) or 1.0)
    return [mean, float(kept["p95"].max())]
