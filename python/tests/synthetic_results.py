"""Draws a folder of results that looks like one of a study, with no study behind it: for tests of the report's size and for looking at it.

The water, the prices and the costs follow rules of thumb; nothing is optimal, and no number is of use for anything else.
"""
from __future__ import annotations

import json
from datetime import date
from itertools import product
from pathlib import Path
from typing import Dict, List, NamedTuple

import numpy
import pandas

RESERVOIRS = (
    ("aure", "north", 900.0), ("bygd", "north", 250.0), ("gland", "north", 120.0), ("dyrs", "middle", 600.0), ("evje", "middle", 200.0),
    ("fjor", "middle", 150.0), ("hama", "south", 450.0), ("ilse", "south", 90.0),
)
BUSES = {"north": 480.0, "middle": 420.0, "south": 760.0}
THERMALS = (
    ("coal", "south", 400.0, 38.0), ("gas", "south", 350.0, 62.0), ("biomass", "middle", 90.0, 30.0), ("oil", "north", 160.0, 140.0),
    ("diesel", "middle", 80.0, 210.0),
)
LINES = {"north to middle": ("north", "middle"), "middle to south": ("middle", "south")}
BLOCKS = {"peak": 0.2, "day": 0.45, "night": 0.35}
BLOCK_FACTORS = {"peak": 1.25, "day": 1.08, "night": 0.78}
MEMBERS = ("mean", "least", "p05", "p10", "p25", "p50", "p75", "p90", "p95", "greatest")
ENERGY = 620.0
"""The energy of turbined water, MWh per hm3."""
DEFICIT_PRICE = 900.0


class Size(NamedTuple):
    """How large the folder is."""

    stages: int = 36
    scenarios: int = 1_000
    seed: int = 5


class Drawn(NamedTuple):
    """What was drawn: rows of decisions as frames, costs by scenario and stage, prices by bus and block."""

    decisions: List[pandas.DataFrame]
    costs: numpy.ndarray
    prices: Dict[tuple, numpy.ndarray]
    volumes: Dict[str, numpy.ndarray]
    deficits: Dict[tuple, numpy.ndarray]


def draw_results(folder: Path, size: Size = Size()) -> Path:
    """Writes all files of a folder of results but the page."""
    folder.mkdir(parents=True, exist_ok=True)
    days = [date(2026 + (it // 12), it % 12 + 1, 1) for it in range(size.stages + 1)]
    hours = [{block: round(24 * (later - day).days * part, 1) for block, part in BLOCKS.items()} for day, later in zip(days, days[1:])]
    drawn = _drawn(size, days, hours)
    pandas.concat(drawn.decisions).sort_values(["scenario", "stage"], kind="stable").to_csv(folder / "decisions.csv", index=False)
    _write_costs(folder, size, days, drawn)
    _write_quantiles(folder, days, drawn)
    _write_water_values(folder, size)
    _write_rest(folder, size, days, hours, drawn)
    return folder


def _drawn(size: Size, days, hours) -> Drawn:
    generator = numpy.random.default_rng(size.seed)
    drawn = Drawn([], numpy.zeros((size.scenarios, size.stages)), {}, {}, {})
    wetness = numpy.zeros(size.scenarios)
    volume = {name: numpy.full(size.scenarios, 0.62 * most) for name, _, most in RESERVOIRS}
    for place in range(size.stages):
        wetness = 0.55 * wetness + generator.normal(0, 0.33, size.scenarios)
        _draw_stage(generator, drawn, Moment(place, days[place], hours[place]), wetness, volume)
    return drawn


def _season(month: int) -> float:
    """How much comes in in this month, of a mean of one: snow melts in May and June."""
    return (0.35, 0.3, 0.35, 0.8, 2.4, 2.6, 1.3, 0.9, 1.0, 1.0, 0.6, 0.4)[month - 1]


def _draw_stage(generator, drawn: Drawn, moment: "Moment", wetness, volume) -> None:
    """Draws a stage, and changes the volumes to those after it."""
    scarcity = _scarcity(moment, volume)
    hydro = sum(_draw_reservoir(generator, drawn, moment, it, (wetness, scarcity, volume)) for it in RESERVOIRS)
    _draw_energy(generator, drawn, moment, hydro, scarcity)


class Moment(NamedTuple):
    """A stage of the calendar: its place from 0, its first day, and the hours of its blocks."""

    place: int
    day: date
    hours: Dict[str, float]

    @property
    def length(self) -> float:
        """The hours of all blocks."""
        return sum(self.hours.values())


def _scarcity(moment: Moment, volume):
    """How dear water is, from near 0 to 1.6: dearer where there is little, and before the snow melts."""
    filled = sum(volume.values()) / sum(it[2] for it in RESERVOIRS)
    return numpy.clip(1.25 - 1.6 * filled + 0.35 * (moment.day.month in (2, 3, 4)), 0.02, 1.6)


def _draw_reservoir(generator, drawn: Drawn, moment: Moment, reservoir, state):
    """Draws what comes in, turbines what is wished for, and gives the energy of it."""
    (name, _, greatest), (wetness, scarcity, volume), month = reservoir, state, moment.day.month
    inflow = greatest * 0.28 * _season(month) * numpy.exp(wetness + generator.normal(0, 0.2, len(wetness)) - 0.1)
    wish = greatest * 0.3 * (1.25 if month in (12, 1, 2, 3) else 0.85) * (1.15 - 0.45 * scarcity)
    turbined = numpy.minimum(wish, 0.98 * (volume[name] + inflow))
    left = volume[name] + inflow - turbined
    spilled = numpy.maximum(0, left - greatest)
    volume[name] = left - spilled
    drawn.volumes.setdefault(name, []).append(volume[name])
    of_stage = {"volume": volume[name], "inflow": inflow, "spilled": spilled, "outflow": turbined + spilled}
    for quantity, values in of_stage.items():
        _rows(drawn, moment, "", (name, quantity), values)
    _blocks(drawn, moment, name, "turbined", turbined)
    _blocks(drawn, moment, name, "generation", turbined * ENERGY)
    return turbined * ENERGY


def _draw_energy(generator, drawn: Drawn, moment: Moment, hydro, scarcity) -> None:
    """Serves the demand by wind, water, imports and thermals in the order of their costs; what is left is missing."""
    month, long = moment.day.month, moment.length
    season = 1 + 0.22 * numpy.cos((month - 1) / 6 * numpy.pi)
    wind = numpy.clip(generator.normal(0.34, 0.1, len(scarcity)), 0.05, 0.8) * 420 * long * (1.2 if month in (10, 11, 12, 1, 2) else 0.85)
    rest = sum(BUSES.values()) * season * long - hydro - wind
    bought, sold = numpy.clip(rest * 0.25, 0, 200 * long), numpy.clip(-rest, 0, 300 * long)
    for name, quantity, values in (("ridge", "taken", wind), ("market", "imported", bought), ("market", "exported", sold)):
        _blocks(drawn, moment, name, quantity, values)
    rest, cost = _burn(drawn, moment, numpy.maximum(rest - bought, 0))
    drawn.costs[:, moment.place] = (cost + bought * 55 - sold * 22 + rest * DEFICIT_PRICE) * 1.05 ** (-moment.place / 12)
    _draw_prices(generator, drawn, moment, rest, scarcity)
    _draw_lines(generator, drawn, moment, len(scarcity))


def _burn(drawn: Drawn, moment: Moment, rest):
    """What thermals leave of the rest, and what they cost."""
    cost = numpy.zeros(len(rest))
    for name, _, power, price in sorted(THERMALS, key=lambda it: it[3]):
        made = numpy.minimum(rest, power * moment.length)
        rest, cost = rest - made, cost + made * price
        _blocks(drawn, moment, name, "generation", made)
    return rest, cost


def _draw_prices(generator, drawn: Drawn, moment: Moment, rest, scarcity) -> None:
    for (bus, share), (block, part) in product(zip(BUSES, (0.2, 0.3, 0.5)), BLOCKS.items()):
        missing = rest * share * part
        drawn.deficits[moment.place, block, bus] = missing
        _rows(drawn, moment, block, (bus, "deficit"), missing)
        price = (18 + 95 * scarcity**1.6 + 320 * (missing > 0)) * BLOCK_FACTORS[block] * generator.normal(1, 0.08, len(rest))
        drawn.prices[moment.place, block, bus] = price


def _draw_lines(generator, drawn: Drawn, moment: Moment, count: int) -> None:
    for line, (quantity, mean) in product(LINES, (("sent", 90), ("sent_back", -20))):
        _blocks(drawn, moment, line, quantity, numpy.clip(generator.normal(mean, 40, count), 0, 200) * moment.length)


def _blocks(drawn: Drawn, moment: Moment, name: str, quantity: str, values) -> None:
    """Rows of each block, by its share of the hours."""
    for block, part in BLOCKS.items():
        _rows(drawn, moment, block, (name, quantity), values * part)


def _rows(drawn: Drawn, moment: Moment, block: str, series, values) -> None:
    scenarios = numpy.arange(1, len(values) + 1)
    frame = {"scenario": scenarios, "stage": moment.place + 1, "date": moment.day.isoformat(), "block": block, "element": series[0]}
    drawn.decisions.append(pandas.DataFrame({**frame, "quantity": series[1], "value": numpy.round(values, 3)}))


def _write_costs(folder: Path, size: Size, days, drawn: Drawn) -> None:
    final = sum(it[-1] for it in drawn.volumes.values()) * ENERGY * 28
    drawn.costs[:, -1] -= final
    scenarios, stages = numpy.meshgrid(numpy.arange(1, size.scenarios + 1), numpy.arange(1, size.stages + 1), indexing="ij")
    dates = numpy.array([it.isoformat() for it in days[:-1]])[stages.ravel() - 1]
    frame = {"scenario": scenarios.ravel(), "stage": stages.ravel(), "date": dates, "cost": numpy.round(drawn.costs.ravel(), 2)}
    pandas.DataFrame(frame).to_csv(folder / "costs.csv", index=False)


def _quantiles(values) -> List[float]:
    found = numpy.quantile(values, [0, 0.05, 0.1, 0.25, 0.5, 0.75, 0.9, 0.95, 1])
    return [round(float(it), 3) for it in (values.mean(), *found)]


def _write_quantiles(folder: Path, days, drawn: Drawn) -> None:
    stored = [
        [place + 1, days[place].isoformat(), name, "hm3", *_quantiles(it)] for name, line in drawn.volumes.items() for place, it in enumerate(line)
    ]
    pandas.DataFrame(stored, columns=["stage", "date", "reservoir", "unit", *MEMBERS]).to_csv(folder / "storage_quantiles.csv", index=False)
    prices = [[place + 1, days[place].isoformat(), block, bus, "EUR/MWh", *_quantiles(it)] for (place, block, bus), it in drawn.prices.items()]
    pandas.DataFrame(prices, columns=["stage", "date", "block", "bus", "unit", *MEMBERS]).to_csv(folder / "price_quantiles.csv", index=False)
    rows = [
        [place + 1, days[place].isoformat(), block, bus, (it > 0).mean(), it.mean(), numpy.quantile(it, 0.95), it.max()]
        for (place, block, bus), it in drawn.deficits.items()
    ]
    columns = ["stage", "date", "block", "bus", "share_of_scenarios", "mean", "p95", "greatest"]
    pandas.DataFrame(rows, columns=columns).to_csv(folder / "deficits.csv", index=False)


def _write_water_values(folder: Path, size: Size) -> None:
    grid = [round(float(it), 3) for it in numpy.linspace(0, 1, 21)]
    rows = [
        [place + 1, f"stage {place + 1}", name, round(part * most, 2), round(_water_value(place % 12 + 1, part), 2)]
        for place, (name, _, most), part in product(range(size.stages), RESERVOIRS, grid)
    ]
    pandas.DataFrame(rows, columns=["stage", "node", "reservoir", "volume", "value"]).to_csv(folder / "water_values.csv", index=False)


def _water_value(month: int, part: float) -> float:
    """What a hm3 is worth at this part of the greatest volume, in steps as by cuts."""
    winter = 1.5 if month in (1, 2, 3, 4) else 0.8
    return ENERGY * (22 + 75 * winter * float(numpy.exp(-3.2 * round(part * 8) / 8)))


def _write_rest(folder: Path, size: Size, days, hours, drawn: Drawn) -> None:
    totals = drawn.costs.sum(axis=1)
    mean, half = float(totals.mean()), float(1.96 * totals.std(ddof=1) / size.scenarios**0.5)
    bound = mean * 0.991
    rows = [[it, bound - 0.9 * abs(bound) * 0.975**it, *_compared(it, mean, half), it * 0.08] for it in range(1, 401)]
    columns = ["iteration", "bound", "mean", "half_width", "gap", "seconds"]
    pandas.DataFrame(rows, columns=columns).to_csv(folder / "bounds.csv", index=False)
    residuals = [[it + 1, size.scenarios, 0, 0] for it in range(size.stages)]
    pandas.DataFrame(residuals, columns=["stage", "scenarios", "greatest", "missed"]).to_csv(folder / "residuals.csv", index=False)
    ledger = ["discount: rounded to multiples of 0.000001", "inflow of aure: rounded to multiples of 0.1 hm3", "all productivities: exact"]
    (folder / "ledger.txt").write_text("\n".join(ledger) + "\n", encoding="utf-8")
    summary = _summary(size, days, hours, (bound, mean, half))
    (folder / "summary.json").write_text(json.dumps(summary, indent=1), encoding="utf-8")


def _compared(iteration: int, mean: float, half: float) -> list:
    """The mean, half of its interval and the gap, each fiftieth iteration."""
    return [mean * (1 + 0.4 * 0.98**iteration), half * 2.2, None] if iteration % 50 == 0 else [None] * 3


def _elements(size: Size, days) -> List[dict]:
    """All elements of the system."""
    lower_in_spring = [0.93 if day.month in (5, 6) else 1 for day in days[:-1]]
    found = [
        {"name": name, "kind": "reservoir", "bus": bus, "minimum": [0.0] * size.stages, "maximum": [most * it for it in lower_in_spring]}
        for name, bus, most in RESERVOIRS
    ]
    found += [{"name": it, "kind": "thermal", "bus": bus, "minimum": 0, "maximum": [power] * size.stages} for it, bus, power, _ in THERMALS]
    found += [{"name": "ridge", "kind": "renewable", "bus": "north"}, {"name": "market", "kind": "import", "bus": "south"}]
    found += [{"name": "market", "kind": "export", "bus": "south"}]
    return found + [{"name": it, "kind": "line", "source": source, "target": target} for it, (source, target) in LINES.items()]


def _calendar(size: Size, days, hours) -> List[dict]:
    return [{"stage": it + 1, "date": days[it].isoformat(), "name": f"{days[it]:%B %Y}", "hours": hours[it]} for it in range(size.stages)]


def _demand(size: Size) -> List[dict]:
    seasons = [1 + 0.22 * float(numpy.cos(it % 12 / 6 * numpy.pi)) for it in range(size.stages)]
    return [
        {"stage": it + 1, "block": block, "bus": bus, "power": round(power * factor * season, 2)}
        for (it, season), (block, factor), (bus, power) in product(enumerate(seasons), BLOCK_FACTORS.items(), BUSES.items())
    ]


def _summary(size: Size, days, hours, costs) -> dict:
    bound, mean, half = costs
    return {
        "title": "Northern valleys, three years", "made_by": "hydroplan, drawn for a test",
        "units": {"money": "EUR", "money_scale": 1, "energy": "MWh", "volume": "hm3", "power": "MW"},
        "calendar": _calendar(size, days, hours), "elements": _elements(size, days), "buses": list(BUSES),
        "inflow": {"method": "6 groups of years, seed 1", "stations": [it[0] for it in RESERVOIRS], "note": "1981 to 2020, months"},
        "training": {"iterations": 400, "seconds": 31.2, "unanswered": 0, "stopped": "the gap is below 1 per cent", "seed": 7},
        "certified": {"bound": bound, "bound_text": "no policy of the compiled problem costs less"},
        "estimated": {
            "mean": mean, "half_width": half, "confidence": 0.95, "gap": mean - bound, "gap_share": (mean - bound) / abs(bound),
            "scenarios": size.scenarios, "seed": 11,
        },
        "upper": None, "demand": _demand(size), "ledger_lines": 3, "data_digest": "d41d8cd98f00b204", "options_digest": "9800998ecf8427e0",
    }
