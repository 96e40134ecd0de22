"""The folder results of a study: CSV files, the ledger and summary.json, of a journal that was trained.

The summary has what the study is, what is certified, and what is estimated.
"""
from __future__ import annotations

import json
import math
from itertools import product
from pathlib import Path
from typing import Any, Dict, Iterator, List, Optional, Sequence, Tuple

from .. import __version__
from ..plants import Battery, Bus, Reservoir, Thermal
from ..plants.elements import Element, Numbers
from ..results import Evaluation, Training, half_width
from ..runs import check, evaluate
from ..tables import package
from ..tools.limits import GREATEST, branches, denominator
from .exporting import Exporter, ResultFile, Scenarios, write_rows, write_text
from .prices import WATER_VALUES, Prices, cuts_by_node, sampled_prices, water_values
from .simulating import SimulatedPolicy, parts_of
from .study import Study
from .training import History, KeptJournal

UNITS = {"money_scale": 1, "energy": "MWh", "volume": "hm3", "power": "MW"}
CERTIFIED = "no policy of the compiled problem costs less"
UPPER = "the trained policy costs at most"
ESTIMATED = "the mean of simulated costs, with half the width of its confidence interval: an estimate"
PRICED = "estimates: dual values of the energy rows at simulated states, with the certified cuts, in the first scenarios alone"


def summary_of(study: Study, training: Training, kept: Scenarios, upper: Optional[Evaluation], others: Dict[str, Any]) -> Dict[str, Any]:
    """All members of summary.json; `others` has the seconds of all trainings of the journal, and what is said of prices."""
    return {
        "title": study.title, "made_by": f"hydroplan {__version__}", "units": {"money": study.money, **UNITS},
        "calendar": list(_calendar(study)), "elements": list(_elements(study)),
        "buses": [it.name for it, _ in study.system.of_kind(Bus)],
        "inflow": {"method": study.inflow.method, "stations": list(study.inflow.stations), "note": "; ".join(study.inflow.notes)},
        "training": {
            "iterations": training.iterations, "seconds": round(others["seconds"], 3), "unanswered": training.unanswered,
            "stopped": training.stopped, "seed": training.seed,
        },
        "certified": {"bound": training.bound, "bound_text": CERTIFIED}, "estimated": _estimated(study, training, kept),
        "upper": None if upper is None or upper.upper is None else {"cost": upper.upper, "text": UPPER},
        "prices": {**others["prices"], "text": PRICED}, "demand": list(_demand(study, kept)), "simulation_unanswered": int(kept.unanswered),
        "ledger_lines": len(study.compiled.ledger), "data_digest": study.digest, "options_digest": study.options.digest(),
    }


def _calendar(study: Study) -> Iterator[Dict[str, Any]]:
    for stage, date in enumerate(study.calendar.dates, 1):
        hours = {block: float(it) for block, it in study.system.horizon.hours[stage - 1].items()}
        yield {"stage": stage, "date": date.isoformat(), "name": study.calendar.name(stage), "hours": hours}


def _elements(study: Study) -> Iterator[Dict[str, Any]]:
    """Each element with its kind, the elements that it names, and its least and greatest volume, power or store."""
    for it, numbers in study.system.of_kind(Element):
        found = {"name": it.name, "kind": it.KIND, **{link: getattr(it, link) for link in it.LINKS}}
        yield {**found, **_limits(study, it, numbers)}


def _limits(study: Study, it: Element, numbers: Numbers) -> Dict[str, List[float]]:
    """One number a stage: volumes in hm3, stores in MWh, powers in MW as the mean over the stage's hours."""
    stages = range(1, study.calendar.stages + 1)
    if isinstance(it, Reservoir):
        return {member: [float(numbers.at(member, stage)) for stage in stages] for member in ("minimum", "maximum")}
    if isinstance(it, Battery):
        return {"minimum": [0.0 for _ in stages], "maximum": [float(numbers.at("capacity", stage)) for stage in stages]}
    if isinstance(it, Thermal):
        return {member: [_thermal_power(study, numbers, member, stage) for stage in stages] for member in ("minimum", "maximum")}
    members = [member for member in ("minimum", "maximum") if member in numbers.tables and it.KIND != "pump"]
    return {member: [_mean_power(study, numbers, member, stage) for stage in stages] for member in members}


def _mean_power(study: Study, numbers: Numbers, member: str, stage: int) -> float:
    hours = study.system.horizon.hours[stage - 1]
    return float(sum(numbers.at(member, stage, block) * it for block, it in hours.items()) / sum(hours.values()))


def _thermal_power(study: Study, numbers: Numbers, member: str, stage: int) -> float:
    """The power of a thermal that maintenance leaves; its maximum may stand in the tiers of its cost."""
    available = float(numbers.at("availability", stage))
    tiers = numbers.tiers("cost") or ()
    if member == "minimum" or tiers[0].size is None:
        return available * _mean_power(study, numbers, member, stage)
    hours = study.system.horizon.hours[stage - 1]
    energy = sum(tier.size.at(stage, block) * it for tier in tiers if tier.size is not None for block, it in hours.items())
    return available * float(energy / sum(hours.values()))


def _estimated(study: Study, training: Training, kept: Scenarios) -> Dict[str, Any]:
    """The mean of simulated costs beside the bound."""
    chosen, confidence = study.options.simulation, study.options.stop.confidence
    costs = [float(it) for it in kept.costs.sum(axis=1)]
    mean = float(package("numpy").mean(costs))
    gap = mean - training.bound
    return {
        "mean": mean, "half_width": half_width(costs, confidence), "confidence": confidence, "gap": gap,
        "gap_share": gap / abs(mean) if mean else 0.0, "scenarios": chosen.scenarios, "seed": chosen.seed, "text": ESTIMATED,
    }


def _demand(study: Study, kept: Scenarios) -> Iterator[Dict[str, Any]]:
    """The mean power that each bus asks for, by stage and block: simulated where it is random."""
    tables = {bus.name: numbers.tables["demand"] for bus, numbers in study.system.of_kind(Bus)}
    stages = range(1, study.calendar.stages + 1)
    for (at, (bus, block)), stage in product(enumerate(kept.places), stages):
        power = float(tables[bus].at(stage, block))
        if tables[bus].station is not None:
            hours = float(study.system.horizon.hours[stage - 1][block])
            power = float(package("numpy").mean(kept.demands[:, stage - 1, at])) / hours
        yield {"stage": stage, "block": block, "bus": bus, "power": power}


RESULTS = "results"
QUANTILES = {"least": 0.0, "p05": 0.05, "p10": 0.1, "p25": 0.25, "p50": 0.5, "p75": 0.75, "p90": 0.9, "p95": 0.95, "greatest": 1.0}
MOST_BRANCHES = 20_000
# less than this of a deficit, in MWh, is rounding
NOTICED = 0.001


def write_results(study: Study, training: Training, journal: KeptJournal) -> Dict[str, Any]:
    """Simulates, writes all files of the folder results, summary.json last, and returns what that has."""
    results = study.folder / RESULTS
    results.mkdir(exist_ok=True)
    write_text(results / "ledger.txt", list(study.compiled.ledger))
    _write_bounds(results, training, journal.history)
    chosen = study.options.simulation
    parts = parts_of(study.compiled, chosen.scenarios, chosen.seed)
    kept = Exporter(study, chosen.scenarios).export(SimulatedPolicy(study.compiled, journal.path, parts), results)
    _write_storage(study, results, kept)
    _write_deficits(study, results, kept)
    _write_residuals(results, kept, chosen.scenarios)
    cuts = cuts_by_node(study.compiled, check(study.compiled, journal.path))
    write_rows(results / "water_values.csv", WATER_VALUES, water_values(study, cuts, kept))
    prices, unsolved = sampled_prices(study, cuts, kept)
    _write_prices(study, results, prices)
    others = {"seconds": journal.history.spent, "prices": {"scenarios": len(kept.sampled), "unsolved": unsolved}}
    found = summary_of(study, training, kept, _evaluated(study, journal), others)
    with ResultFile(results / "summary.json") as file:
        json.dump(_finite(found), file, ensure_ascii=False, indent=1)
        file.write("\n")
    return found


def _evaluated(study: Study, journal: KeptJournal) -> Optional[Evaluation]:
    """What the whole policy costs; none where its tree has too many branches for that."""
    problem = json.loads(study.compiled.problem)
    if branches(problem) > MOST_BRANCHES or denominator(problem) > GREATEST[6]:
        return None
    return evaluate(study.compiled, journal.path)


def _finite(value: Any) -> Any:
    """The same with null in the place of numbers that JSON does not have."""
    if isinstance(value, dict):
        return {key: _finite(it) for key, it in value.items()}
    if isinstance(value, list):
        return [_finite(it) for it in value]
    return None if isinstance(value, float) and not math.isfinite(value) else value


def _write_bounds(results: Path, training: Training, history: History) -> None:
    names = ("iteration", "bound", "mean", "half_width", "gap", "seconds")
    write_rows(results / "bounds.csv", names, _bounds(training, history))


def _bounds(training: Training, history: History) -> Iterator[Sequence[Any]]:
    for iteration, bound in enumerate(training.bounds, 1):
        told = history.checks.get(iteration)
        compared = (None, None, None) if told is None else (told.mean, told.half_width, told.gap)
        yield (iteration, bound, *compared, history.at(iteration))


def _quantiles(values: Any) -> List[float]:
    """The mean and the quantiles of numbers, by linear interpolation."""
    numpy = package("numpy")
    return [float(numpy.mean(values)), *map(float, numpy.quantile(values, list(QUANTILES.values())))]


def _write_storage(study: Study, results: Path, kept: Scenarios) -> None:
    names = ("stage", "date", "reservoir", "unit", "mean", *QUANTILES)
    rows = (
        (stage, date.isoformat(), name, "hm3", *_quantiles(kept.volumes[:, stage - 1, at]))
        for at, name in enumerate(kept.reservoirs) for stage, date in enumerate(study.calendar.dates, 1)
    )
    write_rows(results / "storage_quantiles.csv", names, rows)


def _write_prices(study: Study, results: Path, prices: Prices) -> None:
    """The quantiles of the marginal costs, by bus, block and stage."""
    names = ("stage", "date", "block", "bus", "unit", "mean", *QUANTILES)
    unit = f"{study.money}/MWh"
    order: List[Tuple[str, str, int]] = sorted((bus, block, stage) for stage, bus, block in prices)
    rows = (
        (stage, study.calendar.dates[stage - 1].isoformat(), block, bus, unit, *_quantiles(prices[stage, bus, block]))
        for bus, block, stage in order
    )
    write_rows(results / "price_quantiles.csv", names, rows)


def _write_deficits(study: Study, results: Path, kept: Scenarios) -> None:
    """Energy that is not served: in how many scenarios, and how much."""
    numpy = package("numpy")
    names = ("stage", "date", "block", "bus", "share_of_scenarios", "mean", "p95", "greatest")
    write_rows(results / "deficits.csv", names, (
        (
            stage, date.isoformat(), block, bus, float((values > NOTICED).mean()), float(values.mean()),
            float(numpy.quantile(values, 0.95)), float(values.max()),
        )
        for at, (bus, block) in enumerate(kept.places) for stage, date in enumerate(study.calendar.dates, 1)
        for values in [kept.deficits[:, stage - 1, at]]
    ))


def _write_residuals(results: Path, kept: Scenarios, scenarios: int) -> None:
    rows = ((at, scenarios, f"{greatest:.12f}", int(missed)) for at, (greatest, missed) in enumerate(zip(kept.greatest, kept.missed), 1))
    write_rows(results / "residuals.csv", ("stage", "scenarios", "greatest", "missed"), rows)
