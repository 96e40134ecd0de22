"""Volumes, energy and prices of a folder of results as tables in wide form."""
from __future__ import annotations

import os
from pathlib import Path
from typing import Any, List, NamedTuple, Optional, Union

from hydroplan.report.folder import QUANTILES, ReportError, Results
from hydroplan.tables import package

STORAGE, GENERATION, PRICES = WHAT = ("storage", "generation", "prices")
COLUMN_NUMBERS = QUANTILES
SHARES = {"least": 0.0, "greatest": 1.0, "p05": 0.05, "p10": 0.1, "p25": 0.25, "p50": 0.5, "p75": 0.75, "p90": 0.9, "p95": 0.95}
OF_DECISIONS = {STORAGE: ("volume",), GENERATION: ("generation", "taken", "imported", "exported", "discharged", "charged", "deficit")}
PLAIN = {"volume", "generation", "taken", "imported"}


class Choice(NamedTuple):
    """Which numbers a table has.

    `number` is `mean`, `p50` and so on over scenarios. With `scenario` the numbers are those of one scenario instead, with
    `each_scenario` those of every one, a row for each scenario and date. `by_block` gives each load block a column of its own.
    """

    what: str
    number: str = "mean"
    scenario: Optional[int] = None
    each_scenario: bool = False
    by_block: bool = False


def wide_table(results_folder: Union[str, "os.PathLike[str]"], choice: Choice) -> Any:
    """A DataFrame with the columns `stage`, `date` (`scenario` before them where each has rows), and one for each element.

    Volumes stand at the end of the stage, energy is the sum over its blocks, prices are means over its blocks weighted by their hours;
    all in the units of the files. ReportError where a file or the scenario is not there.
    """
    results = Results(Path(results_folder))
    of_scenarios = choice.scenario is not None or choice.each_scenario
    if choice.what == PRICES:
        if of_scenarios:
            raise ReportError("prices of single scenarios are not kept: price_quantiles.csv has their quantiles")
        table = _prices(results, choice)
    elif choice.what == STORAGE and not of_scenarios:
        table = _stored(results, choice)
    else:
        table = _decided(results, choice)
    return _with_dates(results, table)


def _stored(results: Results, choice: Choice) -> Any:
    table = _needed(results, "storage_quantiles")
    return _in_order(table.pivot_table(choice.number, "stage", "reservoir", "first", observed=True), table["reservoir"], "storage_quantiles")


def _prices(results: Results, choice: Choice) -> Any:
    """The prices by bus; over blocks the means by hours, which only means allow."""
    table = _needed(results, "price_quantiles")
    if choice.by_block or table["block"].nunique() < 2:
        table["column"] = _labels(table, "bus", table["block"].nunique() > 1)
        return _in_order(table.pivot_table(choice.number, "stage", "column", "first"), table["column"], "price_quantiles")
    if choice.number != "mean":
        raise ReportError("quantiles of prices are those of a block: ask for each block by itself, or for the mean")
    hours = {it.number: it.hours for it in results.summary.stages}
    table["hours"] = [hours.get(stage, {}).get(block, 1.0) for stage, block in zip(table["stage"], table["block"])]
    table["weighted"] = table["mean"] * table["hours"]
    sums = table.groupby(["stage", "bus"], observed=True)[["weighted", "hours"]].sum()
    return _in_order((sums["weighted"] / sums["hours"]).unstack("bus"), table["bus"], "price_quantiles")


def _decided(results: Results, choice: Choice) -> Any:
    """A table from decisions.csv, of which each part is summed as it is read."""
    quantities = OF_DECISIONS[choice.what]
    parts = [it for it in (_part_in_wide_form(part, choice) for part in results.parts("decisions")) if it is not None]
    if not parts:
        scenario = "" if choice.scenario is None else f" of scenario {choice.scenario}"
        raise ReportError(f"{results.folder / 'decisions.csv'} is not there, or has no rows{scenario} with {' or '.join(quantities)}")
    by_scenario = package("pandas").concat(parts).groupby(level=["scenario", "stage"]).sum(min_count=1)
    if choice.what == GENERATION:
        by_scenario = by_scenario.fillna(0.0)
    if choice.each_scenario:
        return by_scenario
    groups = by_scenario.groupby(level="stage")
    return groups.mean() if choice.number == "mean" or choice.scenario is not None else groups.quantile(SHARES[choice.number])


def _part_in_wide_form(part: Any, choice: Choice) -> Optional[Any]:
    """The sums by scenario and stage, a column for each element, of a part's rows that are wanted; None where there are none."""
    rows = part["quantity"].isin(OF_DECISIONS[choice.what])
    rows = rows if choice.scenario is None else rows & (part["scenario"] == choice.scenario)
    found = part[rows].astype({"block": str, "element": str, "quantity": str})
    if not len(found):
        return None
    found["column"] = _labels(found, "element", choice.by_block and choice.what == GENERATION)
    sums = found.groupby(["scenario", "stage", "column"])["value"].sum()
    return _in_order(sums.unstack("column"), found["column"], "decisions")


def _labels(table: Any, name: str, with_block: bool) -> List[str]:
    """The heads of columns: the name, what is not its plain quantity, and the block where it is asked for."""
    quantities = table["quantity"] if "quantity" in table else ["volume"] * len(table)
    names = [it if quantity in PLAIN else f"{it} {quantity}" for it, quantity in zip(table[name], quantities)]
    return [f"{it}, {block}" if with_block and block else it for it, block in zip(names, table["block"])]


def _in_order(table: Any, names: Any, file: str) -> Any:
    """The columns in the order in which the file has them; ReportError where the rows of one have no number."""
    wanted = list(dict.fromkeys(names))
    missing = next((it for it in wanted if it not in table.columns), None)
    if missing is not None:
        raise ReportError(f'{file}.csv: the rows of "{missing}" have no number')
    return table[wanted]


def _needed(results: Results, name: str) -> Any:
    table = results.table(name)
    if table is None:
        raise ReportError(f"{results.folder / f'{name}.csv'} is not there, or has no rows")
    return table


def _with_dates(results: Results, table: Any) -> Any:
    """The table with its keys as columns, and the first day of each stage behind its number."""
    dates = {it.number: it.start.isoformat() for it in results.summary.stages}
    found = table.reset_index()
    found.columns.name = None
    found.insert(list(found.columns).index("stage") + 1, "date", [dates.get(int(it), "") for it in found["stage"]])
    return found
