"""What the study costs, how sure that is, and how the numbers were made."""
from __future__ import annotations

from typing import Any, List, Mapping, Optional, Sequence

from ...tables import package
from ..charts import Convergence, draw_convergence, draw_histogram
from ..content import BOTH, CERTIFIED, ESTIMATED, GIVEN, Block, Column, Figure, Key, Listing, Missing, Paragraph, Section, Table, word_column
from ..formats import Unit, decimals_for, money_unit, number, numbers, rounded_down, rounded_up, share
from ..shown_study import ShownStudy, costs_by_stage

FIGURES_OF_A_BOUND = 6
DEAREST = 0.05


def cost_section(study: ShownStudy) -> Section:
    """The section of costs, the bound and its convergence."""
    costs = costs_by_stage(study.results)
    blocks: List[Block] = [_between(study), *_convergence(study)]
    if costs is None:
        blocks.append(Missing("costs.csv is not there: nothing is known of the costs of single scenarios."))
    else:
        totals = costs.sum(axis=1).to_numpy()
        blocks += [_histogram(study, totals), _quantiles(study, totals), _by_year(study, costs)]
    return Section("cost", "What it costs, and how sure that is", blocks)


def cost_unit(study: ShownStudy) -> Unit:
    """The unit in which the whole cost is shown."""
    estimate = study.summary.estimate
    return money_unit(study.summary.units, [study.summary.bound, study.summary.upper, estimate.mean if estimate else None])


def bound_text(study: ShownStudy) -> str:
    """The certified bound, rounded down, without its unit."""
    unit, bound = cost_unit(study), study.summary.bound
    shown = 0.0 if bound is None else unit.of(bound)
    return rounded_down(shown, decimals_for([shown], FIGURES_OF_A_BOUND))


def mean_text(study: ShownStudy) -> str:
    """The estimated mean with half of its interval, without its unit."""
    unit, estimate = cost_unit(study), study.summary.estimate
    if estimate is None:
        return ""
    decimals = decimals_for([unit.of(estimate.mean)], FIGURES_OF_A_BOUND)
    half = "" if estimate.half_width is None else f" ± {number(unit.of(estimate.half_width), decimals)}"
    return number(unit.of(estimate.mean), decimals) + half


def _between(study: ShownStudy) -> Table:
    summary, unit = study.summary, cost_unit(study)
    rows, marks = [], []
    if summary.bound is not None:
        rows.append(["at least", bound_text(study), f"{summary.bound_text}. Proved of the problem that was compiled; rounded down here."])
        marks.append(CERTIFIED)
    if summary.upper is not None:
        shown = unit.of(summary.upper)
        rows.append(["at most", rounded_up(shown, decimals_for([shown], FIGURES_OF_A_BOUND)), f"{summary.upper_text}. Rounded up here."])
        marks.append(CERTIFIED)
    for row in _estimated_rows(study):
        rows.append(row)
        marks.append(ESTIMATED)
    columns = [word_column("expected cost"), Column("cost", unit.name), word_column("what is known of it")]
    return Table("Between what the expected cost lies", BOTH, columns, rows, row_marks=marks)


def _estimated_rows(study: ShownStudy) -> List[List[str]]:
    estimate, unit = study.summary.estimate, cost_unit(study)
    if estimate is None:
        return []
    seed = "" if estimate.seed is None else f" drawn with seed {estimate.seed}"
    words = f"mean of {estimate.scenarios:,} scenarios{seed}, with {share(estimate.confidence)} confidence by the normal distribution"
    rows = [["mean of the plan", mean_text(study), words]]
    if estimate.gap is not None:
        decimals = decimals_for([unit.of(estimate.mean)], FIGURES_OF_A_BOUND)
        part = "" if estimate.gap_share is None else f"{100 * estimate.gap_share:.2f} per cent. "
        below = "Below 0: the scenarios happened to be cheap ones. " if estimate.gap < 0 else ""
        words = f"{part}{below}By how much a better plan could be cheaper is at most this, as far as the mean is known."
        rows.append(["mean less bound", number(unit.of(estimate.gap), decimals), words])
    return rows


def _convergence(study: ShownStudy) -> List[Block]:
    bounds, unit = study.table("bounds"), cost_unit(study)
    if bounds is None:
        return [Missing("bounds.csv is not there: the way of the bound is not known.")]
    simulated = bounds.dropna(subset=["mean", "half_width"])
    estimate = study.summary.estimate
    final = None if estimate is None or estimate.half_width is None else (unit.of(estimate.mean), unit.of(estimate.half_width))
    means = [(float(row.iteration), unit.of(row.mean), unit.of(row.half_width)) for row in simulated.itertuples()]
    run = Convergence([float(it) for it in bounds["iteration"]], [unit.of(it) for it in bounds["bound"]], means, final)
    decimals = decimals_for(run.bounds, FIGURES_OF_A_BOUND)
    first, last = (rounded_down(it, decimals) for it in (run.bounds[0], run.bounds[-1]))
    words = f"The certified bound rises from {first} to {last} {unit.name} in {len(bounds)} iterations."
    keys = [Key("certified-line", "bound: certified", "line")]
    keys += [Key("estimate-dot", "mean of scenarios with its interval: estimated", "dot")] if run.simulated else []
    keys += [Key("estimate-band", "mean and interval at the end: estimated")] if final else []
    note = f"{words} A plan of least expected cost lies above the line, whatever was simulated."
    drawings = draw_convergence(run, unit.name, words)
    return [Figure("How the bound rose while the study was trained", BOTH, drawings, note, keys), _iterations(bounds, unit)]


def _iterations(bounds: Any, unit: Unit) -> Table:
    """Those iterations where scenarios were simulated, and the last one."""
    kept = bounds[bounds["mean"].notna() | (bounds["iteration"] == bounds["iteration"].max())]
    decimals = decimals_for([unit.of(it) for it in bounds["bound"]], FIGURES_OF_A_BOUND)
    estimates = [[number(unit.of(it), decimals) for it in (row.mean, row.half_width, row.gap)] for row in kept.itertuples()]
    rows = [
        [str(row.iteration), rounded_down(unit.of(row.bound), decimals), *estimated, number(row.seconds, 1)]
        for row, estimated in zip(kept.itertuples(), estimates)
    ]
    columns = [
        Column("iteration"), Column("bound", unit.name, mark=CERTIFIED), Column("mean", unit.name, mark=ESTIMATED),
        Column("± half of the interval", unit.name, mark=ESTIMATED), Column("mean less bound", unit.name, mark=ESTIMATED), Column("time", "s"),
    ]
    return Table("Iterations at which scenarios were simulated, and the last one", BOTH, columns, rows, is_folded=True)


def _histogram(study: ShownStudy, totals: Any) -> Figure:
    unit, summary = cost_unit(study), study.summary
    low, high = (float(it) for it in package("numpy").quantile(totals, [0.05, 0.95]))
    marks = [("estimate-line", unit.of(float(totals.mean())), "mean (estimated)")]
    marks += [("quantile", unit.of(low), "1 of 20 is cheaper"), ("quantile", unit.of(high), "1 of 20 is dearer")]
    if summary.bound is not None:
        marks.insert(0, ("certified-line", unit.of(summary.bound), "bound of the expected cost (certified)"))
    words = (
        f"Half of the {len(totals):,} scenarios cost less than {numbers([unit.of(float(package('numpy').median(totals)))])[0]} {unit.name}; "
        f"9 of 10 cost between {' and '.join(numbers([unit.of(low), unit.of(high)]))}."
    )
    note = f"{words} The bound is one of the expected cost, not of the cost of a scenario."
    drawing = draw_histogram("", [unit.of(float(it)) for it in totals], f"cost of a scenario, {unit.name}", marks, words)
    return Figure("How the costs of scenarios lie", ESTIMATED, [drawing], note, is_wide=True)


def _quantiles(study: ShownStudy, totals: Any) -> Table:
    numpy, unit = package("numpy"), cost_unit(study)
    shares = numpy.quantile(totals, [0, 0.05, 0.25, 0.5, 0.75, 0.95, 1])
    dearest = numpy.sort(totals)[-max(1, round(DEAREST * len(totals))):].mean()
    deviation = totals.std(ddof=1) if len(totals) > 1 else None
    heads = ("least", "5 %", "25 %", "median", "75 %", "95 %", "greatest", "mean", "standard deviation", "mean of the dearest twentieth")
    values: Sequence[Optional[float]] = [*shares, totals.mean(), deviation, dearest]
    row = numbers([None if it is None else unit.of(float(it)) for it in values])
    columns = [Column("scenarios"), *(Column(head, unit.name) for head in heads)]
    return Table("Costs of scenarios", ESTIMATED, columns, [[f"{len(totals):,}", *row]])


def _by_year(study: ShownStudy, costs: Any) -> Table:
    years = [(year, costs[[it for it in costs.columns if it in set(year.numbers)]].sum(axis=1)) for year in study.years]
    unit = money_unit(study.summary.units, [float(it.abs().max()) for _, it in years])
    found = [[float(it.mean()), *(float(it.quantile(part)) for part in (0.05, 0.5, 0.95))] for _, it in years]
    decimals = decimals_for(unit.of(it) for row in found for it in row)
    rows = [[year.name, *(number(unit.of(it), decimals) for it in row)] for (year, _), row in zip(years, found)]
    columns = [word_column("year"), *(Column(head, unit.name) for head in ("mean", "5 %", "median", "95 %"))]
    note = "Costs are discounted to the study's beginning. What the water that is left is worth counts in the last year, as a cost below 0."
    return Table("Costs by year", ESTIMATED, columns, rows, note)


TRAINING = (
    ("iterations", "iterations", ""), ("seconds", "time of training", "s"), ("unanswered", "answers of the solver that were of no use", ""),
    ("stopped", "stopped because", ""), ("seed", "seed of training", ""),
)
MOST_LINES = 1_000
LEDGER_NOTE = "The bound is certified of the problem in whole numbers. These lines say by how much that problem may differ from the study."
RESIDUAL_NOTE = (
    "By how much rounded decisions miss a row of their stage, in the row's unit. A policy whose decisions miss rows is not quite a plan."
)
MARKS = (
    (
        "certified",
        "Proved of the problem that was compiled from the study, whatever the solver answered: the bound, and the cost of a whole policy. "
        "The ledger says what was rounded on the way to that problem.",
    ),
    (
        "estimated",
        "From simulated scenarios, or by the cuts of the trained plan: means, intervals, quantiles, prices, water values. Other scenarios give "
        "other numbers.",
    ),
    ("given", "Put into the study by whoever made it: limits, demand, calendar."),
)


def making_section(study: ShownStudy) -> Section:
    """The section of how the study was made: what is given, trained and rounded."""
    blocks: List[Block] = [_about(study), *_ledger(study), *_residuals(study), _marks()]
    return Section("making", "How these numbers were made", blocks)


def _about(study: ShownStudy) -> Table:
    summary, inflow = study.summary, study.summary.inflow
    first, last = summary.stages[0], summary.stages[-1]
    rows = [
        ["calendar", f"{len(summary.stages)} stages, {first.start.isoformat()} to {last.end.isoformat()}"],
        ["load blocks", ", ".join(first.hours) or "one"],
        ["units", f"{_money(study)}; {summary.units.energy}, {summary.units.power}, {summary.units.volume}"],
        ["inflows", _words(inflow.get("method"))],
        ["stations", _words(inflow.get("stations"))],
        ["note on inflows", _words(inflow.get("note"))],
        *([label, _words(summary.training.get(key)) + (f" {unit}" if unit else "")] for key, label, unit in TRAINING if key in summary.training),
        ["simulated stages without an answer of the solver", _words(summary.simulation_unanswered)],
        ["programs of prices without a solution", _words(summary.prices.get("unsolved"))],
        ["digest of the data", summary.data_digest or "–"],
        ["digest of the options", summary.options_digest or "–"],
        ["made by", summary.made_by],
    ]
    kept = [it for it in rows if it[1] not in ("", "–")]
    return Table("The study", GIVEN, [word_column("what"), word_column("is")], kept)


def _money(study: ShownStudy) -> str:
    units = study.summary.units
    return units.money if units.money_scale == 1 else f"{units.money} (files in {units.money_scale:,.15g} {units.money})"


def _words(value: Any) -> str:
    """A value of the summary as words."""
    if isinstance(value, (list, tuple)):
        return ", ".join(map(str, value))
    if isinstance(value, Mapping):
        return ", ".join(f"{key}: {it}" for key, it in value.items())
    return "" if value is None else f"{value:,.1f}" if isinstance(value, float) else str(value)


def _ledger(study: ShownStudy) -> List[Block]:
    lines = study.results.lines("ledger.txt")
    if lines is None:
        return [Missing("ledger.txt is not there: what was rounded is not known.")]
    if not any(it.strip() for it in lines):
        return [Paragraph("The ledger is empty: nothing was rounded when the study became whole numbers.")]
    kept = [it for it in lines if it.strip()]
    more = f" {len(kept) - MOST_LINES:,} more lines stand in ledger.txt." if len(kept) > MOST_LINES else ""
    caption = "The ledger: what was rounded when the study became whole numbers"
    return [Listing(caption, GIVEN, kept[:MOST_LINES], f"{LEDGER_NOTE}{more}")]


def _residuals(study: ShownStudy) -> List[Block]:
    residuals = study.table("residuals")
    if residuals is None:
        return [Missing("residuals.csv is not there: whether simulated decisions meet all rows is not known.")]
    kept, greatest = residuals[residuals["missed"] > 0], float(residuals["greatest"].abs().max())
    if not len(kept):
        how = "exactly" if greatest == 0 else f"but for rounding of at most {greatest:.1g} in a row's unit"
        return [Paragraph(f"The decisions of all simulated scenarios meet the rows of their stages, {how}.")]
    names = [it.name for it in study.stages(kept["stage"])]
    rows = [[name, f"{row.scenarios:,}", f"{row.missed:,.0f}", f"{row.greatest:.3g}"] for name, row in zip(names, kept.itertuples())]
    columns = [word_column("stage"), Column("scenarios"), Column("rows missed"), Column("by at most")]
    return [Table("Rows that simulated decisions miss", ESTIMATED, columns, rows, RESIDUAL_NOTE, is_folded=len(rows) > 12)]


def _marks() -> Table:
    columns = [word_column("mark"), word_column("says")]
    return Table("What the marks say", BOTH, columns, [list(it) for it in MARKS], row_marks=[it[0] for it in MARKS])
