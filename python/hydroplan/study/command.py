"""The command `hydroplan study FOLDER`: reads a study, trains, simulates and writes its results."""
from __future__ import annotations

import argparse
import importlib
import importlib.util
import sys
import time
from pathlib import Path
from typing import Any, Dict, List, Optional, Sequence

from hydroplan.tools.shown_names import shown_name

from ..clamped import clamped_rows
from ..errors import HydroplanError, NoStageSolution, TrainingInterrupted
from ..limits import sizes
from ..plants.elements import Element
from ..tables import package
from ..tools.word_parser import WordParser
from .training import KeptJournal, dead_end, train_study
from .results_folder import RESULTS, write_results
from .study import Study, read_study

DESCRIPTION = """Reads FOLDER/study.toml and the CSV files that it names, trains on FOLDER/study.journal until a rule of the study says to stop,
simulates, and writes FOLDER/results. Run again after a change of options alone, it goes on from the journal; after a change of data it begins
anew, and keeps the old journal under another name. docs/use/STUDIES.md has all keys."""
INTERRUPTED = 130
LEDGER_LINES = 10
PLURALS = {"bus": "buses", "battery": "batteries"}


def parser() -> argparse.ArgumentParser:
    """What the command line may say."""
    top = WordParser(prog="hydroplan study", description=DESCRIPTION, allow_abbrev=False)
    top.add_argument("folder", type=Path, metavar="FOLDER", help="the folder with study.toml")
    top.add_argument("--check", action="store_true", help="read and compile everything, print a summary, and run nothing")
    words = "set a key of study.toml for this run, as in --set stop.gap=0.02; may be repeated"
    top.add_argument("--set", action="append", default=[], metavar="KEY=VALUE", dest="overrides", help=words)
    top.add_argument("--quiet", action="store_true", help="write no progress")
    return top


def main(words: Optional[Sequence[str]] = None) -> int:
    """The status: 0, 1 with a line on standard error where something is refused or fails, 130 where the user interrupts."""
    chosen = parser().parse_args(words)
    try:
        study = read_study(chosen.folder, chosen.overrides)
        if chosen.check:
            print("\n".join(map(shown_name, _compiled_lines(study))))
        else:
            _run(study, chosen.quiet)
        return 0
    except TrainingInterrupted as stopped:
        _say(str(stopped))
        return INTERRUPTED
    except KeyboardInterrupt:
        _say("interrupted: the journal keeps whole iterations, and the same command goes on from there")
        return INTERRUPTED
    except (HydroplanError, OSError) as fault:
        _say(str(fault))
        return 1


def _say(text: str) -> None:
    print("\n".join(f"study: {shown_name(line)}" for line in text.split("\n")), file=sys.stderr, flush=True)


def _run(study: Study, quiet: bool) -> None:
    """Trains, simulates, writes, and prints what came of it."""
    begun = time.monotonic()
    package("numpy")
    if study.options.simulation.prices:
        package("scipy")
    try:
        training, journal = train_study(study, _say, not quiet)
        _say(f"trained: {training.stopped}")
        _warn_of_clamped(study, journal)
        found = write_results(study, training, journal)
    except NoStageSolution as fault:
        raise dead_end(study, fault) from fault
    _write_report(study, study.folder / RESULTS)
    print("\n".join(map(shown_name, [*_result_lines(found), f"results: {study.folder / RESULTS}"])))
    _say(f"done in {time.monotonic() - begun:.0f} seconds")


def _warn_of_clamped(study: Study, journal: KeptJournal) -> None:
    """Warns where a row is worth more than its multiplier can say."""
    rows = clamped_rows(study.compiled, journal.path)
    if rows:
        others = f" and of {len(rows) - 1} more" if len(rows) > 1 else ""
        _say(
            f"warning: one unit of the row {rows[0][1]!r} of stage {rows[0][0]!r}{others} is worth more money than 64 bits hold, so the bound may stay "
            "far below the least cost; a coarser resolution.cost ends this (docs/use/GUIDE.md, section 6)"
        )


def _write_report(study: Study, results: Path) -> None:
    """Makes the page of the results where `hydroplan.report` is there; its axes have dates, which have to rise."""
    if importlib.util.find_spec("hydroplan.report") is None:
        return
    if study.calendar.dates_rise:
        importlib.import_module("hydroplan.report").write(results)
    else:
        _say("no page is made of the results: some stages begin on the day of the one before")


def _result_lines(found: Dict[str, Any]) -> List[str]:
    """What is certified and what is estimated, in a few lines."""
    money, estimated = found["units"]["money"], found["estimated"]
    lines = [
        f"certified: no policy costs less than {found['certified']['bound']:,.2f} {money}, after {found['training']['iterations']} iterations",
        f"estimated: {estimated['scenarios']} scenarios cost {estimated['mean']:,.2f} {money} in the mean, within "
        f"{estimated['half_width']:,.2f} at {estimated['confidence']:.0%} confidence; {_beside(estimated['gap_share'])} the bound",
    ]
    if found["upper"] is not None:
        lines.append(f"certified: the trained policy costs at most {found['upper']['cost']:,.2f} {money}")
    return lines


def _beside(share: float) -> str:
    """How far a mean is from the bound: below it only by chance."""
    return f"{abs(share):.2%} {'above' if share >= 0 else 'below'}"


def _counted(count: int, kind: str) -> str:
    return f"{count} {kind if count == 1 else PLURALS.get(kind, kind + 's')}"


def _compiled_lines(study: Study) -> List[str]:
    """What was read and compiled."""
    extent = sizes(study.compiled)
    kinds: Dict[str, int] = {}
    for it, _ in study.system.of_kind(Element):
        kinds[it.KIND] = kinds.get(it.KIND, 0) + 1
    realizations = [node.realizations for node in extent.nodes]
    ledger = study.compiled.ledger
    more = [f"  and {len(ledger) - LEDGER_LINES} more lines"] if len(ledger) > LEDGER_LINES else []
    return [
        f"{study.title}: {study.calendar.stages} stages, the first from {study.calendar.dates[0]}, the last from {study.calendar.dates[-1]}",
        "elements: " + ", ".join(_counted(count, kind) for kind, count in kinds.items()),
        f"random values: {study.inflow.method}, stations: {', '.join(study.inflow.stations) or 'none'}",
        *(f"  {note}" for note in study.inflow.notes),
        f"problem: {len(study.compiled.problem):,} bytes, {len(extent.nodes)} nodes, {extent.states} states, at most "
        f"{max(it.decisions for it in extent.nodes)} decisions, {max(it.rows for it in extent.nodes)} rows and {max(realizations)} realizations",
        f"at most {extent.most_iterations(study.options.training.batch or 1)} iterations",
        "ledger:", *(f"  {line}" for line in ledger[:LEDGER_LINES]), *more,
    ]
