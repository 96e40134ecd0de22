"""The command `python3 -m hydroplan.inflows`: a record to realizations, with the comparison of both."""
from __future__ import annotations

import argparse
import sys
from pathlib import Path
from typing import Dict, List, Optional, Sequence

from hydroplan.errors import HydroplanError
from ..tools.shown_names import shown_name
from ..tools.waiting import in_words
from .autoregressive import periodic_autoregression
from .resampling import grouped_years, independent_years, markov_classes
from .comparison import compare, draw_comparison
from .records import InflowError, LEAVE_OUT, REFUSE, Record, RecordError, UNITS, VOLUME, read_record
from .realizations import Horizon, Inflows, write_csv, write_json

DESCRIPTION = """Makes realizations for the stages of a model from a record of inflow, prints the record beside them, and writes them to
files. The record is a CSV file with the columns year, month (or week, or step), and one for each station. docs/use/INFLOWS.md says
which method to take."""
MOST_NOTES = 12
WRITERS = {".csv": write_csv, ".json": write_json}


def parser() -> argparse.ArgumentParser:
    """What the command line may say."""
    top = argparse.ArgumentParser(prog="python3 -m hydroplan.inflows", description=DESCRIPTION)
    top.add_argument("record", type=Path, metavar="RECORD.csv")
    top.add_argument("--unit", choices=UNITS, default=VOLUME, help="the unit of the record's numbers (hm3)")
    top.add_argument("--hm3", action="store_true", help="turn m3/s to hm3, by the calendar or by --days")
    top.add_argument("--days", metavar="D,D,..", help="the length of each step in days, for --hm3")
    top.add_argument("--stations", metavar="NAME,NAME,..", help="these stations alone")
    top.add_argument("--leave-out-partial-years", action="store_true", help="leave out a first and a last year that is not whole")
    methods = top.add_mutually_exclusive_group()
    methods.add_argument("--groups", type=int, metavar="K", help="K groups of years for each stage")
    methods.add_argument("--classes", type=int, metavar="C", help="C Markov classes for each stage")
    methods.add_argument("--autoregression", action="store_true", help="PAR(1), with the inflow as a state; else years as they are")
    top.add_argument("--by", metavar="STATION", help="the station by which years are classed, in place of the total")
    top.add_argument("--before", type=int, metavar="CLASS", help="the class of the step before the first stage, from 0, the driest")
    words = "the inflow of the step before the first stage, for --autoregression (the mean)"
    top.add_argument("--previous", metavar="NAME=VALUE,..", help=words)
    top.add_argument("--seed", type=int, default=1, help="the seed of groups (1)")
    top.add_argument("--stages", type=int, help="the number of stages (a year)")
    top.add_argument("--start", type=int, default=1, help="the step of the year of the first stage (1)")
    top.add_argument("--resolution", default="0.1", help="the least step of numbers, in their unit (0.1)")
    words = "writes realizations: .csv or .json; may be repeated"
    top.add_argument("--output", type=Path, action="append", default=[], metavar="FILE", help=words)
    top.add_argument("--comparison", type=Path, metavar="FILE.csv", help="writes the whole comparison (needs pandas)")
    top.add_argument("--picture", type=Path, metavar="FILE", help="draws the comparison: .png or .svg (needs matplotlib)")
    return top


def main(words: Optional[Sequence[str]] = None) -> int:
    """The status: 0, or 1 with lines on standard error."""
    chosen = parser().parse_args(words)
    try:
        _run(chosen)
        return 0
    except (HydroplanError, OSError) as fault:
        lines = str(fault).split("\n") if isinstance(fault, RecordError) else [in_words(fault)]
        print("\n".join(map(shown_name, [f"inflows: {lines[0]}", *lines[1:]])), file=sys.stderr)
    return 1


def _run(chosen: argparse.Namespace) -> None:
    _check(chosen)
    record = _record(chosen)
    inflows = _made(record, chosen)
    comparison = compare(record, inflows)
    sys.stdout.write("\n".join([*map(shown_name, _head(record, inflows)), "", comparison.text()]))
    for path in chosen.output:
        with path.open("w", encoding="utf-8", newline="") as file:
            WRITERS[path.suffix](inflows, file)
    if chosen.comparison:
        comparison.table().to_csv(chosen.comparison, index=False)
    if chosen.picture:
        draw_comparison(comparison, chosen.picture)


def _check(chosen: argparse.Namespace) -> None:
    """Refuses words that go with another method, and files of other kinds."""
    if chosen.classes is None and (chosen.by is not None or chosen.before is not None):
        raise InflowError("--by and --before go with --classes")
    if chosen.previous is not None and not chosen.autoregression:
        raise InflowError("--previous goes with --autoregression")
    wrong = [str(path) for path in chosen.output if path.suffix not in WRITERS]
    if wrong:
        raise InflowError(f"a file of realizations ends in .csv or .json, and not as {wrong[0]}")


def _record(chosen: argparse.Namespace) -> Record:
    record = read_record(chosen.record, chosen.unit, partial_years=LEAVE_OUT if chosen.leave_out_partial_years else REFUSE)
    if chosen.stations:
        record = record.only(chosen.stations.split(","))
    return record.in_hm3(chosen.days.split(",") if chosen.days else None) if chosen.hm3 else record


def _made(record: Record, chosen: argparse.Namespace) -> Inflows:
    horizon = Horizon(record.steps if chosen.stages is None else chosen.stages, chosen.start, chosen.resolution)
    if chosen.groups is not None:
        return grouped_years(record, horizon, chosen.groups, seed=chosen.seed)
    if chosen.classes is not None:
        return markov_classes(record, horizon, chosen.classes, by=chosen.by, before=chosen.before)
    if chosen.autoregression:
        return periodic_autoregression(record, horizon, previous=_previous(chosen.previous))
    return independent_years(record, horizon)


def _previous(words: Optional[str]) -> Optional[Dict[str, str]]:
    """The inflows of NAME=VALUE,.. by station; none where there are no words."""
    if words is None:
        return None
    pairs = [word.rpartition("=") for word in words.split(",")]
    if any(not name for name, _, _ in pairs):
        raise InflowError(f"--previous {words}: NAME=VALUE,.. is expected")
    return {name: value for name, _, value in pairs}


def _head(record: Record, inflows: Inflows) -> List[str]:
    about, count = inflows.about, len(inflows.stages)
    lines = [
        f"{about.method}: {about.source}",
        f"{len(record.years)} years, {record.years[0]} to {record.years[-1]}; {count} stages; in {about.unit} at {about.resolution}",
        *about.notes[:MOST_NOTES],
    ]
    more = len(about.notes) - MOST_NOTES
    return [*lines, f"and {more} more notes, which a file of JSON has all"] if more > 0 else lines
