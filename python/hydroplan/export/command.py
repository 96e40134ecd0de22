"""The command `export`: a table in wide form from a folder of results."""
from __future__ import annotations

import argparse
import sys
from pathlib import Path
from typing import Any, Optional, Sequence

from hydroplan.errors import HydroplanError
from hydroplan.report.folder import shown_name
from hydroplan.tools.word_parser import WordParser

from .pivots import COLUMN_NUMBERS, WHAT, Choice, wide_table

DESCRIPTION = """Writes volumes, energy or prices from a folder of results as CSV in wide form: a row for each date, a column for each
element. Volumes stand at the end of the stage, energy is the sum of a stage, prices are means by hours; all are estimated from simulated
scenarios."""
SEPARATORS = {"comma": ",", "semicolon": ";", "tab": "\t"}
DECIMALS = {"point": ".", "comma": ","}
FORMULA_SIGNS = ("=", "+", "-", "@")


def parser() -> argparse.ArgumentParser:
    """What the command line may say."""
    top = WordParser(prog="export", description=DESCRIPTION)
    top.add_argument("results", type=Path, metavar="RESULTS", help="the folder, with summary.json")
    top.add_argument("--what", choices=WHAT, required=True, help="volumes of reservoirs, energy of all that gives or takes it, or prices by bus")
    top.add_argument("--to", type=Path, metavar="FILE.csv", help="the file (standard output)")
    scenarios = top.add_mutually_exclusive_group()
    scenarios.add_argument("--number", choices=COLUMN_NUMBERS, default="mean", help="the number over scenarios (mean)")
    scenarios.add_argument("--scenario", type=int, metavar="N", help="the numbers of this scenario")
    scenarios.add_argument("--each-scenario", action="store_true", help="those of each scenario, one below the other")
    top.add_argument("--by-block", action="store_true", help="a column for each load block")
    top.add_argument("--separator", choices=tuple(SEPARATORS), default="comma", help="what stands between columns (comma)")
    top.add_argument("--decimal", choices=tuple(DECIMALS), default="point", help="the decimal sign (point)")
    return top


def main(words: Optional[Sequence[str]] = None) -> int:
    """The status: 0, or 1 with a line on standard error."""
    top = parser()
    chosen = top.parse_args(words)
    if chosen.separator == "comma" and chosen.decimal == "comma":
        top.error("numbers with decimal commas need --separator semicolon or tab")
    try:
        choice = Choice(chosen.what, chosen.number, chosen.scenario, chosen.each_scenario, chosen.by_block)
        _write(wide_table(chosen.results, choice), chosen)
        return 0
    except (HydroplanError, OSError) as fault:
        print(shown_name(f"export: {fault}"), file=sys.stderr)
    return 1


def _write(table: Any, chosen: argparse.Namespace) -> None:
    """Writes the table; heads that a spreadsheet would take for formulas begin with an apostrophe."""
    heads = [_head(str(it)) for it in table.columns]
    words = {"index": False, "header": heads, "sep": SEPARATORS[chosen.separator], "decimal": DECIMALS[chosen.decimal], "float_format": "%.12g"}
    if chosen.to is None:
        table.to_csv(sys.stdout, **words)
    else:
        table.to_csv(chosen.to, encoding="utf-8", **words)


def _head(name: str) -> str:
    shown = shown_name(name)
    return f"'{shown}" if shown.startswith(FORMULA_SIGNS) else shown
