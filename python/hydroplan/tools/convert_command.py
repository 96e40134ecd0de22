"""The command `convert`: a file of StochOptFormat to a problem in whole numbers, and a report back to the user's units.

Outside the proved core: what it writes is not proved to mean what was read. The program's bounds are bounds of the
problem that was written, so the ledger of what was rounded belongs to them.
"""
from __future__ import annotations

import argparse
import sys
from fractions import Fraction
from pathlib import Path
from typing import Any, Callable, Optional, Sequence, TextIO, TypeVar

from ..exact import exact
from .back import BadReport, Back
from .bounded_files import opened, whole_file
from .converting import Bounds, Ledger, Options, compile_model, ledger_lines, problem_text
from .located_json import Cursor, NotJson, Refused, parse
from .stochopt import Quantity, quantity, read_model
from .profile import MOST_FILE_BYTES
from .scales import Scales, read_scales, write_scales
from .shown_names import shown_name
from .waiting import in_words, standard_input
from .word_parser import WordParser

Read = TypeVar("Read")
DESCRIPTION = """Converts between StochOptFormat with decimal numbers and the whole numbers of hydroplan. Nothing here is
proved."""
PROBLEM = """Reads a file of StochOptFormat 1.x and writes a problem in whole numbers on standard output (or --output),
its scales (--write-scales), and on standard error (or --ledger) a line for each number that was rounded and for all that
was left out. What the profile does not have is refused by name and place, with status 1."""
BACK = """Reads a report of hydroplan on standard input (or REPORT) and the scales that were written, and writes on standard
output the report in the user's units: the same lines behind the head `hydroplan-user 1`. Bounds are rounded to the side
on which they stay bounds, other numbers to the nearest."""


def parser() -> argparse.ArgumentParser:
    """What the command line may say."""
    top = WordParser(prog="convert", description=DESCRIPTION)
    commands = top.add_subparsers(dest="command", required=True)
    problem = commands.add_parser("problem", description=PROBLEM, help="a file of StochOptFormat to a problem")
    add = problem.add_argument
    add("input", type=Path, help="the file of StochOptFormat")
    add("--output", type=Path, help="where the problem is written")
    add("--write-scales", type=Path, required=True, help="where the scales are written, for `convert back`")
    add("--scales", type=Path, help="scales that you choose; what it leaves out is found")
    add("--bounds", type=Path, help="bounds for variables without: {variable: [low, high], ..}, also by subproblem")
    add("--negate-max", action="store_true", help="turn sense max into min, all costs negated")
    add("--normalise", action="store_true", help="take probabilities that do not sum to 1 as parts of their sum")
    add("--largest", type=int, default=10**9, help="no found scale makes a greater number (10^9)")
    add("--tolerance", type=exact, default=Fraction(1, 1000), help="refuse what is rounded by more than this part (0.001)")
    add("--successor-total", type=int, default=1, help="weights of a node's successors add up to this at least (1); 256 makes cuts finer")
    add("--ledger", type=Path, help="where the lines on roundings are written")
    back = commands.add_parser("back", description=BACK, help="a report of hydroplan to your units")
    back.add_argument("report", type=Path, nargs="?", help="the report (default: standard input)")
    back.add_argument("--scales", type=Path, required=True, help="the scales that `convert problem` wrote")
    back.add_argument("--digits", type=int, default=6, help="digits behind the point (6)")
    back.add_argument("--exact", action="store_true", help="write exact fractions in place of decimals")
    return top


def main(words: Optional[Sequence[str]] = None) -> int:
    """The status: 0, or 1 with a line on standard error."""
    chosen = parser().parse_args(words)
    try:
        return _problem(chosen) if chosen.command == "problem" else _back(chosen)
    except NotJson as fault:
        print(shown_name(f"convert: NotJson: {fault}"), file=sys.stderr)
    except (Refused, BadReport, ValueError, OSError) as fault:
        print(shown_name(f"convert: {in_words(fault)}"), file=sys.stderr)
    return 1


def load(path: Path) -> Cursor:
    """The value of a file."""
    document = parse(whole_file(path))
    return Cursor(document, document.root)


def read_with(path: Path, reader: Callable[[Cursor], Read]) -> Read:
    """What a reader makes of a file beside the problem; a fault in it names the file."""
    try:
        return reader(load(path))
    except (Refused, NotJson) as fault:
        raise ValueError(f"{path}: {fault}") from None


def convert(source: Cursor, chosen: Scales, bounds: Bounds, options: argparse.Namespace) -> tuple[dict[str, Any], Scales, Ledger]:
    """The problem in whole numbers, its scales, and what was rounded and left out."""
    wanted = Options(options.negate_max, options.normalise, options.largest, options.tolerance, options.successor_total)
    found = compile_model(read_model(source), chosen, bounds, wanted)
    return found.problem, found.scales, found.ledger


def _problem(chosen: argparse.Namespace) -> int:
    scales = read_with(chosen.scales, read_scales) if chosen.scales else Scales()
    bounds = read_with(chosen.bounds, read_bounds) if chosen.bounds else Bounds({}, {})
    problem, found, ledger = convert(load(chosen.input), scales, bounds, chosen)
    _write(chosen.output, problem_text(problem, MOST_FILE_BYTES), sys.stdout)
    _write(chosen.write_scales, write_scales(found), sys.stdout)
    _write(chosen.ledger, "".join(shown_name(line) + "\n" for line in ledger_lines(ledger)), sys.stderr)
    return 0


def _write(path: Optional[Path], text: str, stream: TextIO) -> None:
    if path is None:
        stream.write(text)
    else:
        path.write_text(text, encoding="utf-8")


def _back(chosen: argparse.Namespace) -> int:
    scales = read_with(chosen.scales, read_scales)
    if scales.cost is None or not scales.nodes:
        raise ValueError(f"{chosen.scales} has not all scales: `convert problem --write-scales` writes them")
    turning = Back(scales, None if chosen.exact else chosen.digits)
    if chosen.report is None:
        sys.stdout.writelines(line + "\n" for line in turning.lines(standard_input("convert", "a report", "a word behind `back` names a file")))
        return 0
    with open(opened(chosen.report), encoding="utf-8", newline="\n") as report:
        sys.stdout.writelines(line + "\n" for line in turning.lines(report))
    return 0


def read_bounds(root: Cursor) -> Bounds:
    """A table of bounds: arrays of two numbers (null: none) by variable, or by subproblem and variable."""
    found = Bounds({}, {})
    for name, at in root.members():
        if at.is_object():
            found.by_subproblem.update({(name, variable): _pair(it) for variable, it in at.members()})
        else:
            found.by_variable[name] = _pair(at)
    return found


def _pair(cursor: Cursor) -> tuple[Optional[Quantity], Optional[Quantity]]:
    items = cursor.items()
    if len(items) != 2:
        raise cursor.refuse("Shape", "a pair [low, high] is expected")
    low, high = (None if it.is_null() else quantity(it) for it in items)
    return low, high
