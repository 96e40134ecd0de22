"""The command `plot`: bounds, water values, storage and residuals from reports, as PNG and SVG or as a table.

Outside the proved core: what a drawing shows is as exact as its pixels. Matplotlib is needed for drawings alone.
"""
from __future__ import annotations

import argparse
import sys
from fractions import Fraction
from pathlib import Path
from typing import Any, Callable, Iterator, Optional, Sequence

from ..exact import exact, is_number
from .back import BadReport
from .bounded_files import whole_file
from .located_json import Cursor, NotJson, Refused, parse
from .decimals import decimal_text
from .reports import Report, read_file
from .shown_names import shown_name
from .series import (
    Fan, Point, PolicyCost, SHARES, Series, is_results, policy_cost, read_results, residuals, same_units, stages_of, storage, water_values_along,
    water_values_at,
)
from .waiting import in_words
from .word_parser import WordParser

# makes a figure by the module `drawing`, which is imported where one is drawn
Drawing = Callable[[Any], Any]
WITHOUT_LIBRARY = f"""{sys.executable} has no matplotlib, which drawings need: sudo apt-get install python3-matplotlib installs it for
/usr/bin/python3; without --output the numbers are written as a table""".replace("\n", " ")
DESCRIPTION = """Reads reports of hydroplan, as they are or as `convert back` writes them, and draws PREFIX.png and
PREFIX.svg (--output, needs matplotlib) or writes the numbers as a table (no --output). Of a study, `bounds` and `storage` take its
folder of results in place of a report, with dates and units. Nothing here is proved."""
OF_A_STUDY = "of a study's folder of results `bounds` and `storage` are drawn, and its report.html shows the rest"


def parser() -> argparse.ArgumentParser:
    """What the command line may say."""
    top = WordParser(prog="plot", description=DESCRIPTION)
    commands = top.add_subparsers(dest="command", required=True)
    bounds = _command(commands, "bounds", "the bound over iterations")
    bounds.add_argument("reports", type=Path, nargs="+", help="reports of train or check, or folders of results")
    bounds.add_argument("--cost", type=Path, help="a report of simulate or validate: its mean cost is drawn too")
    words = "water values by stage: slopes of the cuts that are active at given states"
    values = _command(commands, "water-values", words)
    values.add_argument("report", type=Path, help="a report of check or base, which has the cuts")
    values.add_argument("--at", type=Path, help="a report of simulate or validate: the states that it came to")
    words = "a state that all nodes get; one for each state"
    values.add_argument("--state", action="append", default=[], metavar="NAME=VALUE", help=words)
    values.add_argument("--problem", type=Path, help="the problem file, for the stages of nodes with --state")
    for name, words in (("storage", "simulated storage by stage"), ("residuals", "residuals by stage")):
        of_study = ", or a folder of results" if name == "storage" else ""
        _command(commands, name, words).add_argument("report", type=Path, help=f"a report of simulate or validate{of_study}")
    return top


def _command(commands: Any, name: str, words: str) -> argparse.ArgumentParser:
    found: argparse.ArgumentParser = commands.add_parser(name, description=f"Draws {words}. {DESCRIPTION}", help=words)
    found.add_argument("--output", type=Path, help="PREFIX of the files that are drawn")
    found.add_argument("--title", default=words, help="the title")
    return found


def main(words: Optional[Sequence[str]] = None) -> int:
    """The status: 0, or 1 with a line on standard error."""
    chosen = parser().parse_args(words)
    try:
        drawing, rows = COMMANDS[chosen.command](chosen)
        if chosen.output is None:
            sys.stdout.writelines("\t".join(map(shown_name, row)) + "\n" for row in rows)
            return 0
        return _draw(drawing, chosen.output)
    except (BadReport, Refused, NotJson, ValueError, OSError) as fault:
        print(shown_name(f"plot: {in_words(fault)}"), file=sys.stderr)
    return 1


def _draw(drawing: Drawing, prefix: Path) -> int:
    try:
        from . import drawing as pictures
    except ImportError:
        print(f"plot: {WITHOUT_LIBRARY}", file=sys.stderr)
        return 1
    for path in pictures.save(drawing(pictures), prefix):
        print(shown_name(str(path)))
    return 0


def _bounds(chosen: argparse.Namespace) -> tuple[Drawing, Iterator[list[str]]]:
    if any(map(is_results, chosen.reports)):
        return _bounds_of_studies(chosen)
    reports = [(path.stem, read_file(path)) for path in chosen.reports]
    series = [(name, report.iterations) for name, report in reports]
    if not any(bounds for _, bounds in series):
        raise ValueError("no report has iterations: `train` and `check` write them")
    told = read_file(chosen.cost, ()) if chosen.cost else None
    same_units(reports if told is None else [*reports, (chosen.cost.stem, told)])
    cost = None if told is None else policy_cost(told)
    one = reports[0][1]
    word = "bound: no policy earns more\n[earnings" if one.maximises else "bound: no policy costs less\n[cost"
    word = f"{word}, {one.units()}]"
    return lambda pictures: pictures.draw_bounds(series, cost, word, chosen.title), _bound_rows(series, cost)


def _bounds_of_studies(chosen: argparse.Namespace) -> tuple[Drawing, Iterator[list[str]]]:
    """The bounds of studies, in their money, beside the mean cost where there is one study alone."""
    if chosen.cost is not None or not all(map(is_results, chosen.reports)):
        raise ValueError("a study's folder of results stands beside other such folders alone: reports have other units")
    studies = list(map(read_results, chosen.reports))
    if len({it.money for it in studies}) > 1:
        raise ValueError(f"the studies are in {', '.join(dict.fromkeys(it.money for it in studies))}: one picture has one unit")
    series = [(it.title, it.bounds()) for it in studies]
    cost = studies[0].cost() if len(studies) == 1 else None
    word = f"bound: no policy costs less\n[cost, {shown_name(studies[0].money)}]"
    return lambda pictures: pictures.draw_bounds(series, cost, word, chosen.title), _bound_rows(series, cost)


def _bound_rows(series: Series, cost: Optional[PolicyCost]) -> Iterator[list[str]]:
    yield ["report", "iteration", "bound"]
    for name, bounds in series:
        for number, bound in bounds:
            yield [name, str(number), _text(bound)]
    if cost is not None:
        yield [cost.label, "", _text(cost.value)]


def _water_values(chosen: argparse.Namespace) -> tuple[Drawing, Iterator[list[str]]]:
    if is_results(chosen.report):
        raise ValueError(OF_A_STUDY)
    report = read_file(chosen.report)
    if not report.cuts:
        raise ValueError("the report has no cuts: `check` and `base` write them")
    if (chosen.at is None) == (not chosen.state):
        raise ValueError("give either --at or --state")
    if chosen.at is not None:
        simulation = read_file(chosen.at, ("in",))
        same_units([(chosen.report.stem, report), (chosen.at.stem, simulation)])
        fans = water_values_along(report, simulation)
        return lambda pictures: pictures.draw_fans(fans, _water_value(report), chosen.title), _fan_rows(fans)
    stages = stages_of(_problem(chosen.problem)) if chosen.problem else {}
    points = water_values_at(report, _state(chosen.state), stages)
    return lambda pictures: pictures.draw_points(points, _water_value(report), bool(stages), chosen.title), _point_rows(points)


def _water_value(report: Report) -> str:
    return f"water value\n[{'earnings' if report.maximises else 'cost'} per unit, {report.units()}]"


def _problem(path: Path) -> Cursor:
    document = parse(whole_file(path))
    return Cursor(document, document.root)


def _state(words: Sequence[str]) -> dict[str, Fraction]:
    found = {}
    for word in words:
        name, equals, value = word.rpartition("=")
        if not equals:
            raise ValueError(f"--state {word}: NAME=VALUE is expected")
        if not is_number(value):
            raise ValueError(f"--state {word}: Invalid literal for a number")
        found[name] = exact(value)
    return found


def _storage(chosen: argparse.Namespace) -> tuple[Drawing, Iterator[list[str]]]:
    if is_results(chosen.report):
        study = read_results(chosen.report)
        stored, unit = study.stored()
        word = f"stored after the stage\n[{shown_name(unit)}]"
        return lambda pictures: pictures.draw_fans(stored, word, chosen.title, dates=study.dates), _fan_rows(stored, study.dates)
    report = _with_scenarios(chosen.report, "in")
    fans = storage(report)
    return lambda pictures: pictures.draw_fans(fans, f"incoming state\n[{report.units()}]", chosen.title), _fan_rows(fans)


def _residuals(chosen: argparse.Namespace) -> tuple[Drawing, Iterator[list[str]]]:
    report = _with_scenarios(chosen.report, "row")
    fans = residuals(report)
    return lambda pictures: pictures.draw_fans(fans, f"residual\n[{report.units()}, of each row]", chosen.title, True), _fan_rows(fans)


def _with_scenarios(path: Path, word: str) -> Report:
    if is_results(path):
        raise ValueError(OF_A_STUDY)
    report = read_file(path, (word,))
    if not report.scenarios:
        raise ValueError("the report has no scenarios: `simulate` and `validate` write them")
    return report


def _text(value: Fraction) -> str:
    return decimal_text(value, 9)


def _fan_rows(fans: Sequence[Fan], dates: Sequence[str] = ()) -> Iterator[list[str]]:
    """The quantiles, with the first day of each stage from 1 where there are dates."""
    yield ["name", "stage", *(["date"] if dates else []), *(f"share {share}" for share in SHARES)]
    for it in fans:
        for stage, row in zip(it.stages, it.quantiles):
            yield [it.name, str(stage), *([dates[stage - 1]] if dates else []), *map(_text, row)]


def _point_rows(points: dict[str, list[Point]]) -> Iterator[list[str]]:
    yield ["name", "stage", "node", "water value"]
    for name, own in points.items():
        for it in own:
            yield [name, str(it.stage), it.node, _text(it.value)]


COMMANDS = {"bounds": _bounds, "water-values": _water_values, "storage": _storage, "residuals": _residuals}
