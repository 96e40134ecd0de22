"""decisions.csv and costs.csv, written while scenarios are read, and what other results need of the scenarios.

Files of results are CSV with plain decimals, written beside their names first, so that a file that is there is whole.
"""
from __future__ import annotations

import csv
import io
import math
from contextlib import ExitStack
from dataclasses import dataclass
from pathlib import Path
from types import TracebackType
from typing import Any, Dict, Iterable, List, Optional, Sequence, TextIO, Tuple, Type

from ..graphs import GraphNode
from ..plants import Bus, Reservoir
from ..tables import package
from .simulating import Key, NodeLayout, SimulatedPolicy, StageNumbers, quantities_of
from .study import Study


def plain(number: float) -> str:
    """A number as a plain decimal with at most six places."""
    text = f"{number:.6f}".rstrip("0").rstrip(".")
    return "0" if text == "-0" else text


def csv_line(cells: Sequence[object]) -> str:
    """A row of CSV without its end of line; None is an empty cell, and floats are plain decimals."""
    line = io.StringIO()
    csv.writer(line, lineterminator="\n").writerow([_cell(it) for it in cells])
    return line.getvalue()[:-1]


def _cell(value: object) -> object:
    return "" if value is None else plain(value) if isinstance(value, float) else value


class ResultFile:
    """A file that is being written; it takes the place of the one of its name when it is whole."""

    def __init__(self, path: Path) -> None:
        self._path = path
        self._partial = path.with_name(path.name + ".partial")
        self._file: Optional[TextIO] = None

    def __enter__(self) -> TextIO:
        self._file = self._partial.open("w", encoding="utf-8", newline="")
        return self._file

    def __exit__(self, kind: Optional[Type[BaseException]], fault: Optional[BaseException], trace: Optional[TracebackType]) -> None:
        assert self._file is not None
        self._file.close()
        if kind is None:
            self._partial.replace(self._path)
        else:
            self._partial.unlink()


def write_rows(path: Path, names: Sequence[str], rows: Iterable[Sequence[Any]]) -> None:
    """Writes a CSV file with a header."""
    with ResultFile(path) as file:
        writer = csv.writer(file, lineterminator="\n")
        writer.writerow(names)
        writer.writerows([_cell(it) for it in row] for row in rows)


def write_text(path: Path, lines: List[str]) -> None:
    """Writes a file of lines."""
    with ResultFile(path) as file:
        file.write("".join(f"{line}\n" for line in lines))


DECISIONS = ("scenario", "stage", "date", "block", "element", "quantity", "value")
COSTS = ("scenario", "stage", "date", "cost")
FOUND = "found"
# a row that is missed by less, in hm3 or MWh, is rounded
MISSED = 0.001


@dataclass(frozen=True)
class Sampled:
    """A stage of a scenario whose prices are wanted: its node, and the numbers of its states before, random values and states behind it."""

    node: str
    stage: int
    incoming: Dict[str, float]
    randoms: Dict[str, float]
    values: Dict[str, float]


class Scenarios:
    """What is kept of the scenarios, as arrays whose first two axes are scenarios and stages.

    `costs` in money, discounted; `volumes` (hm3) by reservoir after the stage; `deficits` (MWh) by bus and block; `demands` likewise the
    demands that are random; `states` by state before the stage; `nodes` the number of the node. `greatest` and `missed` are the greatest
    amount by which a row of each stage is missed, and how many rows are missed by more than 0.001.
    """

    def __init__(self, study: Study, count: int) -> None:
        numpy = package("numpy")
        stages = study.calendar.stages
        self.reservoirs = [it.name for it, _ in study.system.of_kind(Reservoir)]
        self.places = [(it.name, block) for it, _ in study.system.of_kind(Bus) for block in study.system.horizon.blocks]
        self.state_names = list(study.compiled.state_names)
        self.costs = numpy.zeros((count, stages))
        self.volumes = numpy.zeros((count, stages, len(self.reservoirs)))
        self.deficits = numpy.zeros((count, stages, len(self.places)))
        self.demands = numpy.full((count, stages, len(self.places)), math.nan)
        self.states = numpy.zeros((count, stages, len(self.state_names)))
        self.nodes = numpy.zeros((count, stages), dtype=int)
        self.greatest = numpy.zeros(stages)
        self.missed = numpy.zeros(stages, dtype=int)
        self.unanswered = 0
        self.sampled: List[List[Sampled]] = []


class NodeExport:
    """How a stage of one node is written: a matrix from its numbers to those of decisions.csv, and the text around them."""

    def __init__(self, study: Study, node: GraphNode, layout: NodeLayout, kept: Scenarios) -> None:
        numpy = package("numpy")
        self.node = list(study.compiled.node_names).index(node.name)
        self.values, self.randoms, self.incoming = (layout.places(it) for it in ("value", "random", "in"))
        sums = quantities_of(study.system, node, study.model.stages[node.name])
        places = {**self.randoms, **self.values}
        self.keys = list(sums)
        self.matrix = numpy.zeros((len(sums), len(layout.names)))
        self.constants = numpy.array([it.constant for it in sums.values()])
        for row, own in enumerate(sums.values()):
            for name, coefficient in own.terms.items():
                self.matrix[row, places[name]] += coefficient
        date = study.calendar.dates[node.stage - 1].isoformat()
        self.lines = [_escaped(csv_line([node.stage, date, it.block, it.element, it.quantity])) + ",%.6f" for it in self.keys]
        self.volumes = _places(self.keys, [Key(name, "volume") for name in kept.reservoirs])
        self.deficits = _places(self.keys, [Key(bus, "deficit", block) for bus, block in kept.places])
        self.demands = _places(self.keys, [Key(bus, "demand", block) for bus, block in kept.places])
        self.states = [self.incoming[name] for name in kept.state_names]

    def text(self, scenario: str, numbers: Any) -> str:
        """The lines of a stage."""
        text = f"{scenario},{(chr(10) + scenario + ',').join(self.lines)}\n" % tuple(numbers)
        return text.replace(".000000\n", "\n").replace(",-0\n", ",0\n")


def _escaped(text: str) -> str:
    return text.replace("%", "%%")


def _places(keys: List[Key], wanted: List[Key]) -> Tuple[List[int], List[int]]:
    """Which of the wanted keys are there, and where."""
    at = {key: number for number, key in enumerate(keys)}
    there = [number for number, key in enumerate(wanted) if key in at]
    return there, [at[wanted[number]] for number in there]


class Exporter:
    """Takes scenarios as they come."""

    def __init__(self, study: Study, count: int) -> None:
        self.study = study
        self.kept = Scenarios(study, count)
        self._graph = {it.name: it for it in study.system.graph().nodes}
        self._exports: Dict[str, Tuple[NodeLayout, NodeExport]] = {}
        self._dates = [it.isoformat() for it in study.calendar.dates]

    def export(self, policy: SimulatedPolicy, results: Path) -> Scenarios:
        """Writes decisions.csv and costs.csv of all scenarios; what is kept of them."""
        chosen = self.study.options.simulation
        with ExitStack() as stack:
            decisions, costs = (stack.enter_context(ResultFile(results / name)) for name in ("decisions.csv", "costs.csv"))
            decisions.write(csv_line(DECISIONS) + "\n")
            costs.write(csv_line(COSTS) + "\n")
            for number, stages in policy.scenarios():
                self._scenario(number, stages, decisions if number <= chosen.decisions else None)
                costs.write("".join(self._cost(number, it) for it in stages))
                if number <= chosen.prices:
                    self.kept.sampled.append([self._sampled(it) for it in stages])
        return self.kept

    def _cost(self, number: int, stage: StageNumbers) -> str:
        return f"{number},{stage.stage},{self._dates[stage.stage - 1]},{stage.cost:.6f}\n"

    def _scenario(self, number: int, stages: List[StageNumbers], decisions: Optional[TextIO]) -> None:
        for stage in stages:
            export = self._export_of(stage.layout)
            numbers = export.matrix @ stage.numbers[: len(stage.layout.names)] + export.constants
            self._keep(number - 1, stage, export, numbers)
            if decisions is not None:
                decisions.write(export.text(str(number), numbers))

    def _keep(self, at: int, stage: StageNumbers, export: NodeExport, numbers: Any) -> None:
        """Keeps what other results need of a stage."""
        kept, own = self.kept, stage.stage - 1
        kept.costs[at, own], kept.nodes[at, own] = stage.cost, export.node
        kept.states[at, own] = stage.numbers[export.states]
        pairs = ((kept.volumes, export.volumes), (kept.deficits, export.deficits), (kept.demands, export.demands))
        for array, (there, places) in pairs:
            array[at, own, there] = numbers[places]
        missed = abs(stage.residuals)
        kept.missed[own] += int((missed > MISSED).sum())
        kept.greatest[own] = max(kept.greatest[own], float(missed.max(initial=0.0)))
        kept.unanswered += stage.kind != FOUND

    def _sampled(self, stage: StageNumbers) -> Sampled:
        export = self._export_of(stage.layout)
        parts = ({name: float(stage.numbers[at]) for name, at in it.items()} for it in (export.incoming, export.randoms, export.values))
        return Sampled(stage.layout.name, stage.stage, *parts)

    def _export_of(self, layout: NodeLayout) -> NodeExport:
        """How stages of these lines are written."""
        found = self._exports.get(layout.name)
        if found is None or found[0] is not layout:
            found = layout, NodeExport(self.study, self._graph[layout.name], layout, self.kept)
            self._exports[layout.name] = found
        return found[1]
