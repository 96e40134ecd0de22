"""The policy along many scenarios: the program runs in parts, several at a time, and each part's report is read while others run.

A report is read piece by piece and never held as a whole. The lines of a node's stage are the same in all scenarios but for their numbers,
which stand at their ends. So a stage is cut at its numbers by one regular expression, and what is between them is compared with what the
node had before. `hydroplan.traces` reads the same lines one by one. What decisions.csv has of a stage are sums of its variables times
coefficients, and a constant: tiers of a thermal, of a deficit and of what is missing are added up.
"""
from __future__ import annotations

import os
import re
from collections import OrderedDict
from contextlib import ExitStack
from dataclasses import dataclass, field
from fractions import Fraction
from pathlib import Path
from typing import Any, BinaryIO, Dict, Iterator, List, Mapping, Optional, Sequence, Tuple

from ..core import Running, find_program
from ..failures import failure
from ..graphs import GraphNode
from ..limits import sizes
from ..plants import Bus, Reservoir, System
from ..plants.amounts import Table
from ..plants.elements import Numbers
from ..programs import Compiled
from ..stages import Stage
from ..tables import package
from ..traces import node_of_report, ratio

NUMBER = re.compile(rb" (-?[0-9]+)(?:\n|\Z)")
STAGE, END = b"\nstage ", b"\nend "
PIECE = 1 << 22
WORDS = (b"in", b"random", b"value")


@dataclass(frozen=True)
class NodeLayout:
    """The lines of a node's stage: the names of its numbers, by what each is multiplied, and how many of them are rows.

    `names` has the word of each line before its name, as in `("value", "spilled:upper")`; rows follow with their own names, then the cost.
    """

    name: str
    texts: List[bytes]
    names: Tuple[Tuple[str, str], ...]
    rows: Tuple[str, ...]
    factors: Any

    def places(self, word: str) -> Dict[str, int]:
        """Where the numbers of a word stand, by their names."""
        return {name: at for at, (own, name) in enumerate(self.names) if own == word}


@dataclass(frozen=True)
class StageNumbers:
    """A stage of a scenario: its number from 1, its node, how the solver answered, and all numbers in the user's units."""

    stage: int
    layout: NodeLayout
    kind: str
    numbers: Any

    @property
    def cost(self) -> float:
        """The cost of the stage."""
        return float(self.numbers[-1])

    @property
    def residuals(self) -> Any:
        """By how much each row is missed."""
        return self.numbers[len(self.layout.names) : -1]


@dataclass
class ReportStream:
    """Reads reports of one compiled problem."""

    compiled: Compiled
    layouts: Dict[int, NodeLayout] = field(default_factory=dict)

    def scenarios(self, report: BinaryIO) -> Iterator[List[StageNumbers]]:
        """The scenarios of a report, each with its stages."""
        rest = b""
        while True:
            piece = report.read(PIECE)
            *whole, rest = (rest + piece).split(END)
            yield from map(self._scenario, whole)
            if not piece:
                return

    def _scenario(self, text: bytes) -> List[StageNumbers]:
        """The stages of a scenario; what stands before the first is passed over."""
        return [self._stage(it) for it in text.split(STAGE)[1:]]

    def _stage(self, text: bytes) -> StageNumbers:
        head, _, lines = text.partition(b"\n")
        number, _, node, kind = head.split()
        parts = NUMBER.split(lines)
        layout = self.layouts.get(int(node))
        if layout is None or layout.texts != parts[0::2]:
            layout = self.layouts[int(node)] = self._layout(int(node), parts[0::2])
        numbers = package("numpy").array(list(map(float, parts[1::2])))
        numbers *= layout.factors
        return StageNumbers(int(number) + 1, layout, kind.decode(), numbers)

    def _layout(self, node: int, texts: Sequence[bytes]) -> NodeLayout:
        """What the lines of a node are, by the compiled problem."""
        found = node_of_report(self.compiled, self.compiled.node_names[node])
        own = [text.decode("utf-8") for text in texts if text.partition(b" ")[0] in WORDS]
        named = [(text.partition(" ")[0], found.ratios[text]) for text in own]
        cost = ratio(self.compiled.scales.cost or Fraction(1))
        ratios = [*(it for _, (_, it) in named), *(it for _, it in found.rows), cost]
        factors = package("numpy").array([factor / divisor for factor, divisor in ratios])
        names = tuple((word, name) for word, (name, _) in named)
        return NodeLayout(found.name, list(texts), names, tuple(name for name, _ in found.rows), factors)


BY_STAGE = ("volume", "stored", "spilled")
BY_BLOCK = (
    "turbined", "generation", "taken", "imported", "exported", "charged", "discharged", "sent", "sent_back", "pumped", "deficit",
)
MISSING = "missing_"
OUTGOING = "_out"


@dataclass(frozen=True)
class Key:
    """What a number is of: an element, a quantity, and a load block, which is empty where it is of the stage."""

    element: str
    quantity: str
    block: str = ""


@dataclass
class Sum:
    """A constant plus variables times coefficients, by the variables' names."""

    constant: float = 0.0
    terms: Dict[str, float] = field(default_factory=dict)

    def add(self, other: Sum, factor: float = 1.0) -> None:
        """Adds another sum times a factor."""
        self.constant += factor * other.constant
        for name, coefficient in other.terms.items():
            self.terms[name] = self.terms.get(name, 0.0) + factor * coefficient


def quantities_of(system: System, node: GraphNode, stage: Stage) -> "OrderedDict[Key, Sum]":
    """The numbers of a node's stage, in the order of the elements."""
    decided = _decided(stage, system.horizon.blocks)
    found: "OrderedDict[Key, Sum]" = OrderedDict()
    writer = _Writer(system, node, decided)
    for it, numbers in system.of_kind(Reservoir):
        found.update(writer.reservoir(it, numbers))
    for it_bus, numbers in system.of_kind(Bus):
        found.update(writer.bus(it_bus, numbers))
    found.update((key, value) for key, value in decided.items() if key not in found)
    return found


def _decided(stage: Stage, blocks: Sequence[str]) -> "OrderedDict[Key, Sum]":
    """What the model decides, tiers added up."""
    found: "OrderedDict[Key, Sum]" = OrderedDict()
    for variable in stage.all_variables.values():
        if variable.kind == "outgoing" or variable.kind == "decision":
            key = _key(variable.name[: -len(OUTGOING)] if variable.kind == "outgoing" else variable.name, blocks)
            if key is not None:
                found.setdefault(key, Sum()).add(Sum(0.0, {variable.name: 1.0}))
    return found


def _key(name: str, blocks: Sequence[str]) -> Optional[Key]:
    """What a variable is of, by its name: WORD:ELEMENT, perhaps with a tier, perhaps with a block; none where it is not written."""
    word, element, *rest = name.split(":")
    if word in BY_STAGE or word.startswith(MISSING):
        return Key(element, word)
    if word in BY_BLOCK:
        return Key(element, word, rest[-1] if len(blocks) > 1 else blocks[0])
    return None


class _Writer:
    """Writes the sums of a node."""

    def __init__(self, system: System, node: GraphNode, decided: Mapping[Key, Sum]) -> None:
        self._blocks = system.horizon.blocks
        self._hours = system.horizon.hours[node.stage - 1]
        self._node = node
        self._decided = decided

    def reservoir(self, it: Reservoir, numbers: Numbers) -> Iterator[Tuple[Key, Sum]]:
        """Volume, inflow, what is turbined and spilled, both together, and the energy of the turbine."""
        yield self._given(it.name, "volume")
        inflow = Sum()
        for sums in self._amounts(numbers.table("inflow"), self._blocks):
            inflow.add(sums)
        yield Key(it.name, "inflow"), inflow
        turbined = [self._given(it.name, "turbined", block) for block in self._blocks]
        yield from ((key, sums) for key, sums in turbined if sums.terms)
        spilled = self._given(it.name, "spilled")
        yield spilled
        outflow = Sum()
        for _, sums in (*turbined, spilled):
            outflow.add(sums)
        yield Key(it.name, "outflow"), outflow
        if it.bus is not None:
            yield from self._energy(it, numbers, turbined)

    def _energy(self, it: Reservoir, numbers: Numbers, turbined: Sequence[Tuple[Key, Sum]]) -> Iterator[Tuple[Key, Sum]]:
        """The energy of a turbine in each block."""
        for key, sums in turbined:
            if sums.terms:
                energy = Sum()
                energy.add(sums, float(numbers.at("productivity", self._node.stage, key.block)))
                yield Key(it.name, "generation", key.block), energy

    def bus(self, it: Bus, numbers: Numbers) -> Iterator[Tuple[Key, Sum]]:
        """The demand of a bus where it is random."""
        table = numbers.table("demand")
        if table is not None and table.station is not None:
            for block in self._blocks:
                demand = Sum()
                demand.add(self._amount(table, block), float(self._hours[block]))
                yield Key(it.name, "demand", block), demand

    def _given(self, element: str, quantity: str, block: str = "") -> Tuple[Key, Sum]:
        key = Key(element, quantity, block)
        return key, self._decided.get(key, Sum())

    def _amounts(self, table: Optional[Table], blocks: Sequence[str]) -> List[Sum]:
        """The numbers of a table in a stage: one, or one for each block."""
        if table is None:
            return []
        return [self._amount(table, block) for block in blocks] if table.by_block else [self._amount(table, "")]

    def _amount(self, table: Table, block: str) -> Sum:
        number = float(table.at(self._node.stage, block))
        if table.station is None:
            return Sum(number)
        carried = table.station in self._node.value.carried
        return Sum(0.0, {f"inflow:{table.station}{OUTGOING}" if carried else table.station: number})


SCENARIOS_OF_A_PART = 125
MOST_AT_A_TIME = 4


@dataclass(frozen=True)
class Part:
    """Scenarios that are drawn together: the number of the first, from 1, the seed, and how many."""

    first: int
    seed: int
    count: int


def parts_of(compiled: Compiled, scenarios: int, seed: int) -> List[Part]:
    """The parts of so many scenarios: seeds follow one another, and sizes are the same on all machines."""
    size = max(1, min(SCENARIOS_OF_A_PART, sizes(compiled).most_scenarios()))
    starts = range(0, scenarios, size)
    return [Part(start + 1, seed + at, min(size, scenarios - start)) for at, start in enumerate(starts)]


@dataclass(frozen=True)
class SimulatedPolicy:
    """Scenarios of a journal's policy, in order, each with its number from 1."""

    compiled: Compiled
    journal: Path
    parts: Sequence[Part]

    def scenarios(self) -> Iterator["tuple[int, List[StageNumbers]]"]:
        """The scenarios, one after the other; RunFailed where the program ends with another status than 0."""
        program, stream = find_program(), ReportStream(self.compiled)
        at_a_time = max(1, min(MOST_AT_A_TIME, os.cpu_count() or 1))
        with ExitStack() as stack:
            runs: List[Running] = []
            for number, part in enumerate(self.parts):
                while len(runs) < min(len(self.parts), number + at_a_time):
                    runs.append(stack.enter_context(Running(program, self._words(self.parts[len(runs)]), self.compiled.problem)))
                yield from self._read(runs[number], stream, part)
                runs[number].clear()

    def _words(self, part: Part) -> List[str]:
        return ["simulate", str(self.journal), str(part.seed), str(part.count)]

    def _read(self, running: Running, stream: ReportStream, part: Part) -> Iterator["tuple[int, List[StageNumbers]]"]:
        running.wait()
        outcome = running.outcome()
        if outcome.status != 0:
            raise failure(self.compiled, outcome)
        with running.report() as report:
            yield from enumerate(stream.scenarios(report), part.first)
