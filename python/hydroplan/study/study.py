"""A study: what study.toml and its CSV files say, read and put together; its options; and the problem that is compiled of it.

Options say how long training goes on, and what is simulated. They do not change the problem.
"""
from __future__ import annotations

import hashlib
import json
from dataclasses import asdict, dataclass
from decimal import Decimal
from functools import cached_property
from pathlib import Path
from typing import Any, Callable, Dict, List, Optional, Sequence, TypeVar

from ..code_places import standing_at
from ..errors import ModelError
from ..exact import Number
from ..limits import MOST_ITERATIONS
from ..model import Model
from ..plants import System
from ..programs import Compiled
from ..runs import MOST_BATCH, MOST_SEED, BoundStalling, IterationLimit, Statistical, StopRule, TimeLimit
from ..tools.bounded_files import is_utf8
from ..tools.shown_names import shown_name
from .document import Document, StudyError, Table
from .elements import KINDS, add_elements
from .inflow_model import InflowModel, read_inflows
from .numbers import CsvFiles, NumberReader, check_block_names, refuse_formula
from .stage_calendar import StageCalendar, read_blocks, read_calendar

MOST_SCENARIOS = 10_000


@dataclass(frozen=True)
class Training:
    """The seed of training, the paths of an iteration, and who trains: so many workers, or a cluster by its scheduler's address."""

    seed: int
    batch: Optional[int]
    workers: Optional[int]
    scheduler: Optional[str]

    def shared(self) -> List[str]:
        """The words behind `train` by which its work is shared; none where this machine trains alone."""
        given = (("--workers", self.workers), ("--scheduler", self.scheduler))
        return [word for name, value in given if value is not None for word in (name, str(value))]


@dataclass(frozen=True)
class Stop:
    """When training stops: the first that holds."""

    gap: Optional[float]
    confidence: float
    scenarios: int
    every: int
    stall: Optional[float]
    stall_iterations: int
    seconds: Optional[float]
    iterations: Optional[int]

    def rules(self) -> List[StopRule]:
        """The rules of `hydroplan.runs`."""
        found: List[StopRule] = []
        if self.gap is not None:
            found.append(Statistical(self.scenarios, self.every, self.confidence, self.gap))
        if self.stall is not None:
            found.append(BoundStalling(self.stall_iterations, self.stall, every=self.every))
        if self.seconds is not None:
            found.append(TimeLimit(self.seconds))
        if self.iterations is not None:
            found.append(IterationLimit(self.iterations))
        return found


@dataclass(frozen=True)
class Simulating:
    """What is simulated: so many scenarios from a seed, of which some are exported, and some are priced; points of water values."""

    scenarios: int
    seed: int
    decisions: int
    prices: int
    points: int


@dataclass(frozen=True)
class Options:
    """All options."""

    training: Training
    stop: Stop
    simulation: Simulating

    def digest(self) -> str:
        """The SHA-256 of all options."""
        return hashlib.sha256(json.dumps(asdict(self), sort_keys=True).encode("utf-8")).hexdigest()


def read_options(top: Table) -> Options:
    """The options of the tables `training`, `stop` and `simulation`."""
    training = _training(top.table("training"))
    return Options(training, _stop(top.table("stop")), _simulation(top.table("simulation"), training))


def _training(table: Table) -> Training:
    table.only(("seed", "batch", "workers", "scheduler"))
    members = table.members
    return Training(
        table.whole("seed", 0, MOST_SEED, 7), table.whole("batch", 1, MOST_BATCH) if "batch" in members else None,
        table.whole("workers", 1, 1000) if "workers" in members else None, table.text("scheduler") if "scheduler" in members else None,
    )


def _stop(table: Table) -> Stop:
    table.only(("gap", "confidence", "scenarios", "every", "stall", "stall_iterations", "seconds", "iterations"))
    has_rule = any(it in table.members for it in ("gap", "stall", "seconds", "iterations"))
    return Stop(
        table.share("gap", Decimal("0.01")) if "gap" in table.members or not has_rule else None,  # type: ignore[arg-type]
        table.share("confidence", 0.95), table.whole("scenarios", 2, MOST_SCENARIOS, 1000), table.whole("every", 1, MOST_ITERATIONS, 50),
        table.positive("stall"), table.whole("stall_iterations", 1, MOST_ITERATIONS, 100), table.positive("seconds"),
        table.whole("iterations", 0, MOST_ITERATIONS) if "iterations" in table.members else None,
    )


def _simulation(table: Table, training: Training) -> Simulating:
    table.only(("scenarios", "seed", "decisions", "prices", "points"))
    scenarios = table.whole("scenarios", 2, MOST_SCENARIOS, 1000)
    seed = table.whole("seed", 0, MOST_SEED - MOST_SCENARIOS, 1 if training.seed > MOST_SCENARIOS or training.seed == 0 else training.seed + 1)
    if seed <= training.seed < seed + scenarios:
        raise table.fault(f"has the seed {training.seed} of training among its own, {seed} to {seed + scenarios - 1}", "seed")
    return Simulating(
        scenarios, seed, table.whole("decisions", 0, MOST_SCENARIOS, scenarios),
        min(scenarios, table.whole("prices", 0, MOST_SCENARIOS, 50)), table.whole("points", 2, 1000, 21),
    )


FILE = "study.toml"
TABLES = (
    "title", "units", "calendar", "blocks", "profiles", "discount", "resolution", "inflow", "training", "stop", "simulation", "tables",
    *KINDS,
)
WATER = ("volume", "way", "turbined", "spilled", "pumped", "kept", "inflow")
ENERGY = ("generation", "taken", "imported", "exported", "charged", "discharged", "stored", "sent", "sent_back", "deficit")
MISSING = "missing_"
TOO_COARSE = "choose a greater scale"
FINER = ', by a smaller "resolution.cost", "resolution.volume" or "resolution.energy", or allow a greater "resolution.tolerance"'
Made = TypeVar("Made")


@dataclass(frozen=True)
class Resolution:
    """The least steps that are kept of volumes (hm3), energies (MWh) and costs; what is not given is found."""

    volume: Optional[Number]
    energy: Optional[Number]
    cost: Optional[Number]
    tolerance: Number

    def of(self, model: Model) -> Dict[str, Number]:
        """The least step of each state and variable of a model, by name."""
        found: Dict[str, Number] = {}
        for stage in model.stages.values():
            names = [*stage.states, *(it.name for it in stage.all_variables.values() if it.kind == "decision")]
            found.update({name: step for name in names for step in [self._step(name)] if step is not None})
        return found if self.cost is None else {**found, "cost": self.cost}

    def _step(self, name: str) -> Optional[Number]:
        word = name.partition(":")[0]
        return self.volume if word in WATER or word.startswith(MISSING) else self.energy if word in ENERGY else None


@dataclass(frozen=True)
class Study:
    """A study that was read. `system` has its elements and random values, `model` its model, both in the user's units."""

    folder: Path
    title: str
    money: str
    calendar: StageCalendar
    system: System
    inflow: InflowModel
    resolution: Resolution
    options: Options
    document: Document

    @cached_property
    def model(self) -> Model:
        """The model of the system."""
        with standing_at(self.document.place(())):
            return _refused(self.system.model)

    @cached_property
    def compiled(self) -> Compiled:
        """The problem in whole numbers."""
        total = 256 if self.inflow.is_model and len(self.model.nodes) > self.calendar.stages else 1
        chosen: Dict[str, Any] = {
            "resolution": self.resolution.of(self.model) or None, "tolerance": self.resolution.tolerance, "successor_total": total
        }
        with standing_at(self.document.place(())):
            return self.system.noted(_refused(lambda: self.model.compile(**chosen)))

    @property
    def digest(self) -> str:
        """The SHA-256 of the compiled problem: whatever changes it is a change of data."""
        return hashlib.sha256(self.compiled.problem).hexdigest()



def _refused(made: Callable[[], Made]) -> Made:
    """What is made, or StudyError where the elements do not fit each other or cannot be compiled."""
    try:
        return made()
    except ModelError as fault:
        raise StudyError(shown_name(str(fault)) + (FINER if TOO_COARSE in str(fault) else "")) from None


def read_study(folder: Path, overrides: Sequence[str] = ()) -> Study:
    """The study in a folder; StudyError names file, line and key of what is wrong. `overrides` are words as in `stop.gap=0.02`."""
    if not folder.is_dir():
        raise StudyError(f"{folder}: no such folder")
    if not is_utf8(folder):
        raise StudyError(f"{folder}: the name of a folder is in UTF-8, as the program takes the journal in it")
    document = Document.read(folder / FILE)
    document.override(overrides)
    top = document.top().only(TABLES)
    times = read_calendar(top.table("calendar"))
    check_block_names(top.table("blocks"), top.table("blocks").members)
    blocks = read_blocks(top.table("blocks"), times)
    files = CsvFiles(folder)
    reader = NumberReader(times, tuple(blocks), files, top.table("profiles"))
    system = _system(top, times, blocks)
    add_elements(system, top, files, reader)
    inflow = read_inflows(top.table("inflow"), reader)
    _set_inflows(system, inflow, top)
    units = top.table("units").only(("money",))
    refuse_formula(units, units.text("money", "money"), "money")
    return Study(
        folder, top.text("title", folder.resolve().name), units.text("money", "money"), times, system, inflow,
        _resolution(top.table("resolution")), read_options(top), document,
    )


def _system(top: Table, times: StageCalendar, blocks: Dict[str, Any]) -> System:
    """A system without elements."""
    table = top.table("discount").only(("yearly_rate", "stages_per_year", "resolution"))
    in_a_year = times.steps_in_a_year
    if in_a_year is None and "yearly_rate" in table.members and "stages_per_year" not in table.members:
        raise table.fault("is needed where stages have lengths of their own", "stages_per_year")
    with standing_at(top.place("discount")):
        try:
            return System(
                times.stages, blocks, yearly_rate=table.number("yearly_rate", 0),
                stages_per_year=table.whole("stages_per_year", 1, 10_000, in_a_year or 1),
                discount_resolution=table.number("resolution", "0.000001"),
            )
        except ModelError as fault:
            raise StudyError(str(fault)) from None


def _set_inflows(system: System, inflow: InflowModel, top: Table) -> None:
    with standing_at(top.place("inflow")):
        try:
            if isinstance(inflow.made, list):
                system.outcomes(inflow.made)
            else:
                system.inflows(inflow.made)
        except ModelError as fault:
            raise StudyError(str(fault)) from None


def _resolution(table: Table) -> Resolution:
    table.only(("volume", "energy", "cost", "tolerance"))
    for key in table.members:
        table.positive(key)
    volume, energy, cost = (table.number(it) if it in table.members else None for it in ("volume", "energy", "cost"))
    return Resolution(volume, energy, cost, table.number("tolerance", "0.001"))
