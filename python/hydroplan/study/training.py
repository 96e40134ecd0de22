"""The training of a study on its journal, by the study's rules of when to stop; and a stage without a solution in words of the study.

The journal goes on while the compiled problem, the seed and the batch are those that it was made with. Else it is set aside under a
name of its own, and a new one begins.
"""
from __future__ import annotations

import importlib.util
import json
from dataclasses import asdict, dataclass, field, replace
from pathlib import Path
from typing import Any, Callable, Dict, Iterator, List, Optional, Tuple

from ..errors import JournalRefused, NoStageSolution, TrainingInterrupted
from ..plants.elements import Element, Numbers
from ..progress import Progress, ProgressPrinter
from ..results import GapCheck, Training
from ..runs import train
from .document import StudyError
from .study import Study

JOURNAL = "study.journal"
BESIDE = "study.journal.json"


@dataclass
class History:
    """What training told: seconds of all trainings of the journal by iteration, and the comparisons with scenarios."""

    data: str
    seed: int
    batch: int
    seconds: Dict[int, float] = field(default_factory=dict)
    checks: Dict[int, GapCheck] = field(default_factory=dict)

    @property
    def spent(self) -> float:
        """The seconds of all trainings so far."""
        return max(self.seconds.values(), default=0.0)

    def note(self, iteration: int, seconds: float) -> None:
        """Notes that an iteration was there after so many seconds."""
        self.seconds[iteration] = max(seconds, self.seconds.get(iteration, 0.0))

    def at(self, iteration: int) -> float:
        """The seconds until an iteration: in proportion between those that are known."""
        known: List[Tuple[int, float]] = [(0, 0.0), *sorted(self.seconds.items())]
        before = max(it for it in known if it[0] <= iteration)
        behind = min((it for it in known if it[0] >= iteration), default=before)
        if behind[0] == before[0]:
            return behind[1]
        share = (iteration - before[0]) / (behind[0] - before[0])
        return before[1] + share * (behind[1] - before[1])


@dataclass(frozen=True)
class KeptJournal:
    """The journal in a study's folder. `said` tells where training goes on, or why it begins anew."""

    path: Path
    history: History
    said: str

    def write(self) -> None:
        """Writes what is known of the training beside the journal."""
        history = self.history
        found = {
            "data": history.data, "seed": history.seed, "batch": history.batch, "seconds": history.seconds,
            "checks": [asdict(it) for it in history.checks.values()],
        }
        partial = self.path.with_name(BESIDE + ".partial")
        partial.write_text(json.dumps(found, indent=1) + "\n", encoding="utf-8")
        partial.replace(self.path.with_name(BESIDE))


def kept_journal(folder: Path, data: str, seed: int, batch: int) -> KeptJournal:
    """The journal to train on: the one that is there where it is of these data, seed and batch, else none, the old one set aside."""
    path, new = folder / JOURNAL, History(data, seed, batch)
    if not path.exists():
        return KeptJournal(path, new, "a new journal")
    history = _history(folder / BESIDE)
    if history is None:
        why = "what the journal is of is not known"
    elif history.data != data:
        why = "the data have changed"
    elif (history.seed, history.batch) != (seed, batch):
        why = f"the journal was made with seed {history.seed} and batch {history.batch}"
    else:
        return KeptJournal(path, history, "going on from the journal")
    return KeptJournal(path, new, f"{why}: training begins anew, and the old journal is kept as {set_aside(folder).name}")


def set_aside(folder: Path) -> Path:
    """Gives the journal and what is beside it the next free name; the new name of the journal."""
    number = 1
    while (folder / f"study.kept-{number}.journal").exists():
        number += 1
    kept = folder / f"study.kept-{number}.journal"
    (folder / JOURNAL).replace(kept)
    if (folder / BESIDE).exists():
        (folder / BESIDE).replace(kept.with_name(kept.name + ".json"))
    return kept


def _history(path: Path) -> Optional[History]:
    """What stands beside a journal; none where it cannot be read."""
    try:
        found: Dict[str, Any] = json.loads(path.read_text(encoding="utf-8"))
        seconds = {int(it): float(value) for it, value in found["seconds"].items()}
        checks = {it["iteration"]: GapCheck(**it) for it in found["checks"]}
        return History(str(found["data"]), int(found["seed"]), int(found["batch"]), seconds, checks)
    except (OSError, ValueError, KeyError, TypeError, AttributeError):
        return None


Say = Callable[[str], None]


def train_study(study: Study, say: Say, progress: bool) -> "tuple[Training, KeptJournal]":
    """Trains, and writes what is known of the training beside the journal."""
    options = study.options.training
    journal = kept_journal(study.folder, study.digest, options.seed, options.batch or 1)
    say(journal.said)
    journal.write()
    try:
        return _trained(study, journal, say, progress), journal
    except JournalRefused as fault:
        kept = set_aside(study.folder)
        say(f"{fault}: training begins anew, and the old journal is kept as {kept.name}")
    journal = kept_journal(study.folder, study.digest, options.seed, options.batch or 1)
    return _trained(study, journal, say, progress), journal


def _trained(study: Study, journal: KeptJournal, say: Say, progress: bool) -> Training:
    """Trains on a journal, and takes down when which iteration was there."""
    history, before = journal.history, journal.history.spent
    printer = ProgressPrinter() if progress else None

    def report(told: Progress) -> None:
        history.note(told.iteration, before + told.seconds)
        if printer is not None:
            printer(told)

    try:
        training = _by(study, journal, say, report)
    except TrainingInterrupted:
        journal.write()
        raise
    _take(history, training, before)
    journal.write()
    return training


def _take(history: History, training: Training, before: float) -> None:
    """Takes down the end of a training and its comparisons; those of earlier trainings stay."""
    for check in training.checks:
        if history.checks.get(check.iteration) == check:  # of an earlier training
            continue
        history.checks[check.iteration] = replace(check, seconds=before + check.seconds)
        history.note(check.iteration, before + check.seconds)
    history.note(training.iterations, before + training.seconds)


def _by(study: Study, journal: KeptJournal, say: Say, report: Callable[[Progress], None]) -> Training:
    """Trains on this machine alone, or by several workers where the study has them."""
    options, shared = study.options.training, study.options.training.shared()
    if shared and not _shares():
        say("training by one program: hydroplan.farm, which shares the work, is not there")
        shared = []
    return train(
        study.compiled, journal.path, seed=options.seed, batch=options.batch, stop=study.options.stop.rules(), progress=report, shared=shared,
        known=tuple(journal.history.checks.values()),
    )


def _shares() -> bool:
    """Whether the package is there by which `train --workers` shares the work."""
    return importlib.util.find_spec("hydroplan.farm") is not None


NEEDS = {"minimum_outflow": "outflow_penalty", "target": "target_penalty", "alert": "alert_penalty"}
OF_WATER = {"evaporation": "evaporation_penalty", "irrigation": "irrigation_penalty"}
CALLED = {
    "water": ("reservoir", "balance of water"), "minimum_outflow": ("reservoir", "minimum outflow"), "target": ("reservoir", "target"),
    "alert": ("reservoir", "alert volume"), "energy": ("bus", "balance of energy"), "minimum_generation": ("thermal", "minimum"),
    "store": ("battery", "store"),
}
STATES = {"volume": ("reservoir", "volume"), "stored": ("battery", "store")}
FORCED = ("thermal", "import", "export")
NO_COST = "a stage sees what a later one needs by its cost alone: a need without a cost is not seen before"


class DeadEnd(StudyError):
    """A stage at which no decisions are possible, with what came in and what was drawn there."""


def dead_end(study: Study, fault: NoStageSolution) -> DeadEnd:
    """What a planner can do about a stage without a solution."""
    stage = next(it.stage for it in study.system.graph().nodes if it.name == fault.node)
    lines = [
        f"stage {stage} ({study.calendar.name(stage)}) has no solution{_circumstances(fault)}",
        f"what cannot be met together there: {'; '.join(_called(row) for row in fault.rows) or 'the bounds of its decisions'}",
    ]
    advice = list(dict.fromkeys(_advice(study, fault, stage)))
    if stage > 1:
        lines.append(NO_COST)
    lines.append("what to do: " + ("; ".join(advice) or "let more be spilled, or let the least numbers of decisions be lower"))
    return DeadEnd("\n".join(lines))


def _circumstances(fault: NoStageSolution) -> str:
    coming = ", ".join(f"{_state(name)} {value:g}" for name, value in fault.state.items())
    drawn = ", ".join(f"{name} {value:g}" for name, value in fault.values.items())
    parts = [f"with {coming} coming in"] * bool(coming) + [f"at {drawn}"] * bool(drawn)
    return f", {' '.join(parts)}" if parts else ""


def _state(name: str) -> str:
    """A state as a planner calls it."""
    word, _, of = name.partition(":")
    if word not in STATES:
        return name
    kind, called = STATES[word]
    return f'{called} of {kind} "{of}"'


def _called(row: str) -> str:
    """A row as a planner calls it: of its element, and in its block where there are several."""
    word, *parts = row.split(":")
    if word not in CALLED or not parts:
        return row
    kind, called = CALLED[word]
    block = f" in block {parts[-1]}" if len(parts) > 1 else ""
    return f'{called} of {kind} "{parts[0]}"{block}'


def _advice(study: Study, fault: NoStageSolution, stage: int) -> Iterator[str]:
    """What could be given a cost, or be lower, of what the rows ask for."""
    elements: Dict[Tuple[str, str], Tuple[Element, Numbers]] = {(it.KIND, it.name): (it, numbers) for it, numbers in study.system.of_kind(Element)}
    for row in fault.rows:
        word, *parts = row.split(":")
        kind = CALLED.get(word, ("", ""))[0]
        if parts and (kind, parts[0]) in elements:
            yield from _of_element(word, *elements[kind, parts[0]], stage)
        if word == "energy" and parts:
            yield from _forced(study, parts[0], stage)


def _of_element(word: str, it: Any, numbers: Numbers, stage: int) -> Iterator[str]:
    """What to give to the element of a row."""
    asked: List[Tuple[str, str]] = [(word, NEEDS[word])] if word in NEEDS else list(OF_WATER.items()) if word == "water" else []
    for member, penalty in asked:
        if getattr(it, member) is not None and getattr(it, penalty) is None:
            yield f'give {it.called()} a "{penalty}", the cost of what is missing to its "{member}"'
    if word == "water" and numbers.at("minimum", stage) > 0:
        yield f'give {it.called()} an "alert" with an "alert_penalty" in place of its "minimum"'
    if word == "energy" and it.deficit is None:
        yield f'give {it.called()} a "deficit", the cost of energy that is missing'
    if word == "minimum_generation":
        yield f'let the "minimum" of {it.called()} be lower'


def _forced(study: Study, bus: str, stage: int) -> Iterator[str]:
    """What has to bring or take energy at a bus whatever it needs."""
    for it, numbers in study.system.of_kind(Element):
        own: Any = it
        if it.KIND in FORCED and own.bus == bus and any(numbers.at("minimum", stage, block) > 0 for block in study.system.horizon.blocks):
            yield f'let the "minimum" of {it.called()} be lower'
