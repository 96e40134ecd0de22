"""Runs of the program on compiled models: train, check, simulate, validate, evaluate and robust.

Each takes the compiled model and the journal, and where `program` is given that program in place of the one that is found
(`hydroplan.core.find_program`). A status other than 0 is an exception of `hydroplan.errors`.
"""
from __future__ import annotations

from pathlib import Path
from typing import List, Optional, Sequence, Union

from .core import Place, find_program, run
from .errors import (
    HydroplanError, JournalDeviceFailed, JournalRefused, MissingPackage, NoStageSolution, OutOfMemory, OutOfRange, OutputFailed,
    ProblemRefused, ProblemTooLong, ProblemUnreadable, ProgramKilled, ProgramMissing, ProgramNotRun, RuleError, RunFailed, TooMuch,
    TrainingInterrupted, WordsRefused,
)
from .failures import failure
from .limits import MOST_SIMULATIONS
from .programs import Compiled
from .progress import Callback, Progress, ProgressPrinter, callback_of
from .reading import check_of, evaluation_of, robust_of, simulation_of
from .results import Check, Cut, Evaluation, GapCheck, MissedRow, Robust, Scenario, Simulation, StageOutcome, Training, TrainingRow
from .stopping import BoundStalling, IterationLimit, Statistical, StopRule, TimeLimit, checked
from .training import TrainWords, TrainingRun

__all__ = [
    "BoundStalling", "Check", "Cut", "Evaluation", "GapCheck", "HydroplanError", "IterationLimit", "JournalDeviceFailed",
    "JournalRefused", "MissedRow", "MissingPackage", "NoStageSolution", "OutOfMemory", "OutOfRange", "OutputFailed",
    "ProblemRefused", "ProblemTooLong", "ProblemUnreadable", "ProgramKilled", "ProgramMissing", "ProgramNotRun", "Progress",
    "ProgressPrinter", "Robust", "RuleError", "RunFailed", "Scenario", "Simulation", "StageOutcome", "Statistical", "StopRule", "TimeLimit",
    "TooMuch", "Training", "TrainingInterrupted", "TrainingRow", "WordsRefused", "check", "evaluate", "robust", "simulate", "train", "validate",
]

MOST_SEED = (1 << 64) - 1
MOST_BATCH = 64


def train(
    compiled: Compiled, journal: Place, *, seed: int, iterations: Optional[int] = None, batch: Optional[int] = None,
    stop: Union[StopRule, Sequence[StopRule]] = (), progress: Union[bool, Callback] = True, program: Optional[Place] = None,
    shared: Sequence[str] = (), known: Sequence[GapCheck] = (),
) -> Training:
    """Trains until the journal has so many `iterations` in all, or until one of the rules of `stop` holds.

    A journal that is there goes on, with the seed and the batch that it was made with. `seed` decides which paths are drawn;
    `batch` is the number of paths of an iteration, 1 to 64, 1 where it is not given. Where neither `iterations` nor an
    IterationLimit is given, training goes on to the most iterations that the problem's size allows.
    `progress` is called about once a second with a Progress; True writes lines on standard error, False writes none.
    `shared` are words by which the script `hydroplan` shares the work, as in `["--workers", "4"]`. `known` are comparisons with scenarios
    of earlier trainings of this journal (`Training.checks`): where one is what a rule asks for, it is not made again.

    An interrupt from the keyboard ends the program and raises TrainingInterrupted; the journal keeps whole iterations.
    """
    rules: List[StopRule] = list(stop) if isinstance(stop, Sequence) else [stop]
    if iterations is not None:
        rules.append(IterationLimit(iterations))
    if batch is not None:
        _whole(batch, "a batch", 1, MOST_BATCH)
    if not rules:
        raise ValueError("train needs iterations, or a rule of when to stop, as in train(.., iterations=100)")
    found = TrainingRun(
        compiled, Path(journal), TrainWords(_whole(seed, "a seed", 0, MOST_SEED), batch, shared), checked(rules), find_program(program),
        callback_of(progress), known,
    )
    return found.run()


def check(compiled: Compiled, journal: Place, *, program: Optional[Place] = None) -> Check:
    """Makes each cut of a journal anew from its certificates, whoever wrote it; also of a journal that still grows."""
    return check_of(compiled, _output(compiled, ["check", str(journal)], program))


def simulate(compiled: Compiled, journal: Place, *, seed: int, scenarios: int, program: Optional[Place] = None) -> Simulation:
    """Follows the policy of a journal along so many drawn scenarios, at most 1,000.

    Draw them from another seed than training: scenarios of its own seed are paths that it was trained on.
    """
    words = ["simulate", str(journal), str(_whole(seed, "a seed", 0, MOST_SEED))]
    words.append(str(_whole(scenarios, "the number of scenarios", 0, MOST_SIMULATIONS)))
    return simulation_of(compiled, _output(compiled, words, program))


def validate(compiled: Compiled, journal: Place, *, program: Optional[Place] = None) -> Simulation:
    """Follows the policy of a journal along the scenarios that the model stores (`Model.scenario`)."""
    return simulation_of(compiled, _output(compiled, ["validate", str(journal)], program))


def evaluate(compiled: Compiled, journal: Place, *, program: Optional[Place] = None) -> Evaluation:
    """What the whole policy of a journal costs, over every branch that can come: for problems of at most 65,536 branches."""
    return evaluation_of(compiled, _output(compiled, ["evaluate", str(journal)], program))


def robust(compiled: Compiled, journal: Place, *, program: Optional[Place] = None) -> Robust:
    """A bound on the cost where each node weighs its realizations by the worst of its `alternatives` and its own weights."""
    return robust_of(compiled, _output(compiled, ["robust", str(journal)], program))


def _output(compiled: Compiled, words: Sequence[str], program: Optional[Place]) -> str:
    ended = run(find_program(program), words, compiled.problem)
    if ended.status != 0:
        raise failure(compiled, ended)
    return ended.output


def _whole(number: int, what: str, least: int, most: int) -> int:
    if isinstance(number, bool) or not isinstance(number, int) or not least <= number <= most:
        raise ValueError(f"{what} is a whole number from {least} to {most}, not {number!r}")
    return number
