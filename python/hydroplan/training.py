"""Training by rules: the program trains one journal in steps, and the rules are asked behind each of them."""
from __future__ import annotations

import os
import signal
import time
import warnings
from concurrent.futures import ThreadPoolExecutor
from dataclasses import dataclass
from fractions import Fraction
from pathlib import Path
from statistics import fmean
from typing import List, Optional, Sequence, Tuple

from .core import Ended, Running, run
from .errors import TrainingInterrupted
from .failures import failure
from .limits import MOST_ITERATIONS, sizes
from .programs import Compiled
from .progress import Callback, Watcher
from .reading import bound_float, bounds_of, end_costs, money, report_of
from .results import GapCheck, Training, half_width
from .stopping import BoundStalling, IterationLimit, Statistical, StopRule, TimeLimit

SEEDS = 1 << 64
# scenarios of a comparison are drawn by several runs of at most so many each, and so many at a time
MOST_OF_A_RUN = 400
MOST_AT_A_TIME = 4
INTERRUPTED = (-signal.SIGINT, 128 + signal.SIGINT)


def fresh_seed(seed: int, iteration: int, part: int) -> int:
    """A seed for the scenarios that are drawn behind an iteration: never that of the training itself."""
    return (seed + 1 + iteration * MOST_ITERATIONS + part) % SEEDS


def kept_batch(journal: Path) -> int:
    """The paths of an iteration with which a journal was made; 1 where there is none, or it says none (docs/use/FORMAT.md, The journal)."""
    try:
        with journal.open("rb") as file:
            head = file.read(53)
    except OSError:
        return 1
    has_batch = len(head) == 53 and head[:11] == b"\x01HYDPLAN1\x00\x02"
    return max(1, int.from_bytes(head[51:53], "big")) if has_batch else 1


def _warn(ended: Ended) -> None:
    """Warns where the script `hydroplan` had to say something of a journal before training: what it cut off, and where a copy is."""
    said = [line for line in ended.errors.splitlines() if line.startswith("hydroplan: ")]
    if said:
        warnings.warn("\n".join(said), RuntimeWarning, stacklevel=2)


@dataclass(frozen=True)
class TrainWords:
    """What stands behind the command `train`: the seed, the paths of an iteration, and words that share its work, as `--workers 4`."""

    seed: int
    batch: Optional[int] = None
    shared: Sequence[str] = ()

    def until(self, journal: Path, target: int) -> List[str]:
        """The words of a training until the journal has so many iterations."""
        batch = [] if self.batch is None else [str(self.batch)]
        return ["train", str(journal), str(self.seed), str(target), *batch, *self.shared]


class TrainingRun:
    """A training that goes on, with what is known of it."""

    def __init__(
        self, compiled: Compiled, journal: Path, words: TrainWords, rules: Sequence[StopRule], program: Path, report: Optional[Callback],
        known: Sequence[GapCheck] = (),
    ) -> None:
        self._compiled = compiled
        self._journal = journal
        self._words = words
        self._seed = words.seed
        self._rules = rules
        self._program = program
        self._begun = time.monotonic()
        self._watcher = Watcher(program, journal, lambda it: bound_float(compiled, money(compiled, it)), report, self._begun)
        self._bounds: Tuple[float, ...] = ()
        self._bound = Fraction(0)
        self._unanswered = 0
        self._checks: List[GapCheck] = []
        self._known = {it.iteration: it for it in known}
        limits = [it.iterations for it in rules if isinstance(it, IterationLimit)]
        self._limit = min(limits) if limits else sizes(compiled).most_iterations(words.batch or kept_batch(journal))
        self._is_asked_for = bool(limits)
        times = [it.seconds for it in rules if isinstance(it, TimeLimit)]
        self._deadline = self._begun + min(times) if times else None

    def run(self) -> Training:
        """Trains until a rule stops it; TrainingInterrupted where the user does."""
        try:
            while True:
                reason = self._step(self._target()) or self._reason()
                if reason is not None:
                    return self._result(reason)
        except KeyboardInterrupt:
            raise self._interrupted() from None

    def _target(self) -> int:
        """The iterations at which the next step ends: the limit, or where the first rule looks again."""
        count = len(self._bounds)
        steps = [it.every for it in self._rules if isinstance(it, (BoundStalling, Statistical))]
        return min([self._limit, *((count // every + 1) * every for every in steps)])

    def _step(self, target: int) -> Optional[str]:
        """Trains until the journal has so many iterations; the reason to stop where the time was over before."""
        with Running(self._program, self._words.until(self._journal, target), self._compiled.problem) as running:
            ended = self._watched(running)
            if ended is None:
                running.end()
        if ended is None:
            self._take(self._checked())
            return "the time limit"
        if ended.status in INTERRUPTED:  # a terminal interrupts the program too, and perhaps first
            raise KeyboardInterrupt
        if ended.status != 0:
            raise failure(self._compiled, ended)
        _warn(ended)
        self._take(ended)
        return None

    def _watched(self, running: Running) -> Optional[Ended]:
        """How a step ended, none where its time is over."""
        while not running.wait(self._pause()):
            if self._deadline is not None and time.monotonic() >= self._deadline:
                return None
            self._watcher.look(running.problem)
        return running.ended()

    def _pause(self) -> Optional[float]:
        """The seconds until the next look or the end of the time; none where the step's end is all that is waited for."""
        pauses = [] if self._deadline is None else [max(0.0, self._deadline - time.monotonic())]
        return min([*pauses, *self._watcher.pauses()], default=None)

    def _checked(self) -> Ended:
        """A run of `check` over what the journal has, or of `base` where there is none yet."""
        words = ["check", str(self._journal)] if self._journal.is_file() else ["base"]
        ended = run(self._program, words, self._compiled.problem)
        if ended.status != 0:
            raise failure(self._compiled, ended)
        return ended

    def _take(self, ended: Ended, tells: bool = True) -> None:
        """Takes bounds from a report of `train` or `check`, and reports the last one where it is time and `tells` says so."""
        report = report_of(self._compiled, ended.output)
        self._bounds = bounds_of(self._compiled, report)
        self._bound = report.bound or Fraction(0)
        self._unanswered = report.unsettled or 0
        if tells and self._watcher.is_due():
            self._tell()

    def _tell(self) -> None:
        if self._bounds:
            self._watcher.tell(len(self._bounds), self._bound_float(), self._unanswered)

    def _reason(self) -> Optional[str]:
        """Why training stops behind a step, none where it goes on."""
        for rule in self._rules:
            found = None
            if isinstance(rule, BoundStalling):
                found = rule.reason(self._bounds)
            elif isinstance(rule, Statistical) and self._is_time_for(rule):
                self._compare(rule)
                found = rule.reason(self._checks)
            if found is not None:
                return found
        if self._deadline is not None and time.monotonic() >= self._deadline:
            return "the time limit"
        if len(self._bounds) < self._limit:
            return None
        return "the iteration limit" if self._is_asked_for else "a journal of this problem holds no more iterations"

    def _is_time_for(self, rule: Statistical) -> bool:
        return len(self._bounds) % rule.every == 0 or len(self._bounds) >= self._limit

    def _compare(self, rule: Statistical) -> None:
        """Takes the comparison that an earlier training made of the same cuts, or makes it and tells it."""
        self._tell()
        known = self._known.get(len(self._bounds))
        if known is not None and self._is_of(rule, known):
            self._checks.append(known)
            return
        self._checks.append(self._compared(rule))
        self._watcher.tell_comparison(self._checks[-1])

    def _is_of(self, rule: Statistical, known: GapCheck) -> bool:
        """Whether a comparison is the one that a rule would make now: of the same bound, with the same scenarios."""
        seed = fresh_seed(self._seed, len(self._bounds), 0)
        asked = (self._bound_float(), seed, rule.scenarios, rule.confidence)
        return asked == (known.bound, known.seed, known.scenarios, known.confidence)

    def _compared(self, rule: Statistical) -> GapCheck:
        """The bound beside the mean of fresh scenarios, several runs of them where one report may not hold so many."""
        count = len(self._bounds)
        with ThreadPoolExecutor(min(MOST_AT_A_TIME, os.cpu_count() or 1)) as several:
            costs = [cost for part in several.map(self._costs, self._parts(rule.scenarios, count)) for cost in part]
        mean, bound = fmean(costs), self._bound_float()
        gap = bound - mean if self._compiled.maximizes else mean - bound
        seconds = time.monotonic() - self._begun
        return GapCheck(
            count, bound, mean, half_width(costs, rule.confidence), gap, len(costs), fresh_seed(self._seed, count, 0), seconds, rule.confidence,
        )

    def _parts(self, scenarios: int, iteration: int) -> List[Tuple[int, int]]:
        """The runs in which scenarios are drawn: the seed and the number of each. Where not even one fits, the program says so."""
        most = max(1, min(MOST_OF_A_RUN, sizes(self._compiled).most_scenarios()))
        starts = range(0, scenarios, most)
        return [(fresh_seed(self._seed, iteration, part), min(most, scenarios - start)) for part, start in enumerate(starts)]

    def _costs(self, part: Tuple[int, int]) -> List[float]:
        """The costs of the scenarios of a run."""
        words = ["simulate", str(self._journal), *map(str, part)]
        ended = run(self._program, words, self._compiled.problem)
        if ended.status != 0:
            raise failure(self._compiled, ended)
        return end_costs(self._compiled, ended.output)

    def _bound_float(self) -> float:
        return bound_float(self._compiled, self._bound)

    def _result(self, reason: str) -> Training:
        self._tell()
        return Training(
            self._journal, self._seed, self._bounds, self._bound_float(), self._bound, self._unanswered,
            time.monotonic() - self._begun, reason, tuple(self._checks), self._compiled.maximizes,
        )

    def _interrupted(self) -> TrainingInterrupted:
        """What the journal kept, and how to go on."""
        self._take(self._checked(), tells=False)
        kept, bound = len(self._bounds), self._bound_float()
        said = f"training was interrupted: {kept} iterations are kept in {self._journal}"
        said += f", with the bound {bound:.6f}" if kept else ""
        said += f"; to go on, call train again with the same model, this journal and seed {self._seed}"
        return TrainingInterrupted(said, kept, bound if kept else None)
