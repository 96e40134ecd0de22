"""`train` on a cluster: the journal is made or looked at by the program, trained in rounds, and reported as the program reports it."""
from __future__ import annotations

import time
from contextlib import closing
from functools import cached_property
from pathlib import Path
from typing import Callable, List, Optional, Union

from ..core import Place, Running, find_program
from .asking import Asking
from .checking import Checking, Verdict
from .early import BEGUN
from .engine import DaskEngine, Engine
from .errors import FarmError, RecordFault
from .joined import Front, front_of
from .journals import Growing, refused
from .local_engine import LocalEngine
from .new_files import created
from .plan import Plan
from .program import Begun, command, program_to_run, worker_to_run
from .proving import Job, Proving, Round
from .rooms import JOURNAL, PROBLEM, room_beside
from .shape import Shape, require_room, shape_of
from .training import FarmTraining

UNIT = 1 << 24
FIRST_WORKERS = 60.0
COPIED_AT_ONCE = 1 << 20


class Words:
    """The words of `train`: the journal, the seed, the iterations in all, the batch, and the cluster."""

    def __init__(
        self, journal: Path, seed: int, count: int, batch: Optional[int], workers: Optional[int], scheduler: Optional[str],
        seconds: float = 600.0, program: Optional[Place] = None,
    ) -> None:
        self.journal, self.seed, self.count, self.batch = journal, seed, count, batch
        self.workers, self.scheduler, self.seconds, self.program = workers, scheduler, seconds, program


class Progress:
    """Says a line for each check that accepted the rounds up to one."""

    def __init__(self, records: int, say: Callable[[str], None]) -> None:
        self._first = records
        self._say = say
        self._begun = time.monotonic()
        self._bound: Optional[int] = None

    def __call__(self, last: Round, records: int, verdict: Verdict) -> None:
        seconds = time.monotonic() - self._begun
        moved = "" if self._bound is None else f" (rose by {(verdict.bound - self._bound) / UNIT:.6f})"
        speed = (records - self._first) / max(seconds, 1e-9)
        self._say(
            f"round {last.number}: {records} iterations, bound {verdict.bound / UNIT:.6f}{moved}, {seconds:.1f} s, {speed:.1f} a second"
        )
        self._bound = verdict.bound


def engine_of(words: Words) -> Engine:
    """The workers that the words ask for: those of a scheduler, or processes of this machine."""
    if words.scheduler is None:
        return LocalEngine(words.workers or 1, program_to_run(words.program))
    return DaskEngine(words.scheduler)


class AtWork:
    """The workers, from the moment that they are asked for. `run` is the name of what they are at."""

    def __init__(self, words: Words, engine_from: Callable[[Words], Engine]) -> None:
        self._words = words
        self._engine_from = engine_from
        self.run = ""

    @cached_property
    def engine(self) -> Engine:
        """By what they are reached."""
        return self._engine_from(self._words)

    def close(self) -> None:
        """Ends those that were started, where there are any."""
        if "engine" in self.__dict__:
            self.engine.close(self.run)


def train(words: Words, problem: bytes, say: Callable[[str], None], engine_from: Callable[[Words], Engine] = engine_of) -> List[str]:
    """Trains a journal until it has so many iterations; the lines of the report, as the program's `train` prints them.

    FarmError with a status as in docs/use/FORMAT.md where the program refuses the problem, the journal or the words, or no worker is left.
    """
    program = program_to_run(words.program)
    living = worker_to_run(program)
    with closing(AtWork(words, engine_from)) as at_work:
        shape = _prepared(words, problem, program, at_work)
        with Growing(words.journal) as journal, room_beside(words.journal, say) as room:
            head, front = journal.head(), _front(words, shape, journal)
            with created(room / PROBLEM) as file:
                file.write(problem)
            _copy(words.journal, room / JOURNAL)
            with Growing(room / JOURNAL, is_synced=False) as scratch:
                scratch.cut(front.records, front.end)
                plan = Plan(words.journal, shape.digest)
                job = Job(problem, shape, program, living, head.seed, head.batch, words.count, plan.run)
                training = FarmTraining(job, plan, Proving(job, front, journal, scratch), front.records)
                verdict = _trained(words, training, at_work, say) if front.records < words.count else None
                return (verdict or Checking(program, scratch.path, room / PROBLEM).verdict()).report


def _copy(journal: Path, copy: Path) -> None:
    """Copies a file to a new one."""
    with journal.open("rb") as source, created(copy) as target:
        while target.write(source.read(COPIED_AT_ONCE)):
            pass


def _prepared(words: Words, problem: bytes, program: Path, at_work: AtWork) -> Shape:
    """Lets the program look at the problem and the journal, and make the journal where there is none; the shape of the problem.

    Meanwhile workers begin to read the problem where the journal is new. Where it is there, the script looks at it first.
    """
    asked = ["train", str(words.journal), str(words.seed), "0", *([] if words.batch is None else [str(words.batch)])]
    early = BEGUN.making(command(program, asked), problem)
    is_new = early is not None or not words.journal.is_file() or words.journal.stat().st_size == 0
    first, *others = command(program if is_new else find_program(words.program), asked)
    with Begun([first, *others], problem, early) if is_new else Running(Path(first), others, problem) as running:
        if is_new and words.count:
            at_work.engine.ready(problem, words.batch or 1)
        found = _shape_or_fault(problem)
        running.wait()
        ended = running.ended()
    if ended.status != 0:
        line = ended.errors.strip() or f"the program ended with status {ended.status}"
        raise FarmError(line.replace("hydroplan: ", "", 1), max(ended.status, 1))
    if isinstance(found, FarmError):
        raise found
    return found


def _shape_or_fault(problem: bytes) -> Union[Shape, FarmError]:
    """The shape of a problem, or why it has none."""
    try:
        return shape_of(problem)
    except FarmError as fault:
        return fault


def _front(words: Words, shape: Shape, journal: Growing) -> Front:
    """The front of the journal. FarmError where a record is none of the problem, or where there is no room for as many as are asked for."""
    try:
        front = front_of(shape, journal)
    except RecordFault as fault:
        raise refused(str(words.journal), str(fault)) from None
    require_room(shape, max(words.count, front.records), journal.head().paths)
    return front


def _trained(words: Words, training: FarmTraining, at_work: AtWork, say: Callable[[str], None]) -> Optional[Verdict]:
    """Trains by workers; the verdict over the last round."""
    at_work.run = training.run_name
    try:
        training.plan.parts = words.workers or training.plan.parts or _workers_there(at_work.engine)
        training.plan.write()
        training.proving.proved = Progress(training.records, say)
        training.run(Asking(at_work.engine, training.plan, words.seconds, say))
    finally:
        training.proving.stop()
    spent = training.proving.spent
    there = len(training.shares) * training.seconds
    say(f"joining took {spent.joining:.2f} s of a processor and checking {spent.checking:.2f} s; "
        f"workers were busy {spent.training:.2f} of {there:.2f} s; "
        f"sent {spent.sent / 1e6:.1f} MB, received {spent.received / 1e6:.1f} MB")
    taken = at_work.engine.spent(training.run_name)
    if taken is not None:
        say(spent.share(taken))
    say("iterations by worker: " + ", ".join(f"{name} {count}" for name, count in sorted(training.shares.items())))
    return training.proving.verdict


def _workers_there(engine: Engine) -> int:
    """The number of workers of a scheduler, where there is one at least within a minute."""
    begun = time.monotonic()
    while not engine.workers():
        if time.monotonic() - begun > FIRST_WORKERS:
            raise FarmError("the scheduler has no worker", 1)
        time.sleep(0.2)
    return len(engine.workers())
