"""What the coordinator does with rounds beside training: it has them joined, has `check` go over them, and puts them into the journal.

A check goes over all records from the first on. So it waits until the workers have trained much longer than the last one took, and then goes
over all rounds that came meanwhile, and over those that come while it is at that. The last one begins shortly before the last round is there.
"""
from __future__ import annotations

import time
from collections import deque
from math import inf
from pathlib import Path
from typing import Callable, Dict, List, NamedTuple, Optional, Sequence, Tuple, Union

from .checking import LEFT_OVER, NICE, WAITED_FOR, Checking, Verdict
from .errors import FarmError
from .joined import Front, PartFault, in_turns
from .joiner import Ended, Joiner
from .journals import Growing
from .living import MOST_JOINED
from .rooms import PROBLEM
from .shape import Shape
from .told import Tell, Told
from .worker_joiner import Gone, WorkerJoiner

AnyJoiner = Union[Joiner, WorkerJoiner, Told]
SILENT = 600.0
TRAINED_FOR_A_CHECK = 40.0
"""The workers train so many times as long as a check takes before the next one begins."""
HELD_UP = 5.0
"""A check that has gone on for so many seconds, and so many times as long as it takes, is given its share of the processors."""
BEFORE_THE_END = 0.6
"""The last check begins when training will end within so much of the time that it takes."""


class Job:
    """What is trained: the problem, its shape, the program and the living worker's, the seed, the batch, the count, and a name of the run."""

    def __init__(
        self, problem: bytes, shape: Shape, program: Path, living: Optional[Path], seed: int, batch: Optional[int], count: int, run: str,
    ) -> None:
        self.problem, self.shape, self.program, self.living = problem, shape, program, living
        self.seed, self.batch, self.count, self.run = seed, batch, count, run

    @property
    def paths(self) -> int:
        """The paths of an iteration."""
        return self.batch or 1


class Owner(NamedTuple):
    """Who did a part: the address and the name of the worker, the order, and the seconds an iteration took."""

    address: str
    name: str
    order: str
    pace: float


class Round:
    """A round: its number, the records before it, by which name workers know these, the iterations of each part, the most bytes of an answer,
    and what came of it."""

    def __init__(self, number: int, records: int, name: str, counts: Tuple[int, ...], most: int) -> None:
        self.number, self.records, self.name, self.counts, self.most = number, records, name, counts, most
        self.answers: Dict[int, List[bytes]] = {}
        self.owners: Dict[int, Owner] = {}

    def missing(self) -> List[int]:
        """The parts that nobody answered yet."""
        return [it for it in range(len(self.counts)) if it not in self.answers]

    def first_parts(self) -> List[List[bytes]]:
        """The records of the first parts, up to one that nobody answered yet."""
        return [self.answers[it] for it in range(min(self.missing(), default=len(self.counts)))]

    def parts(self) -> List[List[bytes]]:
        """The records of all parts."""
        return [self.answers[it] for it in range(len(self.counts))]


class Joined:
    """A round that is joined behind so many records: where it begins and ends in the copy, once it stands there."""

    def __init__(self, current: Round, before: int) -> None:
        self.round, self.before = current, before
        self.end = before + sum(current.counts)
        """The records up to its last one."""
        self.place: Optional[Tuple[int, int]] = None


class Overturned(Exception):
    """A round that was refused, with the part that is to blame and what is wrong with it. What came behind it is dropped."""

    def __init__(self, refused: Round, part: int, reason: str) -> None:
        super().__init__(reason)
        self.round = refused
        self.part = part


class Spent:
    """Processor seconds of joining and of checking, seconds that workers trained, and the bytes of orders and of answers.

    `beside` are the seconds of joining and checking that other processes took than this one and the workers.
    """

    def __init__(self) -> None:
        self.joining = self.checking = self.training = self.beside = 0.0
        self.sent = self.received = 0

    def join(self, seconds: float, is_beside: bool) -> None:
        """So many seconds were spent on joining, by a process of its own or here."""
        self.joining += seconds
        self.beside += seconds if is_beside else 0.0

    def check(self, seconds: float) -> None:
        """So many seconds were spent on checking."""
        self.checking += seconds
        self.beside += seconds

    def share(self, workers: float) -> str:
        """What share joining and checking have of all processor time, where the workers took so much of it."""
        here = time.process_time()
        share = (self.joining + self.checking) / (workers + here + self.beside)
        return f"processors were busy {workers:.2f} s with workers and {here:.2f} s with this process; joining and checking are {share:.3f} of all"


class Pace:
    """How long a record takes, by the last rounds that were joined."""

    ROUNDS = 8

    def __init__(self, records: int) -> None:
        self._passed = deque([(time.monotonic(), records)], maxlen=self.ROUNDS + 1)

    def add(self, records: int) -> None:
        """So many records are joined now."""
        self._passed.append((time.monotonic(), records))

    def left(self, count: int) -> float:
        """The seconds until so many records are joined; endless before the first round is."""
        (begun, before), (ended, after) = self._passed[0], self._passed[-1]
        if after == before:
            return inf
        return (ended - begun) / (after - before) * (count - after) - (time.monotonic() - ended)


class Proving:
    """The rounds behind a journal. `journal` has what is proved; `scratch` is a copy of it with all rounds that were joined."""

    def __init__(self, job: Job, front: Front, journal: Growing, scratch: Growing) -> None:
        self._job = job
        self._front: Optional[Front] = front
        self._journal = journal
        self._scratch = scratch
        self._records, self._end = front.records, front.end
        """The records with all rounds, and where those end that stand in the copy."""
        self._joiner: Optional[AnyJoiner] = None
        self._joined: List[Joined] = []
        self._checking: Optional[Checking] = None
        self._next_check = 0.0
        self._least, self._lasting = inf, 0.0
        self._pace = Pace(front.records)
        self.tell: Optional[Tell] = None
        """Who of the workers tells a round as it stands joined, as long as they are believed."""
        self.seconds = SILENT
        """After so many seconds without a word whoever joins rounds is silent."""
        self.spent = Spent()
        self.verdict: Optional[Verdict] = None
        self.proved: Callable[[Round, int, Verdict], None] = lambda last, records, verdict: None
        """Called with the last round, the records and the verdict of each check that accepted them."""
        self.settled: Callable[[Round], None] = lambda it: None
        """Called with each round that was put into the journal."""

    def join(self, current: Round) -> None:
        """Has a round joined behind the others. Where a part has what is no record, that comes out later."""
        if self._joiner is None:
            self._joiner, self._front = self._begun(len(current.counts)), None
        self._joined.append(Joined(current, self._records))
        self._records += sum(current.counts)
        _give(self._joiner, current)

    def _begun(self, parts: int) -> AnyJoiner:
        """What joins rounds of so many parts: workers, else a process of their program, where it takes so many, else Python."""
        job = self._job
        if job.living is None or parts > MOST_JOINED:
            return Joiner(job.shape, self._front, self._scratch, job.paths)
        if self.tell is not None:
            return Told(self.tell, self._scratch, self.seconds)
        return WorkerJoiner(job.living, job.problem, self._scratch, job.paths, self.seconds)

    def look(self) -> None:
        """Takes what a check says that is over, and begins another one where it is time. Overturned where a round was refused."""
        self._hear()
        if self._checking is not None and self._checking.is_over():
            self._take_verdict()
        if self._checking is not None and self._checking.is_held_up(HELD_UP * (1 + self._lasting)):
            self._hasten_check(0, NICE)
        if self._checking is None and self._joined and self._joined[0].place is not None and self._is_time():
            self._begin_check(LEFT_OVER)

    def _hear(self, records: int = 0) -> None:
        """Takes what was said of rounds that are joined; waits for those up to so many records. Overturned where a part has what is no record."""
        while self._joiner is not None:
            for said in self._come(self._joiner):
                at = next(at for at, it in enumerate(self._joined) if it.place is None)
                if isinstance(said, PartFault):
                    refused = self._joined[at].round
                    self._take_back(at)
                    raise Overturned(refused, said.part, str(said))
                self._joined[at].place, self._end = (self._end, said.end), said.end
                self._pace.add(said.records)
                self.spent.join(said.seconds, not isinstance(self._joiner, Told))
            if all(it.place is not None for it in self._joined if it.end <= records):
                return
            self._joiner.wait()

    def _come(self, joiner: AnyJoiner) -> List[Union[Ended, PartFault]]:
        """What was said since. Where whoever joins is gone, another joins what that did not tell."""
        found: List[Union[Ended, PartFault]] = []
        try:
            for said in joiner.come():
                found.append(said)
        except Gone:
            self._join_anew([it for it in self._joined if it.place is None][len(found):])
        return found

    def _join_anew(self, rounds: Sequence[Joined]) -> None:
        """Has rounds joined by another than before: by a process of its own in the place of workers, else by Python."""
        joiner, self.tell = self._joiner, None
        is_told = isinstance(joiner, Told)
        if joiner is not None:
            joiner.end()
        job = self._job
        self._joiner = self._begun(1) if is_told else Joiner(job.shape, None, self._scratch, job.paths)
        for it in rounds:
            _give(self._joiner, it.round)

    def _is_time(self) -> bool:
        """Whether a check is to begin: the last one, or one that ends long before that has to begin."""
        if self._is_time_for_the_last():
            return True
        return self.spent.training >= self._next_check and self._pace.left(self._job.count) > 2 * self._lasting

    def _is_time_for_the_last(self) -> bool:
        """Whether training ends within the time that a check takes to come near the end."""
        return self._pace.left(self._job.count) < BEFORE_THE_END * self._lasting

    def settle(self) -> None:
        """Waits until all that was joined is proved. Overturned where a round was refused."""
        self._hear(self._records)
        while self._joined:
            self._hasten_check(self._lasting, WAITED_FOR)
            self._take_verdict()
            self._hear(self._records)

    def _hasten_check(self, seconds: float, taking: str) -> None:
        """Sees to it that others do not hold up a check: where the system does not allow for that within so many seconds, another one begins."""
        if self._checking is not None and not self._checking.hasten(seconds):
            self._checking.end()
            self._checking = None
        if self._checking is None:
            self._begin_check(taking)

    def whole(self) -> bytes:
        """All records with the commit byte before each. Overturned where a round was refused."""
        self._hear(self._records)
        with self._scratch.path.open("rb") as file:
            file.seek(len(self._scratch.head().bytes()))
            return file.read(self._end - file.tell())

    def stop(self) -> None:
        """Ends a check that goes on, and joins no more."""
        if self._checking is not None:
            self._checking.end()
            self._checking = None
        if self._joiner is not None:
            self._joiner.end()
            self._joiner = None

    def _begin_check(self, taking: str) -> None:
        """Begins a check of all that was joined, and of what is joined before it comes to the end."""
        self._checking = Checking(self._job.program, self._scratch.path, self._scratch.path.with_name(PROBLEM), taking)

    def _take_verdict(self) -> None:
        """Waits for the check and puts what it proved into the journal."""
        checking, self._checking = self._checking, None
        if checking is None:
            return
        verdict = checking.verdict()
        self.spent.check(checking.seconds)
        self._next_check = self.spent.training + TRAINED_FOR_A_CHECK * checking.seconds
        if verdict.refused is not None:
            self._overturn(verdict.refused, verdict.line.replace("hydroplan: ", "", 1))
            return
        self._expect(checking.seconds, verdict.records)
        self._hear(verdict.records)
        proved = [it for it in self._joined if it.end <= verdict.records]
        self._joined, self.verdict = self._joined[len(proved):], verdict
        self._put(proved)
        for it in proved:
            self.settled(it.round)
        if proved:
            self.proved(proved[-1].round, self._journal.records, verdict)

    def _put(self, proved: List[Joined]) -> None:
        """Puts rounds into the journal, from the copy."""
        places = [it.place for it in proved if it.place is not None]
        if places:
            self._journal.append_from(self._scratch, places[0][0], places[-1][1], proved[-1].end - proved[0].before)

    def _expect(self, seconds: float, records: int) -> None:
        """Reckons how long a check of all records takes: the least that one took, and the rest of this one in proportion."""
        self._least = min(self._least, seconds)
        self._lasting = self._least + (seconds - self._least) * self._job.count / max(records, 1)

    def _overturn(self, number: int, line: str) -> None:
        """Takes back the round of the record that `check` refused, and all behind it. Where a worker told it, it is joined by another first."""
        self._hear(number)
        at = next((at for at, it in enumerate(self._joined) if it.before < number <= it.end), None)
        if at is None:
            raise FarmError(f"the journal itself was refused: {line}", 6)
        refused = self._joined[at]
        if isinstance(self._joiner, Told):
            self._doubt(at)
            return
        self._take_back(at)
        part = in_turns(refused.round.counts)[number - refused.before - 1][1]
        raise Overturned(refused.round, part, f"`check` says: {line}")

    def _doubt(self, at: int) -> None:
        """Has a round and all behind it joined once more, in case the worker that told it is to blame, and not who made a record of it."""
        doubted = self._joined[at:]
        self._cut(doubted[0])
        for it in doubted:
            it.place = None
        self._join_anew(doubted)

    def _take_back(self, at: int) -> None:
        """Drops a round and all behind it. What joins those that come instead looks at the records before them."""
        dropped = self._joined[at]
        if self._joiner is not None:
            self._joiner.end()
            self._joiner, self.tell = None, None
        self._cut(dropped)
        self._records = dropped.before
        self._pace = Pace(dropped.before)
        del self._joined[at:]

    def _cut(self, first: Joined) -> None:
        """Takes a round and all behind it out of the copy."""
        self._end = self._end if first.place is None else first.place[0]
        self._scratch.cut(first.before, self._end)


def _give(joiner: AnyJoiner, current: Round) -> None:
    """Gives a round to whoever joins it."""
    if isinstance(joiner, Told):
        joiner.give(current.name, current.parts())
    else:
        joiner.give(current.parts())
