"""Workers and what they are asked: who gets an order, what comes back, who is silent, and who is not asked any more."""
from __future__ import annotations

import time
from typing import Callable, Dict, Iterator, List, NamedTuple, Optional, Sequence, Set, Tuple, Union

from .engine import DONE, FAILED, GONE, RUNNING, Call, Engine, Teller
from .errors import FarmError, WorkerFault, WorkerLeft
from .plan import MOST_REFUSALS, Plan
from .work import BROKEN, LACKING, OTHER_PROGRAM, PROGRAM_FAILED, SIMULATED, TRAINED, Order

NOT_RUN = 1
MOST_LOST = 20
Answer = Union[bytes, WorkerFault]
Say = Callable[[str], None]


class Given(NamedTuple):
    """An order that a worker has: the worker, the order's name, the call, when it was given, the most bytes of its answer, and whether it
    lacks nothing."""

    address: str
    name: str
    order: str
    call: Call
    begun: float
    most: int
    is_whole: bool


class Came(NamedTuple):
    """What came of a part: the worker, the order's name, the answer or what is wrong with it, the seconds, and whether the order lacked
    nothing."""

    part: int
    address: str
    name: str
    order: str
    answer: Answer
    seconds: float
    is_whole: bool


class Asking:
    """Hands orders to workers, one at a time to each."""

    def __init__(self, engine: Engine, plan: Plan, seconds: float, say: Say) -> None:
        self._engine = engine
        self._plan = plan
        self._say = say
        self._given: Dict[int, Given] = {}
        self._late: Dict[str, Call] = {}
        self._home: Dict[int, str] = {}
        self._out: Set[str] = set()
        self._lost: Dict[int, int] = {}
        self._alone_since: Optional[float] = None
        self._ahead: Optional[float] = None
        """When workers were given their next orders ahead, where they were."""
        self.seconds = seconds
        """After so many seconds a worker that did not answer is silent."""

    def refuse(self, name: str, reason: str) -> None:
        """Names a worker that sent what does not count; after three times it is not asked again."""
        count = self._plan.refuse(name)
        last = f"; {count} times: it is not asked again" if count >= MOST_REFUSALS else ""
        self._say(f"worker {name} refused: {reason}{last}")

    def leave_out(self, address: str, name: str, reason: str) -> None:
        """Asks a worker no more, through no fault of its records."""
        self._out.add(address)
        self._say(f"worker {name} is not asked: {reason}")

    def give(self, parts: Sequence[int], order_of: Callable[[int, str], Order]) -> None:
        """Gives the orders of parts that nobody has to workers that are free: those who had them last, where that can be."""
        waiting = [it for it in parts if it not in self._given]
        there = self._engine.workers() if waiting else {}
        free = [it for it in there if self._is_free(it, there[it])]
        for part in sorted(waiting, key=lambda it: self._home.get(it, "") not in free):
            if not free:
                break
            address = self._chosen(part, free, waiting)
            free.remove(address)
            self._home[part] = address
            order, begun = order_of(part, address), self._ahead or time.monotonic()
            call, is_whole = self._engine.begin(address, order), order["whole"] is not None
            self._given[part] = Given(address, there[address], order["order"], call, begun, order["most"], is_whole)
        self._ahead = None
        self._require_workers()

    def ahead(self, run: str, name: str, parts: Sequence[Sequence[bytes]], count: int, seeds: Sequence[Tuple[int, int]]) -> None:
        """Tells workers of the first of so many parts of a round, whose records their next orders will bring; `seeds` are those of these orders."""
        homes = [self._home.get(part, "") for part in range(len(seeds))]
        are_sure = len(set(homes)) == len(homes) and not self._late
        self._engine.ahead(run, name, parts, count, dict(zip(homes, seeds)) if are_sure else {})
        self._ahead = time.monotonic() if are_sure and len(parts) == count else None

    def rest(self, run: str, seconds: float) -> None:
        """Lets workers that have begun ahead go first, until one of them says something, or so many seconds have passed."""
        if self._ahead is not None:
            self._engine.rest(run, seconds)

    def tell(self, run: str, name: str, parts: Sequence[Sequence[bytes]]) -> Optional[Teller]:
        """The worker that tells a round as it stands joined, if there is one."""
        return self._engine.tell(run, name, parts)

    def _is_free(self, address: str, name: str) -> bool:
        late = self._late.get(address)
        if late is not None and late.state() == RUNNING:
            return False
        if late is not None:
            self._late.pop(address).drop()
        return not (self._plan.is_out(name) or address in self._out or any(it.address == address for it in self._given.values()))

    def _chosen(self, part: int, free: List[str], waiting: Sequence[int]) -> str:
        """The worker that had the part last, else one that is nobody's, else the first."""
        if self._home.get(part) in free:
            return self._home[part]
        wanted = {self._home.get(it) for it in waiting}
        return next((it for it in free if it not in wanted), free[0])

    def _require_workers(self) -> None:
        """FarmError where nobody was at work for too long."""
        if self._given:
            self._alone_since = None
        elif self._alone_since is None:
            self._alone_since = time.monotonic()
        elif time.monotonic() - self._alone_since > min(self.seconds, 60):
            raise FarmError("no worker is left that may be asked", NOT_RUN)

    def wait(self, seconds: float) -> None:
        """Waits until something came, and no longer than so many seconds."""
        if self._given:
            self._engine.wait([it.call for it in self._given.values()], seconds)
        else:
            time.sleep(seconds)

    def come(self) -> Iterator[Came]:
        """What came since, part by part. A part whose worker left has nobody again."""
        for part, given in sorted(self._given.items()):
            state, took = given.call.state(), time.monotonic() - given.begun
            if state == GONE:
                self._lose(part, given)
            elif state == RUNNING and took > self.seconds:
                self._late[given.address] = self._given.pop(part).call
                silent = WorkerFault(f"it is silent after {took:.0f} seconds")
                yield Came(part, given.address, given.name, given.order, silent, took, given.is_whole)
            elif state in (DONE, FAILED):
                answer = _answer(given)
                if isinstance(answer, WorkerLeft):
                    self._lose(part, given)
                    continue
                del self._given[part]
                yield Came(part, given.address, given.name, given.order, answer, took, given.is_whole)
                given.call.drop()

    def read(self, came: Came) -> Optional[Tuple[bytes, bytes]]:
        """The kind of an answer that did what was asked or says that the program failed, and what stands behind that; else none.

        Whoever sent anything else is named, or asked no more, or asked again with the whole journal.
        """
        if isinstance(came.answer, WorkerFault):
            self.refuse(came.name, str(came.answer))
            return None
        kind = came.answer[:1]
        if kind == OTHER_PROGRAM:
            self.leave_out(came.address, came.name, "it has another program")
        elif kind == LACKING and came.is_whole:
            self.refuse(came.name, "it says that it lacks what it was sent")
        elif kind in (TRAINED, SIMULATED, PROGRAM_FAILED):
            return kind, came.answer[1:]
        elif kind == BROKEN:
            self.refuse(came.name, f"it failed: {came.answer[1:].decode('utf-8', 'replace')}")
        elif kind != LACKING:
            self.refuse(came.name, "its answer is of no kind")
        return None

    def _lose(self, part: int, given: Given) -> None:
        self._say(f"worker {given.name} left")
        self._given.pop(part).call.drop()
        self._lost[part] = self._lost.get(part, 0) + 1
        if self._lost[part] > MOST_LOST:
            raise FarmError(f"the workers that had part {part} left {MOST_LOST} times", NOT_RUN)

    def forget_lost(self) -> None:
        """Counts anew how often workers left."""
        self._lost.clear()

    def drop_all(self) -> None:
        """Takes all orders back. Who has one is busy until it is done."""
        for given in self._given.values():
            self._late[given.address] = given.call
        self._given.clear()
        self._ahead = None


def _answer(given: Given) -> Union[Answer, WorkerLeft]:
    try:
        return given.call.answer(given.most)
    except (WorkerFault, WorkerLeft) as fault:
        return fault


def failure_of(answer: bytes) -> FarmError:
    """The error that an answer of the kind PROGRAM_FAILED tells of: the program's status and its line."""
    status, _, said = answer[1:].decode("utf-8", "replace").partition(" ")
    line = said.strip().replace("hydroplan: ", "", 1) or "the program failed"
    return FarmError(line, int(status) if status.isdigit() else NOT_RUN)
