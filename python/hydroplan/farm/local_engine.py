"""An engine of the standard library alone: workers of this machine, which this process drives by pipes.

A worker whose process lives on needs no thread: what it writes waits in its pipe until somebody looks. A run of the built program has a thread
that waits for it.
"""
from __future__ import annotations

import os
import select
import threading
import time
from itertools import product
from pathlib import Path
from typing import Callable, Dict, Iterable, List, Mapping, Optional, Sequence, Set, Tuple

from .engine import DONE, RUNNING, Call, Teller
from .errors import WorkerFault
from .living import MOST_JOINED, Living
from .program import worker_to_run
from .work import Order, Worker, broken

KEPT_TELLERS = 3
MOST_FEEDING = 0.1
"""So many seconds at most are spent on writing the problem to processes before their first orders; they are given the rest with these."""


class LocalCall:
    """An order that a worker of this machine has."""

    def __init__(self, worker: Worker, order: Order) -> None:
        self._worker = worker
        self.order = order
        self.found: Optional[bytes] = None
        self.is_quiet = False
        """Whether its process has nothing to say, as far as is known."""

    def begin(self) -> None:
        """Begins the order, and does it where no process lives on."""
        self._do(self._worker.begin)

    def _do(self, deed: Callable[[Order], Optional[bytes]]) -> None:
        try:
            self.found = deed(self.order)
        except Exception as fault:  # whatever it is, it is told
            self.found = broken(fault)

    def living(self) -> Optional[Living]:
        """The process that is at work on it."""
        return self._worker.living(self.order["run"]) if self.found is None else None

    def state(self) -> str:
        """As `Call.state`."""
        if self.found is None and not self.is_quiet and self.living() is not None:
            self._do(self._worker.look)
        return RUNNING if self.found is None else DONE

    def answer(self, most: int) -> bytes:
        """As `Call.answer`."""
        if self.found is None or len(self.found) > most:
            raise WorkerFault("its answer is more than was asked for")
        return self.found

    def drop(self) -> None:
        """As `Call.drop`."""


class LocalEngine:
    """So many workers of this machine, with a program, and with the one whose processes live on, where that is there."""

    def __init__(self, count: int, program: Path) -> None:
        self._program = program
        self._workers = {str(number): Worker() for number in range(1, count + 1)}
        self._tellers: Dict[str, Optional[Living]] = {}
        """The processes that tell the last rounds that were spoken of, by the names of these."""
        self._is_crowded = count >= processors()
        self._woken, self._wakes = os.pipe()
        self._is_open, self._lock = True, threading.Lock()

    def workers(self) -> Dict[str, str]:
        """As `Engine.workers`."""
        return {name: name for name in self._workers}

    def ready(self, problem: bytes, paths: int) -> None:
        """As `Engine.ready`."""
        program = worker_to_run(self._program)
        if program is not None and len(self._workers) <= MOST_JOINED:
            begun = [it.ready(program, problem, paths) for it in self._workers.values()]
            until = time.monotonic() + MOST_FEEDING
            for living in begun:
                living.feed(until)

    def ahead(self, run: str, name: str, parts: Sequence[Sequence[bytes]], count: int, seeds: Mapping[str, Tuple[int, int]]) -> None:
        """As `Engine.ahead`. All are given a part before anybody is given the next, so that nobody waits while much is copied for others."""
        teller, behind = self._teller(run, name), self._behind(run, name)
        first = min((living.handed for _, living in behind), default=0) + 1
        for given, (address, living) in product(range(min(first, len(parts)), len(parts) + 1), behind):
            living.ahead(parts[:given], count, living is teller, seeds.get(address))

    def tell(self, run: str, name: str, parts: Sequence[Sequence[bytes]]) -> Optional[Teller]:
        """As `Engine.tell`."""
        teller = self._teller(run, name)
        if teller is not None and teller.name == name:
            teller.ahead(parts, len(parts), is_told=True)
        return teller

    def _behind(self, run: str, name: str) -> List[Tuple[str, Living]]:
        """The processes that do a round of this name, or have done it, by their addresses."""
        found = [(address, worker.behind(run, name)) for address, worker in self._workers.items()]
        return [(address, living) for address, living in found if living is not None]

    def _teller(self, run: str, name: str) -> Optional[Living]:
        """The process that tells a round of this name: from the first question on, one that has nothing to do then."""
        if name not in self._tellers:
            found = next((it for _, it in self._behind(run, name) if it.is_idle()), None)
            self._tellers = {**dict([*self._tellers.items()][-KEPT_TELLERS:]), name: found}
        return self._tellers[name]

    def spent(self, run: str) -> Optional[float]:
        """As `Engine.spent`. Runs of the built program do not say."""
        found = [worker.living(run) for worker in self._workers.values()]
        return sum(it.spent() for it in found if it is not None) if any(found) else None

    def begin(self, address: str, order: Order) -> Call:
        """As `Engine.begin`."""
        call = LocalCall(self._workers[address], {**order, "place": str(self._program)})
        if self._workers[address].can_live(call.order):
            call.begin()
        else:
            threading.Thread(target=self._run, args=(call,), daemon=True).start()
        return call

    def _run(self, call: LocalCall) -> None:
        """Does an order to its end, and wakes whoever waits."""
        call.begin()
        with self._lock:
            if self._is_open:
                os.write(self._wakes, b"!")

    def rest(self, run: str, seconds: float) -> None:
        """As `Engine.rest`."""
        ahead = [it for it in (worker.living(run) for worker in self._workers.values()) if it is not None and it.is_ahead()]
        if ahead:
            self._poll_of(ahead).poll(seconds * 1000)

    def wait(self, calls: Iterable[Call], seconds: float) -> None:
        """As `Engine.wait`."""
        waiting = [it if isinstance(it, LocalCall) and it.found is None else None for it in calls]
        running = [it for it in waiting if it is not None]
        if len(running) == len(waiting):
            watched = [(it, living) for it, living in ((it, it.living()) for it in running) if living is not None]
            poll = self._poll_of([living for _, living in watched])
            poll.register(self._woken, select.POLLIN)
            most = 0 if any(living.has_come() for _, living in watched) else seconds
            self._heard(watched, {place for place, _ in poll.poll(most * 1000)})

    def _heard(self, watched: Iterable[Tuple[LocalCall, Living]], places: Set[int]) -> None:
        """Marks the calls whose processes have nothing to say, where some have: where none has, a time may be over."""
        if self._woken in places:
            os.read(self._woken, 1 << 12)
        for call, living in watched:
            call.is_quiet = bool(places) and not (living.is_telling() or living.has_come() or living.is_at(places))

    def _poll_of(self, processes: Sequence[Living]) -> "select.poll":
        """A poll for what processes do next.

        Where they have all processors, it leaves out one that tells a round first, as long as others are at work: this process would take one of
        them away to read what is of no use yet, and its answer is of use with theirs.
        """
        poll = select.poll()
        silent = [it for it in processes if not it.is_telling()] if self._is_crowded else processes
        for living in silent or processes:
            living.watch(poll)
        return poll

    def close(self, run: str) -> None:
        """As `Engine.close`."""
        for worker in self._workers.values():
            worker.kill(run)
        for worker in self._workers.values():
            worker.forget(run)
        with self._lock:
            self._is_open = False
            os.close(self._woken)
            os.close(self._wakes)


def processors() -> int:
    """The processors that this process may have."""
    try:
        return len(os.sched_getaffinity(0))
    except AttributeError:  # another system
        return os.cpu_count() or 1
