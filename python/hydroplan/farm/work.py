"""What a worker does: it keeps the joined records between rounds, puts behind them what it is sent, trains, and sends its new records.

An order is a dictionary, so that no class has to be known where it arrives. Its `base` names the records that the worker has to have, `parts`
are those of the round before, with none in the place of its own, `name` is that of all of them together, and `whole` has them all for who has
none. An answer is bytes, of which the first says what they are.
"""
from __future__ import annotations

import threading
from pathlib import Path
from typing import Any, Dict, List, Mapping, Optional, Sequence, Union

from ..errors import ProgramMissing
from .joined import PartFault
from .early import BEGUN
from .journals import JOURNAL_REFUSED, unframed
from .kept import KeptJournal
from .living import MOST_JOINED, MOST_LINE, Living, ProcessFault
from .program import digest_of, program_to_run, worker_to_run
from .shape import MOST_ITERATIONS

TRAINED, LACKING, OTHER_PROGRAM, PROGRAM_FAILED, SIMULATED, BROKEN = b"T", b"L", b"P", b"F", b"S", b"E"
LOOKS_EVERY = 0.2

Order = Mapping[str, Any]
Kept = Union[KeptJournal, Living]


class Worker:
    """Does orders, one at a time, since what it keeps of a run has one writer."""

    def __init__(self) -> None:
        self._kept: Dict[str, Kept] = {}
        self._spare: Optional[Living] = None
        self._lock = threading.Lock()

    def ready(self, program: Path, problem: bytes, paths: int) -> Living:
        """Begins a process before the first order, which it will be there for if it is of this program and this problem."""
        self._spare = Living(program, problem, paths, BEGUN.worker(program, problem, paths))
        return self._spare

    def perform(self, order: Order) -> bytes:
        """Does what an order says, `train` or `simulate`, to its end."""
        with self._lock:
            found = self.begin(order)
            while found is None:
                living = self.living(order["run"])
                if living is not None:
                    living.wait(LOOKS_EVERY)
                found = self.look(order)
            return found

    def begin(self, order: Order) -> Optional[bytes]:
        """Begins an order. The answer, where it is there; none where a process is at work on it, at which `look` looks."""
        living = self.living(order["run"])
        if living is not None and _has_what_it_takes(living, order):
            _give(living, order)
            return None
        program = _program(order)
        if program is None:
            return OTHER_PROGRAM
        kept = self._kept.pop(order["run"], None)
        if kept is None or not _has_what_it_takes(kept, order):
            _end(kept)
            if order["whole"] is None:
                return LACKING
            kept = self._begun(order)
        self._kept[order["run"]] = kept
        if isinstance(kept, KeptJournal):
            return _by_program(kept, order, program)
        _give(kept, order)
        return None

    def _begun(self, order: Order) -> Kept:
        """The joined records anew, from the whole of them, in a process that lives on where that can be."""
        program = _living_program(order)
        if program is None:
            return KeptJournal(order)
        living = self._begun_for(program, order)
        if order["whole"]:
            living.join([unframed(order["whole"][1:], MOST_ITERATIONS)])
        return living

    def _begun_for(self, program: Path, order: Order) -> Living:
        """A process that has no other order yet: the one that was begun before, else a new one."""
        spare, self._spare = self._spare, None
        wanted = (program, order["problem"], order["batch"] or 1)
        if spare is not None and spare.is_of == wanted and spare.may_begin(order["seed"], _count(order), bool(order["whole"])):
            return spare
        _end(spare)
        return Living(*wanted)

    def look(self, order: Order) -> Optional[bytes]:
        """The answer to an order that was begun, once it is there."""
        kept = self._kept[order["run"]]
        assert isinstance(kept, Living)
        try:
            records = kept.answer()
        except ProcessFault as fault:
            del self._kept[order["run"]]
            return self._after(fault, kept, order)
        if records is None:
            return None
        kept.own, kept.own_name = records, order["order"]
        return TRAINED + b"\x01".join(len(it).to_bytes(4, "big") + it for it in records)

    def _after(self, fault: ProcessFault, kept: Living, order: Order) -> Optional[bytes]:
        """What comes of an order whose process ended. One that somebody killed is begun anew, once for the same order."""
        if not fault.was_killed or kept.is_second:
            return _failed(fault.status, str(fault))
        if order["whole"] is None:
            return LACKING
        found = self.begin(order)
        again = self.living(order["run"])
        if again is not None:
            again.is_second = True
        return found

    def can_live(self, order: Order) -> bool:
        """Whether an order is done by a process that lives on."""
        return self.living(order["run"]) is not None or _living_program(order) is not None

    def living(self, run: str) -> Optional[Living]:
        """The process that is kept of a run."""
        kept = self._kept.get(run)
        return kept if isinstance(kept, Living) else None

    def behind(self, run: str, name: str) -> Optional[Living]:
        """The process that does a round of this name, or has done it."""
        living = self.living(run)
        return living if living is not None and living.name == name else None

    def kill(self, run: str) -> None:
        """Kills the processes of a run, whose ends are waited for when it is forgotten."""
        for living in (self.living(run), self._spare):
            if living is not None:
                living.kill()

    def forget(self, run: str) -> None:
        """Ends and removes what is kept of a run."""
        with self._lock:
            spare, self._spare = self._spare, None
            _end(spare)
            _end(self._kept.pop(run, None))

    def forget_all(self) -> None:
        """Ends and removes all that is kept."""
        for run in list(self._kept):
            self.forget(run)


_WORKER = Worker()


def perform(order: Order) -> bytes:
    """Does what an order says, by the worker of this process."""
    return _WORKER.perform(order)


def answer(order: Order) -> bytes:
    """As `perform`, and never an exception: what went wrong is an answer too."""
    try:
        return perform(order)
    except Exception as fault:  # whatever it is, it is told
        return broken(fault)


def broken(fault: Exception) -> bytes:
    """The answer that tells of an exception."""
    return BROKEN + repr(fault).encode("utf-8", "replace")[:MOST_LINE]


def forget(run: str) -> None:
    """Removes what is kept of a run."""
    _WORKER.forget(run)


def _end(kept: Optional[Kept]) -> None:
    if kept is not None:
        kept.end()


def _failed(status: int, line: str) -> bytes:
    return PROGRAM_FAILED + f"{status} {line}".encode("utf-8", "replace")[:MOST_LINE]


def _program(order: Order) -> Optional[Path]:
    """The program that the order names, if it is here: by its place on one's own machine, else the one that is found, with its digest."""
    try:
        found = Path(order["place"]) if order["place"] else program_to_run()
        return found if digest_of(found) == order["program"] else None
    except (OSError, ProgramMissing):
        return None


def _living_program(order: Order) -> Optional[Path]:
    """The program `hydroplan_worker` that the order names, if it is here and takes so many parts."""
    if order["kind"] != "train" or not order["living"] or order["most_parts"] > MOST_JOINED:
        return None
    try:
        found = worker_to_run(Path(order["place"]) if order["place"] else program_to_run())
        return found if found is not None and digest_of(found) == order["living"] else None
    except (OSError, ProgramMissing):
        return None


def _has_what_it_takes(kept: Kept, order: Order) -> bool:
    """Whether the records that are kept are those behind which the order's come."""
    is_there = order["whole"] is None and kept.name == order["base"] and (not order["own"] or kept.own_name == order["own"])
    return is_there and (isinstance(kept, KeptJournal) or _goes_on(kept, order))


def _goes_on(kept: Living, order: Order) -> bool:
    """Whether a process that has the records may be given the order, beside what it was given ahead."""
    return kept.is_alive() and kept.may_join(_parts(kept, order)) and kept.may_begin(order["seed"], _count(order), False)


def _parts(kept: Kept, order: Order) -> List[Sequence[bytes]]:
    """The records of the round before, by parts: those that were sent, and the worker's own."""
    return [kept.own if it is None else it for it in order["parts"]]


def _give(kept: Living, order: Order) -> None:
    """Gives an order to a process that lives on."""
    if order["parts"]:
        kept.join(_parts(kept, order))
    kept.name = order["name"]
    kept.train(order["seed"], _count(order), order["most"], order["seconds"])


def _count(order: Order) -> int:
    """The iterations that an order asks for."""
    return int(order["count"] - order["records"])


def _by_program(kept: KeptJournal, order: Order, program: Path) -> bytes:
    """Does an order by a run of the built program; the answer."""
    try:
        if order["parts"]:
            kept.join(_parts(kept, order), order["batch"] or 1)
        kept.name = order["name"]
    except PartFault as fault:
        kept.name = ""
        return _failed(JOURNAL_REFUSED, f"part {fault.part}: {fault}")
    is_training = order["kind"] == "train"
    status, line, found = kept.train(order, program) if is_training else kept.simulate(order, program)
    if status != 0:
        return _failed(status, line)
    return (TRAINED if is_training else SIMULATED) + found
