"""Training in rounds: every part of a round is trained by some worker, the parts are joined, and `check` proves the whole.

The records of a round go to the workers as they came, with the orders of the next one. While the workers are at that, the round is joined and
checked. What stands in the journal is proved; what does not is on its way and is done again after a kill.
"""
from __future__ import annotations

import os
import time
from itertools import count
from typing import Dict, List, Optional, Tuple

from .asking import Asking, Came, failure_of
from .errors import WorkerFault
from .journals import JOURNAL_REFUSED, unframed
from .plan import Plan
from .program import digest_of
from .proving import Job, Overturned, Owner, Proving, Round
from .rounds import iterations_of_round, part_seed
from .work import PROGRAM_FAILED, Order, forget, perform

LEAST_SECONDS, PATIENCE = 30.0, 10.0
LOOKS_EVERY = 0.05
COORDINATOR = "the coordinator"


class FarmTraining:
    """A training that goes on: which rounds there are, and who is asked for their parts."""

    def __init__(self, job: Job, plan: Plan, proving: Proving, records: int) -> None:
        self.plan = plan
        self.proving = proving
        self._job = job
        self.records = records
        """The records behind which the next round begins."""
        self._asking: Asking
        self._last: Optional[Round] = None
        self._to_join: Optional[Round] = None
        self._known: Dict[str, Tuple[str, str]] = {}
        least, with_one = (sum(it.bytes(paths) for it in job.shape.extent.nodes) for paths in (0, 1))
        self._bytes = least, with_one - least
        """What formula 3 has for an entry without cuts, and by how much it rises with each path."""
        self._session = os.urandom(8).hex()
        self._names = count(1)
        self._round = 0
        self._pace = self._looked = 0.0
        self._digests = {"program": digest_of(job.program), "living": "" if job.living is None else digest_of(job.living)}
        self.shares: Dict[str, int] = {}
        self.seconds = 0.0
        """From the first order to the last answer."""
        proving.settled = self._settled

    @property
    def run_name(self) -> str:
        """The name by which workers know this run."""
        return self._job.run

    def run(self, asking: Asking) -> None:
        """Trains until the journal has as many records as the job says."""
        self._asking = asking
        self.proving.tell = lambda name, parts: asking.tell(self._job.run, name, parts)
        begun, current = time.monotonic(), self._next()
        while current is not None:
            try:
                self._collect(current)
                self.seconds = time.monotonic() - begun
                self._join_last()
                self._last = self._to_join = current
                self.records = current.records + sum(current.counts)
                current = self._next()
            except Overturned as fault:
                current = self._taken_back(fault)

    def _name(self) -> str:
        """A name that nothing had before."""
        return f"{self._session}-{next(self._names)}"

    def _next(self) -> Optional[Round]:
        """The round behind those that are there; none where all is trained and proved."""
        counts = iterations_of_round(self.records, self._job.count, self.plan.parts or 1)
        if not counts:
            self._settle()
            return None
        self._round += 1
        return Round(self._round, self.records, self._name(), counts, self._most_bytes(self.records, max(counts)))

    def _taken_back(self, fault: Overturned) -> Round:
        """The round that was refused, without what came from whoever is to blame. All that came behind it is dropped."""
        self._asking.drop_all()
        self._last = self._to_join = None
        self._known.clear()
        again = fault.round
        self._round, again.name = again.number, self._name()
        owner = again.owners[fault.part]
        for part in [it for it, other in again.owners.items() if other.name == owner.name]:
            del again.owners[part], again.answers[part]
        self._asking.refuse(owner.name, str(fault))
        return again

    def _collect(self, current: Round) -> None:
        """Asks workers until each part of a round has an answer of the right form; meanwhile those before it are joined and checked."""
        self._asking.forget_lost()
        self._asking.rest(self._job.run, LOOKS_EVERY)
        while current.missing():
            if self._pace:
                self._asking.seconds = max(LEAST_SECONDS, PATIENCE * self._pace * max(current.counts))
            self._asking.give(current.missing(), lambda part, address: self._order(current, part, address))
            self._asking.wait(LOOKS_EVERY)
            took, missing = self._take_all(current), len(current.missing())
            if (took and 0 < 2 * missing <= len(current.counts)) or time.monotonic() - self._looked > LOOKS_EVERY:
                self._look()

    def _look(self) -> None:
        """Has the round before the present one joined, and looks at checks: once half of the workers are idle, where that can be."""
        self._looked = time.monotonic()
        self.proving.seconds = self._asking.seconds
        self._join_last()
        self.proving.look()

    def _take_all(self, current: Round) -> bool:
        """Takes what came of parts; whether anything did."""
        number = 0
        for number, came in enumerate(self._asking.come(), 1):
            self._take(current, came)
        return number > 0

    def _join_last(self) -> None:
        """Joins the round before the present one, where that was not done yet."""
        last, self._to_join = self._to_join, None
        if last is not None:
            self.proving.join(last)

    def _settle(self) -> None:
        """Joins and proves all that is there."""
        self._join_last()
        self.proving.settle()

    def _order(self, current: Round, part: int, address: str) -> Order:
        """The order of a part of a round, with what this worker lacks of the records before it."""
        job, last = self._job, self._last
        base, own = self._known.pop(address, ("", ""))
        parts: List[Optional[List[bytes]]] = []
        whole: Optional[bytes] = None
        if last is not None and base == last.name:
            mine = next((it for it, owner in last.owners.items() if (owner.address, owner.order) == (address, own)), -1)
            parts = [None if it == mine else records for it, records in enumerate(last.parts())]
            own = own if mine >= 0 else ""
        elif base != current.name:
            self._join_last()
            base, own, whole = "", "", self.proving.whole()
        problem = None if whole is None else job.problem
        self.proving.spent.sent += sum(len(record) for it in parts if it for record in it) + len(whole or b"") + len(problem or b"")
        return {
            "kind": "train", "run": job.run, **self._digests, "place": "", "digest": job.shape.digest, "most_parts": self.plan.parts or 1,
            "seed": part_seed(job.seed, part), "batch": job.batch, "records": current.records, "count": current.records + current.counts[part],
            "order": self._name(), "base": base, "name": current.name, "own": own if parts else "", "parts": parts,
            "whole": whole, "problem": problem, "most": current.most, "seconds": self._asking.seconds,
        }

    def _most_bytes(self, records: int, iterations: int) -> int:
        """The most bytes that so many iterations may make behind so many records, by formula 3."""
        paths = self._job.paths
        least, more = self._bytes
        return iterations * (5 + paths * (10 + least + more * (records + iterations) * paths)) + 1

    def _take(self, current: Round, came: Came) -> None:
        """Takes what came of a part, where it has the right form."""
        self.proving.spent.training += came.seconds
        self.proving.spent.received += 0 if isinstance(came.answer, WorkerFault) else len(came.answer)
        found = self._asking.read(came)
        if found is not None and found[0] == PROGRAM_FAILED:
            self._take_failure(current, came, found[1])
        elif found is not None:
            self._take_records(current, came, found[1])

    def _take_records(self, current: Round, came: Came, tail: bytes) -> None:
        """Takes the records of a part, as many as were asked for."""
        wanted = current.counts[came.part]
        try:
            found = unframed(tail, wanted)
        except ValueError:
            found = []
        if len(found) != wanted:
            self._asking.refuse(came.name, f"its answer is no {wanted} records")
            return
        for number, record in enumerate(found, current.records + 1):
            if record[:4] != number.to_bytes(4, "big"):
                self._asking.refuse(came.name, f"iteration {int.from_bytes(record[:4], 'big')} in place of {number}")
                return
        current.answers[came.part] = found
        current.owners[came.part] = Owner(came.address, came.name, came.order, came.seconds / wanted)
        self._known[came.address] = (current.name, came.order)
        self._tell_ahead(current)

    def _tell_ahead(self, current: Round) -> None:
        """Tells workers of the first parts of a round that are there, unless it is the last one."""
        parts, records = current.first_parts(), current.records + sum(current.counts)
        if parts and records < self._job.count:
            counts = iterations_of_round(records, self._job.count, self.plan.parts or 1)
            seeds = [(part_seed(self._job.seed, part), it) for part, it in enumerate(counts)]
            self._asking.ahead(self._job.run, current.name, parts, len(current.counts), seeds)

    def _take_failure(self, current: Round, came: Came, said: bytes) -> None:
        """Does a part itself where a worker says that the program fails on it: nobody is believed that a problem has no solution.

        Before that all rounds are proved, since the records of another worker may be what it fails on.
        """
        self._settle()
        if said.startswith(b"%d " % JOURNAL_REFUSED) and not came.is_whole:
            return
        order = dict(self._order(current, came.part, ""), place=str(self._job.program), living="")
        answer = perform(order)
        forget(self._job.run)
        if answer[:1] == PROGRAM_FAILED:
            raise failure_of(answer)
        self._asking.refuse(came.name, "it says that the program fails, which it does not here")
        current.answers[came.part] = unframed(answer[1:], current.counts[came.part])
        current.owners[came.part] = Owner("", COORDINATOR, "", 0.0)

    def _settled(self, settled: Round) -> None:
        """Counts who did a round that is proved, and how long its parts took."""
        for part, owner in settled.owners.items():
            self.shares[owner.name] = self.shares.get(owner.name, 0) + settled.counts[part]
            self._pace = max(self._pace, owner.pace)
