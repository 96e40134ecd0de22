"""Rounds behind a joined journal: the records of the parts in turns, with the numbers and places that they have there."""
from __future__ import annotations

from typing import List, NamedTuple, Sequence, Tuple

from .errors import RecordFault, WorkerFault
from .journals import Growing
from .records import Mover, Pools, base_pools
from .shape import Shape


class PartFault(WorkerFault):
    """What is wrong with the records of a part of a round."""

    def __init__(self, part: int, message: str) -> None:
        super().__init__(message)
        self.part = part


class Front(NamedTuple):
    """The records up to some round: how many there are, where they end in the journal, and the cuts of each node."""

    records: int
    end: int
    pools: Pools


def front_of(shape: Shape, journal: Growing) -> Front:
    """The front that a journal's records make. RecordFault where one is no record of the problem."""
    head, joined = journal.head(), base_pools(shape)
    mover = Mover(shape, joined, joined)
    for number, payload in enumerate(journal.read(), 1):
        mover.record(payload, head.paths, number, number)
    return Front(journal.records, journal.end, joined)


def moved_round(shape: Shape, front: Front, answers: Sequence[Sequence[bytes]], paths: int) -> Tuple[List[bytes], Front]:
    """The records of a round as they are behind a front, and the front that they make.

    PartFault where a part has what is no record of the problem.
    """
    joined = front.pools.copy()
    movers = [Mover(shape, front.pools, joined) for _ in answers]
    found: List[bytes] = []
    for number, (index, part) in enumerate(in_turns([len(it) for it in answers]), front.records + 1):
        try:
            found.append(movers[part].record(answers[part][index], paths, front.records + index + 1, number))
        except RecordFault as fault:
            raise PartFault(part, f"its record {index + 1} is none of this problem: {fault}") from None
    return found, Front(front.records + len(found), front.end + sum(5 + len(it) for it in found), joined)


def in_turns(counts: Sequence[int]) -> List[Tuple[int, int]]:
    """The records of a round in their order, by how many each part has: the number of each among those of its part, and the part."""
    return [(index, part) for index in range(max(counts, default=0)) for part, count in enumerate(counts) if index < count]
