"""What a worker's program writes to its orders: records that it makes, and records of parts that it joins. Orders are taken to be right."""
from __future__ import annotations

from dataclasses import replace
from typing import Dict, List, Optional, Sequence, Tuple

from .journal import Bytes, entry_in, number, payload
from .problem import Problem, problem_of
from .settling import Certificate
from .training import Entry, Step, Training

Record = List[Entry]
CutAt = Tuple[int, int]
"""A node, and the place of one of its cuts."""


def framed(record: Record) -> bytes:
    """A record's payload behind its length."""
    made = payload(record)
    return number(len(made), 4) + made


class Part:
    """The places that a part's cuts have among the joined ones, by those that it gave them."""

    def __init__(self, cuts: Sequence[int]) -> None:
        self.cuts, self.places = list(cuts), {}  # type: Tuple[List[int], Dict[CutAt, int]]

    def moved(self, problem: Problem, step: Step) -> Step:
        """A step with the pairs of its certificates at the joined places."""
        node, certificates = step
        followers = [follower for follower, _ in problem.places[node].successors]
        return node, [Certificate(it.rows, tuple(tuple((self.places.get((follower, place), place), multiplier) for place, multiplier in pairs)
                                                 for follower, pairs in zip(followers, it.cuts))) for it in certificates]


class Worker:
    """The program: a problem, and the records that are joined so far."""

    def __init__(self, data: Bytes) -> None:
        self.batch = data.number(2)
        self.problem = problem_of(data.take(data.number(4)))
        self.joined: List[Record] = []

    def cuts(self) -> List[int]:
        """How many cuts each node has by the joined records, with its base cut."""
        steps = [node for record in self.joined for entry in record for node, _ in entry.steps]
        return [1 + steps.count(node) for node in range(len(self.problem.places))]

    def trained(self, seed: int, count: int) -> List[Record]:
        """The records of so many iterations behind the joined ones."""
        training = Training(self.problem, seed, self.batch)
        for record in self.joined:
            training.put(record)
        training.train(len(self.joined) + count)
        return training.records[len(self.joined):]

    def join(self, record: Record, part: Part) -> None:
        """Joins the next record of a part."""
        cuts, entries = self.cuts(), []
        for entry in record:
            steps = []
            for step in entry.steps:
                node = step[0]
                steps.append(part.moved(self.problem, step))
                part.places[node, part.cuts[node]] = cuts[node]
                part.cuts[node], cuts[node] = part.cuts[node] + 1, cuts[node] + 1
            entries.append(replace(entry, iteration=len(self.joined) + 1, steps=steps))
        self.joined.append(entries)

    def join_all(self, lists: Sequence[Sequence[Record]]) -> List[Record]:
        """Joins the records of parts in turns, and gives them as they stand joined."""
        before, parts = len(self.joined), [Part(self.cuts()) for _ in lists]
        for turn in range(max(map(len, lists), default=0)):
            for part, records in zip(parts, lists):
                if turn < len(records):
                    self.join(records[turn], part)
        return self.joined[before:]

    def record_in(self, data: Bytes) -> Record:
        """The next record of an order."""
        made = Bytes(data.take(data.number(4)))
        return [entry_in(made, self.problem) for _ in range(self.batch)]

    def written(self, data: Bytes) -> Optional[bytes]:
        """What is written to the next order; none at the end."""
        order = data.take(1)
        if not order:
            return None
        if order == b"T":
            return b"".join(map(framed, self.trained(data.number(8), data.number(4))))
        lists = [[self.record_in(data) for _ in range(data.number(4))] for _ in range(data.number(2))]
        joined = self.join_all(lists)
        return b"".join(map(framed, joined)) if order == b"E" else b""


def answers(data: bytes) -> bytes:
    """All that the program writes to its input."""
    left, found = Bytes(data), []
    worker = Worker(left)
    while (more := worker.written(left)) is not None:
        found.append(more)
    return b"".join(found)
