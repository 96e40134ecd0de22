"""The bytes that a journal has of training, and training that goes on from them. Bytes are taken to be those of a journal."""
from __future__ import annotations

import hashlib
from typing import Iterator, List, Optional

from .problem import Place, Problem
from .settling import Certificate
from .training import Entry, Step, Training

MAGIC = b"HYDPLAN1"


def number(value: int, size: int) -> bytes:
    """A number in so many bytes, the greatest first."""
    return value.to_bytes(size, "big", signed=value < 0)


def step_bytes(step: Step) -> bytes:
    """A step: its node, and the multipliers of each realization."""
    node, certificates = step
    parts: List[bytes] = [number(node, 2)]
    for certificate in certificates:
        parts += [number(it, 8) for it in certificate.rows]
        for pairs in certificate.cuts:
            parts.append(number(len(pairs), 4))
            parts += [number(place, 4) + number(multiplier, 8) for place, multiplier in pairs]
    return b"".join(parts)


def payload(entries: List[Entry]) -> bytes:
    """The payload of an iteration."""
    heads = [number(it.iteration, 4) + number(it.unanswered, 4) + number(len(it.steps), 2) for it in entries]
    return b"".join(head + b"".join(map(step_bytes, entry.steps)) for head, entry in zip(heads, entries))


def journal_of(training: Training, problem: bytes, batch: Optional[int] = None) -> bytes:
    """A journal of all iterations of a training over the bytes of a problem; of version 2 where a batch is asked for."""
    head = b"\x01" + MAGIC + number(1 if batch is None else 2, 2) + hashlib.sha256(problem).digest() + number(training.seed, 8)
    parts = [head if batch is None else head + number(batch, 2)]
    for entries in training.records:
        made = payload(entries)
        parts += [b"\x01", number(len(made), 4), made]
    return b"".join([*parts, b"\x00"])


class Bytes:
    """Bytes that are read from their front on."""

    def __init__(self, data: bytes) -> None:
        self.data, self.place = data, 0

    def take(self, size: int) -> bytes:
        """The next bytes."""
        self.place += size
        return self.data[self.place - size:self.place]

    def number(self, size: int, signed: bool = False) -> int:
        """The next number."""
        return int.from_bytes(self.take(size), "big", signed=signed)


def certificate_in(data: Bytes, place: Place) -> Certificate:
    """The next certificate, of a realization of a node."""
    rows = tuple(data.number(8, signed=True) for _ in place.stage.node.rows)
    return Certificate(rows, tuple(tuple((data.number(4), data.number(8)) for _ in range(data.number(4))) for _ in place.successors))


def entry_in(data: Bytes, problem: Problem) -> Entry:
    """The next entry of a payload."""
    entry = Entry(data.number(4), [], data.number(4))
    for _ in range(data.number(2)):
        node = data.number(2)
        place = problem.places[node]
        entry.steps.append((node, [certificate_in(data, place) for _ in place.realizations]))
    return entry


def records_in(data: Bytes, problem: Problem, batch: int) -> Iterator[List[Entry]]:
    """The records up to the first commit byte other than 1."""
    while data.number(1) == 1:
        data.number(4)
        yield [entry_in(data, problem) for _ in range(batch)]


def is_committed(data: bytes) -> bool:
    """Whether bytes are a journal, and not those of one that is still to be made."""
    return len(data) > 1 and data[0] == 1


class Kept:
    """A journal as it was kept: its seed, how many paths an iteration has (None in version 1), training that has its cuts, and how many
    bytes stand behind the last commit byte."""

    def __init__(self, data: bytes, problem: Problem) -> None:
        head = Bytes(data)
        head.take(1 + len(MAGIC))
        version = head.number(2)
        head.take(32)
        self.seed = head.number(8)
        self.batch = head.number(2) if version == 2 else None
        self.training = Training(problem, self.seed, self.batch or 1)
        for entries in records_in(head, problem, self.batch or 1):
            self.training.put(entries)
        self.rest = max(len(data) - head.place, 0)
