"""A process of `hydroplan_worker`, which lives on between rounds and keeps the records that were joined (docs/use/CLUSTER.md, The living worker).

It is written to and read from without waiting, so that one thread can serve several of them.
"""
from __future__ import annotations

import os
import select
import time
from collections import deque
from pathlib import Path
from typing import Container, Deque, List, Optional, Sequence, Tuple

from ..errors import HydroplanError
from .early import Early, training
from .journals import MOST_PAYLOAD
from .pieces import MOST_PIECES, Piece, behind
from .process import PIPE_BYTES, Process, command

MOST_JOINED = 64
"""The parts of a round that the program takes."""
MOST_LINE = 1 << 12
NO_STATUS = -1


class ProcessFault(HydroplanError):
    """How a process ended before it answered, with its status and what it said; or why it was ended, with NO_STATUS."""

    def __init__(self, status: int, line: str, was_killed: bool = False) -> None:
        super().__init__(line)
        self.status = status
        self.was_killed = was_killed
        """Whether somebody else ended it."""


def front_of_joining(count: int, is_told: bool = False) -> Piece:
    """The front of the order that joins the records of so many parts, and has them told as they stand joined where that is wanted."""
    return (b"E" if is_told else b"J") + count.to_bytes(2, "big")


def framed_part(records: Sequence[bytes]) -> List[Piece]:
    """The records of a part in such an order, in pieces."""
    pieces: List[Piece] = [len(records).to_bytes(4, "big")]
    for payload in records:
        pieces += (len(payload).to_bytes(4, "big"), payload)
    return pieces


def joining(parts: Sequence[Sequence[bytes]], is_told: bool = False) -> List[Piece]:
    """The order that joins the records of parts, in pieces."""
    return [front_of_joining(len(parts), is_told), *(piece for records in parts for piece in framed_part(records))]


class Telling:
    """A round that a process was asked to tell as it stands joined: the records and bytes of its parts so far, and how many parts are still to come.

    It is told in so many bytes, since joining moves places and leaves lengths as they are.
    """

    def __init__(self, count: int) -> None:
        self.records = self.bytes = 0
        self._more = count

    def add(self, records: Sequence[bytes]) -> None:
        """Adds a part."""
        self.records += len(records)
        self.bytes += sum(4 + len(it) for it in records)
        self._more -= 1

    def is_there(self, came: int) -> bool:
        """Whether so many bytes may have all of it."""
        return self._more == 0 and came >= self.bytes


class Living:
    """The process. `name` is that of the records that it has joined, `own` has its last answer, `own_name` the name of the order to it.

    It begins to read the problem at once, before its first order. One that began early may have that too.
    """

    def __init__(self, program: Path, problem: bytes, paths: int, early: Optional[Early] = None) -> None:
        self.is_of = (program, problem, paths)
        """The program, the problem, and the paths of an iteration."""
        self.name, self.own_name = "", ""
        self.own: List[bytes] = []
        self._ahead: List[Sequence[bytes]] = []
        """The parts of the next round to join that were written before its order."""
        self._ahead_of = 0
        """How many parts that round has."""
        self._begun = Telling(0)
        self._telling: Deque[Telling] = deque()
        self._told: Deque[List[bytes]] = deque()
        """The rounds that it was asked to tell, and those of them that came."""
        self.is_second = False
        """Whether it is there in the place of one that was killed at the same order."""
        self._process = Process(command(program, [])) if early is None else early.process
        self._input, self._output = self._process.input, self._process.output
        front: List[Piece] = [paths.to_bytes(2, "big"), len(problem).to_bytes(4, "big"), problem]
        self._first = None if early is None else early.first
        self._left = behind(front, 0 if early is None else early.written)
        self._came, self._buffer = bytearray(), memoryview(bytearray(PIPE_BYTES))
        self._wanted = self._most = 0
        self._until = 0.0
        self._write()

    def feed(self, until: float) -> None:
        """Writes what it takes until a moment of the monotonic clock, or until it has all."""
        while self._left and time.monotonic() < until:
            poll = select.poll()
            poll.register(self._input, select.POLLOUT)
            poll.poll(max(0, until - time.monotonic()) * 1000)
            self._write()

    def ahead(
        self, parts: Sequence[Sequence[bytes]], count: int, is_told: bool = False, then: Optional[Tuple[int, int]] = None,
    ) -> None:
        """Writes the first of so many parts that it will be asked to join next, as far as they are there. It joins them once its answer is out.

        Where they are to be told, `told` has them in the end. `then` are the seed and the count of the order behind the last part.
        """
        if parts and not self._ahead:
            self._left.append(front_of_joining(count, is_told))
            self._begun = Telling(count)
            self._telling.extend([self._begun] if is_told else [])
        for records in parts[len(self._ahead):]:
            self._left += framed_part(records)
            self._ahead.append(records)
            self._begun.add(records)
        if then is not None and self._first is None and len(self._ahead) == count:
            self._left.append(training(*then))
            self._first = then
        self._ahead_of = count
        self._write()

    @property
    def handed(self) -> int:
        """How many parts of the next round to join were written before its order."""
        return len(self._ahead)

    def may_join(self, parts: Sequence[Sequence[bytes]]) -> bool:
        """Whether these are what was written ahead, with the rest of the parts."""
        return not self._ahead or (len(parts) == self._ahead_of and all(mine == its for mine, its in zip(self._ahead, parts)))

    def join(self, parts: Sequence[Sequence[bytes]]) -> None:
        """Has it join the records of parts, when it is next asked to train: those that were not written ahead."""
        self.ahead(parts, len(parts))
        self._ahead = []

    def train(self, seed: int, count: int, most: int, seconds: float) -> None:
        """Begins to train so many iterations, whose records have so many bytes at most."""
        first, self._first = self._first, None
        if first != (seed, count):
            self._left.append(training(seed, count))
        self._wanted, self._most, self._until = count, most, time.monotonic() + seconds
        self._write()

    def may_begin(self, seed: int, count: int, is_behind_records: bool) -> bool:
        """Whether it may have this order for its next: where it has one already, that is the only one that it may have."""
        return self._first is None or (self._first == (seed, count) and not is_behind_records)

    def is_alive(self) -> bool:
        """Whether the process goes on."""
        return self._process.poll() is None

    def is_idle(self) -> bool:
        """Whether it has no order to train, or has answered it."""
        return self._wanted == 0

    def is_telling(self) -> bool:
        """Whether it will tell a round before it answers, and its pipe takes both until somebody looks."""
        return bool(self._telling) and 2 * self._telling[-1].bytes < self._process.holds

    def has_come(self) -> bool:
        """Whether something of its answer was read with a round that it told, of which its pipe says nothing any more."""
        return bool(self._came) and not self._telling

    def is_ahead(self) -> bool:
        """Whether it has an order to train that it was given ahead."""
        return self._first is not None

    def answer(self) -> Optional[List[bytes]]:
        """The records that it was asked for, once all of them are there. ProcessFault where they will not be, and then it has been ended."""
        try:
            self._write()
            found = self._records()
            while found is None and self._read():
                found = self._records()
            if found is None and time.monotonic() > self._until:
                raise ProcessFault(NO_STATUS, "the time was over")
            return found
        except ProcessFault:
            self.end()
            raise

    def told(self) -> Optional[List[bytes]]:
        """The records of the first round that it was asked to tell, once all of them are there. ProcessFault where they will not be."""
        self._write()
        self._take_told()
        while not self._told and self._read():
            self._take_told()
        return self._told.popleft() if self._told else None

    def _take_told(self) -> None:
        """Takes the rounds that came, which stand before the answer to the order behind them."""
        while self._telling and self._telling[0].is_there(len(self._came)):
            telling = self._telling.popleft()
            found, end = _framed(self._came, telling.records, telling.bytes)
            if end != telling.bytes:
                raise ProcessFault(NO_STATUS, "it told a round of other lengths")
            del self._came[:end]
            self._told.append(found)

    def _write(self) -> None:
        """Writes what it takes now. What becomes of a process that takes nothing is seen where it is read."""
        try:
            while self._left:
                self._left = behind(self._left, os.writev(self._input, self._left[:MOST_PIECES]))
        except BlockingIOError:
            pass
        except OSError:
            self._left = []

    def _read(self) -> bool:
        """Whether more came. ProcessFault where it has ended, or writes too much."""
        try:
            size = os.readv(self._output, [self._buffer])
        except BlockingIOError:
            return False
        except OSError:
            raise ProcessFault(NO_STATUS, "it was ended") from None
        if not size:
            raise self._ended()
        self._came += self._buffer[:size]
        if self._first is None and len(self._came) > self._most + sum(it.bytes for it in self._telling):
            raise ProcessFault(NO_STATUS, f"it wrote more than {self._most:,} bytes")
        return True

    def _records(self) -> Optional[List[bytes]]:
        """The records that came, if all are there. ProcessFault where what came is none."""
        self._take_told()
        if self._telling:
            return None
        found, end = _framed(self._came, self._wanted, self._most)
        if len(found) < self._wanted:
            return None
        if end < len(self._came):
            raise ProcessFault(NO_STATUS, "it wrote more than it was asked for")
        self._came, self._wanted = bytearray(), 0
        return found

    def _ended(self) -> ProcessFault:
        """How the process ended, which wrote all that it will write."""
        if not self._process.ends_within(1):
            return ProcessFault(NO_STATUS, "it closed its output")
        status = self._process.wait()
        return ProcessFault(status, self._process.said(MOST_LINE) or "it ended without a word", was_killed=status < 0)

    def watch(self, poll: "select.poll") -> None:
        """Has a poll wait for what this process does next."""
        poll.register(self._output, select.POLLIN)
        if self._left:
            poll.register(self._input, select.POLLOUT)

    def is_at(self, places: Container[int]) -> bool:
        """Whether one of the places at which a poll saw something is of this process."""
        return self._output in places or self._input in places

    def wait(self, seconds: float) -> None:
        """Waits until it can be written to or read from, and no longer than so many seconds."""
        poll = select.poll()
        self.watch(poll)
        poll.poll(seconds * 1000)

    def spent(self) -> float:
        """The processor seconds that the process took so far."""
        return self._process.spent()

    def kill(self) -> None:
        """Kills the process, and does not wait for its end."""
        self._process.kill()

    def end(self) -> None:
        """Ends the process."""
        self._process.end()
        self._input = self._output = -1


def _framed(came: bytearray, count: int, most: int) -> Tuple[List[bytes], int]:
    """The first so many records that came, as far as they are there, and where the last of them ends. ProcessFault where what came is none."""
    found: List[bytes] = []
    at, there = 0, len(came)
    with memoryview(came) as view:
        while len(found) < count and at + 4 <= there:
            begin, length = at + 4, int.from_bytes(view[at:at + 4], "big")
            if not 0 < length <= min(MOST_PAYLOAD, most):
                raise ProcessFault(NO_STATUS, f"it wrote a record of {length:,} bytes")
            if begin + length > there:
                break
            at = begin + length
            found.append(bytes(view[begin:at]))
    return found, at
