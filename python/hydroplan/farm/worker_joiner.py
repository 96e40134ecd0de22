"""Joins rounds beside all else by a process of `hydroplan_worker`, which accepts each record and tells it as it stands joined.

It takes a small part of the processor time that Python takes for it. Where it accepts a record no more, it ends, and Python finds out why.
"""
from __future__ import annotations

import os
import select
import time
from collections import deque
from pathlib import Path
from typing import Deque, Iterator, List, Optional, Sequence

from ..errors import HydroplanError
from .joiner import NICER, Ended
from .journals import Growing
from .living import MOST_LINE, joining
from .pieces import MOST_PIECES, Piece, behind
from .process import PIPE_BYTES, Process, command


class Gone(HydroplanError):
    """The process ended, over a record or otherwise, with its status and what it said."""


class WorkerJoiner:
    """The process, behind the records of the copy `scratch`, into which it puts those of each round that it is given."""

    def __init__(self, program: Path, problem: bytes, scratch: Growing, paths: int, seconds: float) -> None:
        self._process = Process(command(program, []))
        self._scratch = scratch
        self._seconds = seconds
        self._heard = time.monotonic()
        """When it was given a round while it had none, or told something the last time."""
        self._rounds: Deque[int] = deque()
        """How many records the rounds have that were given and not told yet."""
        self._left: List[Piece] = [paths.to_bytes(2, "big"), len(problem).to_bytes(4, "big"), problem]
        self._came = bytearray()
        self._spent = 0.0
        self._be_nicer()
        before = list(scratch.read())
        if before:
            self._left += joining([before])
        self._write()

    def _be_nicer(self) -> None:
        """Lets those that train go first."""
        try:
            os.setpriority(os.PRIO_PROCESS, self._process.pid, NICER)
        except OSError:
            pass

    def give(self, parts: Sequence[Sequence[bytes]]) -> None:
        """Gives it a round."""
        if not self._rounds:
            self._heard = time.monotonic()
        self._left += joining(parts, is_told=True)
        self._rounds.append(sum(map(len, parts)))
        self._write()

    def come(self) -> Iterator[Ended]:
        """What it told since, round by round. Gone where it is gone."""
        self._write()
        is_there = self._read()
        while self._rounds:
            records = self._told(self._rounds[0])
            if records is None:
                break
            self._rounds.popleft()
            self._scratch.append(records)
            yield Ended(self._scratch.records, self._scratch.end, self._took())
        if not is_there:
            raise Gone(self._last_words())
        if self._rounds and time.monotonic() - self._heard > self._seconds:
            raise Gone("it is silent")

    def _last_words(self) -> str:
        """How it ended, and what it said. One that closes its output and goes on is killed."""
        if not self._process.ends_within(1):
            self._process.kill()
        return f"{self._process.wait()}: {self._process.said(MOST_LINE).strip()}"

    def wait(self) -> None:
        """Waits until it tells something, or takes more of what is left for it, and no longer than until it is silent."""
        poll = select.poll()
        poll.register(self._process.output, select.POLLIN)
        if self._left:
            poll.register(self._process.input, select.POLLOUT)
        poll.poll(1000 * max(0.0, self._heard + self._seconds - time.monotonic()) + 1)

    def end(self) -> None:
        """Ends it."""
        self._process.end()

    def _write(self) -> None:
        try:
            while self._left:
                self._left = behind(self._left, os.writev(self._process.input, self._left[:MOST_PIECES]))
        except BlockingIOError:
            pass
        except OSError:
            self._left = []  # it is gone, which is seen where it is read

    def _read(self) -> bool:
        """Reads what is there; false where there will be no more."""
        try:
            while True:
                more = os.read(self._process.output, PIPE_BYTES)
                if not more:
                    return False
                self._came += more
                self._heard = time.monotonic()
        except BlockingIOError:
            return True

    def _told(self, count: int) -> Optional[List[bytes]]:
        """So many records that it told, if all are there."""
        found: List[bytes] = []
        at = 0
        while len(found) < count:
            begin = at + 4
            at = begin + int.from_bytes(self._came[begin - 4:begin], "big")
            if len(self._came) < max(begin, at):
                return None
            found.append(bytes(self._came[begin:at]))
        del self._came[:at]
        return found

    def _took(self) -> float:
        """The processor seconds that it took since it was asked the last time."""
        try:
            spent = int(Path(f"/proc/{self._process.pid}/schedstat").read_bytes().split()[0]) / 1e9
        except (OSError, ValueError, IndexError):
            return 0.0
        before, self._spent = self._spent, spent
        return spent - before
