"""Joins rounds beside all else, in a process that is nicer than those that train: whoever hands out orders never waits for it.

It is a copy of this process, which keeps the front of the joined journal and alone writes the copy that is checked. It reads rounds from a pipe,
and says of each where it ends, or which part is to blame. It ends with the pipe.
"""
from __future__ import annotations

import os
import select
import time
import warnings
from _signal import SIG_IGN, SIGINT, SIGKILL, signal
from typing import BinaryIO, Iterator, List, NamedTuple, Optional, Sequence, Union

from .errors import FarmError
from .joined import Front, PartFault, front_of, moved_round
from .journals import DEVICE_FAILED, Growing
from .living import joining
from .pieces import MOST_PIECES, Piece, behind
from .process import PIPE_BYTES, widen
from .shape import Shape

NICER = 5
FAULT, FAILED = b"!", b"?"


class Ended(NamedTuple):
    """A round that was joined: its last record, where that ends in the copy, and the processor seconds that it took."""

    records: int
    end: int
    seconds: float


class Joiner:
    """The process, behind records of the copy `scratch` that make a front; where that is not known, it finds it out by itself."""

    def __init__(self, shape: Shape, front: Optional[Front], scratch: Growing, paths: int) -> None:
        rounds, self._rounds = os.pipe()
        self._said, said = os.pipe()
        with warnings.catch_warnings():
            warnings.simplefilter("ignore", DeprecationWarning)  # of threads, none of whose locks the copy takes
            self._pid = os.fork()
        if self._pid == 0:
            _be_the_joiner(shape, front, scratch, paths, rounds, said)
        os.close(rounds)
        os.close(said)
        os.set_blocking(self._rounds, False)
        os.set_blocking(self._said, False)
        widen(self._rounds)
        self._left: List[Piece] = []
        self._came = b""

    def give(self, parts: Sequence[Sequence[bytes]]) -> None:
        """Gives it a round."""
        self._left += joining(parts)
        self._write()

    def come(self) -> Iterator[Union[Ended, PartFault]]:
        """What it says since, round by round. FarmError where it is gone or a file failed."""
        self._write()
        self._read()
        *lines, self._came = self._came.split(b"\n")
        for line in lines:
            first, *others = line.split(b" ", 2)
            if first == FAILED:
                raise FarmError(b" ".join(others).decode("utf-8", "replace"), DEVICE_FAILED)
            if first == FAULT:
                yield PartFault(int(others[0]), others[1].decode("utf-8", "replace"))
            else:
                yield Ended(int(first), int(others[0]), float(others[1]))

    def wait(self) -> None:
        """Waits until it says something, or takes more of what is left for it."""
        poll = select.poll()
        poll.register(self._said, select.POLLIN)
        if self._left:
            poll.register(self._rounds, select.POLLOUT)
        poll.poll()

    def _write(self) -> None:
        try:
            while self._left:
                self._left = behind(self._left, os.writev(self._rounds, self._left[:MOST_PIECES]))
        except BlockingIOError:
            pass
        except OSError:
            self._left = []  # it is gone, which is seen where it is read

    def _read(self) -> None:
        try:
            while True:
                more = os.read(self._said, PIPE_BYTES)
                if not more:
                    raise FarmError("the process that joins rounds is gone; what was proved is kept, and the same words go on", DEVICE_FAILED)
                self._came += more
        except BlockingIOError:
            pass

    def end(self) -> None:
        """Ends it."""
        os.kill(self._pid, SIGKILL)
        os.waitpid(self._pid, 0)
        os.close(self._rounds)
        os.close(self._said)


def _be_the_joiner(shape: Shape, front: Optional[Front], scratch: Growing, paths: int, rounds: int, said: int) -> None:
    """Does what the process does, and never returns. It holds no file of the one that it is a copy of but these."""
    try:
        signal(SIGINT, SIG_IGN)
        os.nice(NICER)
        _keep_open(rounds, said, scratch.file())
        with os.fdopen(rounds, "rb", PIPE_BYTES) as source:
            _join_all(shape, front or front_of(shape, scratch), scratch, paths, source, said)
    except OSError as fault:
        os.write(said, FAILED + f" the copy that is checked: {fault}\n".encode("utf-8", "replace"))
    finally:
        os._exit(0)


def _keep_open(*kept: int) -> None:
    """Closes all files but these and those of standard input, output and error: locks and pipes end with the process that has them."""
    try:
        files = [int(it) for it in os.listdir("/proc/self/fd")]
    except OSError:
        files = list(range(1 << 12))
    for file in files:
        if file > 2 and file not in kept:
            os.closerange(file, file + 1)  # says nothing of one that is closed


def _join_all(shape: Shape, front: Front, scratch: Growing, paths: int, source: BinaryIO, said: int) -> None:
    """Joins rounds as they come, until there are no more or one is none of the problem."""
    while source.read(1):
        parts = [_records(source) for _ in range(int.from_bytes(source.read(2), "big"))]
        begun = time.process_time()
        try:
            moved, front = moved_round(shape, front, parts, paths)
        except PartFault as fault:
            os.write(said, FAULT + f" {fault.part} {fault}\n".encode("utf-8", "replace"))
            source.read()
            return
        scratch.append(moved)
        os.write(said, f"{front.records} {front.end} {time.process_time() - begun}\n".encode("ascii"))


def _records(source: BinaryIO) -> List[bytes]:
    """The records of a part."""
    return [source.read(int.from_bytes(source.read(4), "big")) for _ in range(int.from_bytes(source.read(4), "big"))]
