"""Journals as files (docs/use/FORMAT.md, The journal): their headers, their records one at a time, and a journal that grows by whole rounds."""
from __future__ import annotations

import fcntl
import os
from pathlib import Path
from types import TracebackType
from typing import BinaryIO, Iterable, Iterator, List, NamedTuple, Optional, Sequence, Type

from .errors import FarmError
from .pieces import MOST_PIECES, Piece, behind
from .shape import MOST_ITERATIONS, MOST_PATHS

MAGIC = b"HYDPLAN1"
MOST_PAYLOAD = 1 << 26
JOURNAL_REFUSED, DEVICE_FAILED = 6, 10


class Head(NamedTuple):
    """What a journal says of itself: the SHA-256 of its problem, its seed, and its batch, which is None in version 1."""

    digest: bytes
    seed: int
    batch: Optional[int]

    @property
    def paths(self) -> int:
        """The paths of an iteration."""
        return self.batch or 1

    def bytes(self) -> bytes:
        """The header without the commit byte behind it, with the header's commit byte of a journal that is there."""
        parts = [b"\x01", MAGIC, (1 if self.batch is None else 2).to_bytes(2, "big"), self.digest, self.seed.to_bytes(8, "big")]
        return b"".join([*parts, b"" if self.batch is None else self.batch.to_bytes(2, "big")])


def refused(name: str, reason: str) -> FarmError:
    """The refusal of a journal, with its name."""
    return FarmError(f"journal refused: {name}: {reason}", JOURNAL_REFUSED)


def opened(path: Path) -> BinaryIO:
    """A journal that is open for reading; FarmError (status 10) where there is none."""
    try:
        return path.open("rb")
    except OSError as fault:
        raise FarmError(f"journal {path}: {fault.strerror}", DEVICE_FAILED) from None


def read_head(file: BinaryIO, name: str) -> Head:
    """The header at the front of an open journal, up to its first commit byte; FarmError (status 6) where it is none."""
    front = file.read(51)
    if len(front) < 51 or front[0] != 1 or front[1:9] != MAGIC:
        raise refused(name, "it is no journal, or one that is not born yet")
    version = int.from_bytes(front[9:11], "big")
    if version not in (1, 2):
        raise refused(name, f"OtherVersion {version}")
    batch = int.from_bytes(file.read(2), "big") if version == 2 else None
    if batch is not None and not 1 <= batch <= MOST_PATHS:
        raise refused(name, f"BadBatch {batch}")
    return Head(front[11:43], int.from_bytes(front[43:51], "big"), batch)


def payloads(file: BinaryIO, name: str) -> Iterator[bytes]:
    """The payloads behind the header of an open journal, one at a time. FarmError (status 6) where the file ends within one."""
    at, number = file.tell(), 0
    while True:
        commit_byte = file.read(1)
        if not commit_byte:
            raise refused(name, f"Short at {at}")
        if commit_byte != b"\x01":
            return
        if number == MOST_ITERATIONS:
            raise refused(name, "TooMany")
        number += 1
        length = int.from_bytes(file.read(4), "big")
        if length > MOST_PAYLOAD:
            raise refused(name, f"BadLength iteration {number} length {length}")
        payload = file.read(length)
        if len(payload) < length or not length:
            raise refused(name, f"Short at {at + 1}")
        at += 5 + length
        yield payload


def framed(payload: bytes) -> bytes:
    """What stands behind a commit byte of 1: the length of a payload, and the payload."""
    return len(payload).to_bytes(4, "big") + payload


def unframed(tail: bytes, most: int) -> List[bytes]:
    """The payloads of records whose commit bytes stand between them; at most so many. ValueError where the bytes are no such records."""
    found: List[bytes] = []
    at = 0
    while at < len(tail):
        end = at + 4 + int.from_bytes(tail[at:at + 4], "big")
        if at + 4 > len(tail) or end > len(tail) or len(found) == most:
            raise ValueError("no records")
        found.append(tail[at + 4:end])
        if end < len(tail) and tail[end] != 1:
            raise ValueError("no gate")
        at = end + 1
    return found


class Growing:
    """A journal that grows by several records at once: all count from the moment that the commit byte before them becomes 1.

    A copy that nobody needs after a kill is not synced.
    """

    def __init__(self, path: Path, is_synced: bool = True) -> None:
        self.path = path
        self._is_synced = is_synced
        try:
            self._file = path.open("r+b", buffering=0)
        except OSError as fault:
            raise FarmError(f"journal {path}: {fault.strerror}", DEVICE_FAILED) from None
        try:
            fcntl.flock(self._file, fcntl.LOCK_EX | fcntl.LOCK_NB)
        except BlockingIOError:
            self._file.close()
            raise FarmError(f"journal {path}: another run writes it", DEVICE_FAILED) from None
        except OSError:
            pass  # a file system without locks
        self.records = 0
        self.end = 0
        """The place of the commit byte behind the last record."""

    def __enter__(self) -> Growing:
        return self

    def __exit__(self, kind: Optional[Type[BaseException]], fault: Optional[BaseException], trace: Optional[TracebackType]) -> None:
        self._file.close()

    def read(self) -> Iterator[bytes]:
        """The payloads that are there, one at a time. Where they were read to the end, `records` and `end` are known."""
        with opened(self.path) as file:
            read_head(file, str(self.path))
            self.records, self.end = 0, file.tell()
            for payload in payloads(file, str(self.path)):
                yield payload
                self.records += 1
                self.end += 5 + len(payload)

    def head(self) -> Head:
        """The header of the journal."""
        with opened(self.path) as file:
            return read_head(file, str(self.path))

    def append(self, records: Iterable[bytes]) -> None:
        """Puts records behind those that are there. A kill at any moment leaves all of them or none.

        Whoever reads the journal meanwhile finds its end before them, or goes on to the last of them.
        """
        pieces = [piece for payload in records for piece in (b"\x01", len(payload).to_bytes(4, "big"), payload)]
        if pieces:
            self._put(pieces[1:], len(pieces) // 3)

    def _put(self, tail: Sequence[bytes], records: int) -> None:
        """Puts so many records behind those that are there, in pieces, with commit bytes between the records."""
        if os.fstat(self._file.fileno()).st_size > self.end + 1:
            os.ftruncate(self._file.fileno(), self.end + 1)
        self._write([b"\x00", *tail, b"\x00"], self.end)
        self._sync()
        self._write([b"\x01"], self.end)
        self._sync()
        self.records += records
        self.end += 1 + sum(map(len, tail))

    def append_from(self, other: Growing, begin: int, end: int, records: int) -> None:
        """As `append`, of so many records that stand in another journal from one commit byte to another."""
        if records:
            with opened(other.path) as file:
                file.seek(begin + 1)
                self._put([file.read(end - begin - 1)], records)

    def file(self) -> int:
        """The descriptor of the file."""
        return self._file.fileno()

    def cut(self, records: int, end: int) -> None:
        """Takes back what was appended behind an earlier end."""
        self.records, self.end = records, end
        os.ftruncate(self._file.fileno(), end)
        self._write([b"\x00"], end)

    def _sync(self) -> None:
        """Waits until the disk has what was written, where that is wanted."""
        if self._is_synced:
            os.fsync(self._file.fileno())

    def _write(self, pieces: Sequence[Piece], at: int) -> None:
        left = list(pieces)
        while left:
            done = os.pwritev(self._file.fileno(), left[:MOST_PIECES], at)
            left, at = behind(left, done), at + done
