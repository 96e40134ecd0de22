"""Looks at a journal before training cuts off what stands behind its last record, and keeps a copy where that is too much.

Outside the proved core. An interrupted write leaves, behind a commit byte other than 1, the front of one record: four bytes of its
length, its payload, which begins with the number of the iteration, and the commit byte behind it (docs/use/FORMAT.md, The journal). Where
anything else stands there, a commit byte or a header was changed; training would cut it off without a word. It is said on standard
error, where a commit byte is called a gate, and JOURNAL.kept (or .kept-2 and so on) gets the same bytes.

It reads the header and, of each record, the commit byte and the length. The script `hydroplan` runs it before each training that goes
on, so it imports what it needs when it needs it.
"""
from __future__ import annotations

import os
import stat
import sys

TYPE_CHECKING = False
if TYPE_CHECKING:
    from typing import BinaryIO, Iterator, Optional

MAGIC = b"HYDPLAN1"
# where the first commit byte stands, by the journal's version
FIRST_COMMIT_BYTES = {1: 51, 2: 53}
MOST_PAYLOAD = 1 << 26
MOST_RECORDS = 2_000
PIECE = 1 << 20
# the status where a copy was needed and could not be made
NO_COPY = 4


class Tail:
    """What stands behind the last record that counts.

    `records` counts the records before it, `place` is that of the commit byte other than 1, and `value` what it is; `size` is the
    length of the file. `front` holds the first bytes behind that byte, at most eight.
    """

    def __init__(self, records: int, place: int, value: int, size: int, front: bytes) -> None:
        self.records = records
        self.place = place
        self.value = value
        self.size = size
        self.front = front

    def length(self) -> int:
        """The number of bytes behind the commit byte."""
        return max(0, self.size - self.place - 1)

    def is_of_a_write(self) -> bool:
        """Whether an interrupted write of one record can have left this: its front, or nothing of it yet."""
        if self.length() <= 4:
            return True
        payload = int.from_bytes(self.front[:4], "big")
        if payload > MOST_PAYLOAD or self.length() > 5 + payload:
            return False
        return self.length() < 8 or int.from_bytes(self.front[4:], "big") == self.records + 1


def first_commit_byte(descriptor: int) -> Optional[int]:
    """The place of the first commit byte; None where the file's header is not committed, or training takes it for no journal."""
    head = os.pread(descriptor, 11, 0)
    if len(head) < 11 or head[0] != 1 or head[1:9] != MAGIC:
        return None
    return FIRST_COMMIT_BYTES.get(int.from_bytes(head[9:], "big"))


def walk(descriptor: int, place: int, committed: bool = False) -> tuple[int, int, Optional[int]]:
    """The number of whole records from a commit byte on, the place of the first such byte other than 1, and what it is.

    `committed` takes the first one for 1. It is None where the file ends before a commit byte or within a record, or where a
    length is above the greatest: training refuses such a journal, and cuts nothing off.
    """
    records = 0
    while records <= MOST_RECORDS:
        front = os.pread(descriptor, 5, place)
        if not front:
            return records, place, None
        if front[0] != 1 and not (committed and records == 0):
            return records, place, front[0]
        payload = int.from_bytes(front[1:], "big")
        if len(front) < 5 or payload > MOST_PAYLOAD or not os.pread(descriptor, 1, place + 5 + payload):
            return records, place, None
        records, place = records + 1, place + 5 + payload
    return records, place, None


def tail_of(descriptor: int) -> Optional[Tail]:
    """What stands behind the last record of an open journal; None where training cuts nothing off."""
    # the length comes first: where another training appends meanwhile, the commit bytes that are read are the newer ones
    size, place = os.fstat(descriptor).st_size, first_commit_byte(descriptor)
    if place is None:
        return None
    records, place, value = walk(descriptor, place)
    if value is None:
        return None
    return Tail(records, place, value, size, os.pread(descriptor, 8, place + 1))


def is_blank(descriptor: int, start: int) -> bool:
    """Whether all bytes from a place on are 0, as a file system leaves them where a write was lost."""
    while True:
        piece = os.pread(descriptor, PIECE, start)
        if piece.count(0) != len(piece):
            return False
        if not piece:
            return True
        start += len(piece)


def copies(journal: str) -> Iterator[str]:
    """The names of copies beside a journal: JOURNAL.kept, JOURNAL.kept-2, and so on."""
    yield f"{journal}.kept"
    number = 2
    while True:
        yield f"{journal}.kept-{number}"
        number += 1


def is_copy(descriptor: int, name: str) -> bool:
    """Whether a file can be read and has the same bytes as an open journal."""
    try:
        with open(name, "rb") as other:
            return is_same(descriptor, other)
    except OSError:
        return False


def is_same(descriptor: int, other: BinaryIO) -> bool:
    """Whether an open file has the same bytes as an open journal."""
    at = 0
    while True:
        piece = os.pread(descriptor, PIECE, at)
        if other.read(len(piece) or 1) != piece:
            return False
        if not piece:
            return True
        at += len(piece)


def keep(descriptor: int, journal: str) -> str:
    """The name of a copy of an open journal beside it: one that is there, or a new one. OSError where none can be made."""
    for name in copies(journal):
        try:
            made = os.open(name, os.O_WRONLY | os.O_CREAT | os.O_EXCL, 0o600)
        except FileExistsError:
            if os.path.isfile(name) and is_copy(descriptor, name):
                return name
            continue
        try:
            with os.fdopen(made, "wb") as copy:
                fill(descriptor, copy)
            sync_folder(name)
        except OSError:
            os.unlink(name)
            raise
        return name
    raise AssertionError("names of copies have no end")


def fill(descriptor: int, copy: BinaryIO) -> None:
    """Writes the bytes of an open journal into a new file, with its permissions, to the disk."""
    at = 0
    while True:
        piece = os.pread(descriptor, PIECE, at)
        if not piece:
            break
        copy.write(piece)
        at += len(piece)
    copy.flush()
    os.fchmod(copy.fileno(), stat.S_IMODE(os.fstat(descriptor).st_mode))
    os.fsync(copy.fileno())


def sync_folder(name: str) -> None:
    """Brings the name of a new file to the disk."""
    folder = os.open(os.path.dirname(name) or ".", os.O_RDONLY)
    try:
        os.fsync(folder)
    finally:
        os.close(folder)


def say(text: str) -> None:
    """Writes a line on standard error; a name in it cannot forge another line."""
    from .shown_names import shown_name

    print(f"hydroplan: {shown_name(text)}", file=sys.stderr)


def counted(number: int, what: str) -> str:
    """A number of things in words: `1 record`, `2,000 records`."""
    return f"{number:,} {what}" if number == 1 else f"{number:,} {what}s"


def warn(descriptor: int, journal: str, tail: Tail) -> int:
    """Says what stands behind the last record and keeps a copy; the status."""
    behind, _, _ = walk(descriptor, tail.place, committed=True)
    say(
        f"warning: {journal} has {counted(tail.records, 'record')} that count, and behind them {counted(tail.length(), 'byte')}, which is "
        f"no record that was being written: the gate at byte {tail.place:,} holds {tail.value} in place of 1, and "
        f"{counted(behind, 'whole record')} can be read behind it"
    )
    try:
        name = keep(descriptor, journal)
    except OSError as fault:
        say(f"training would cut these bytes off, and no copy can be made beside the journal ({fault.strerror}): nothing was run")
        return NO_COPY
    say(f"training cuts these bytes off: the journal as it is stays in {name}")
    return 0


def main(journal: str) -> int:
    """The status: 0, or NO_COPY. What is no regular file is left to the program."""
    try:
        descriptor = os.open(journal, os.O_RDONLY | os.O_NONBLOCK)
    except OSError:
        return 0
    try:
        if not stat.S_ISREG(os.fstat(descriptor).st_mode):
            return 0
        tail = tail_of(descriptor)
        if tail is None or tail.is_of_a_write() or is_blank(descriptor, tail.place + 1):
            return 0
        return warn(descriptor, journal, tail)
    finally:
        os.close(descriptor)

