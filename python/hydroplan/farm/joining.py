"""Joins journals of one problem: their first records where they are the same in all, then the others in turns, with places moved."""
from __future__ import annotations

import os
from contextlib import ExitStack
from dataclasses import dataclass
from itertools import count, islice, zip_longest
from pathlib import Path
from typing import BinaryIO, Iterator, Optional, Sequence, Tuple

from .errors import FarmError, RecordFault
from .journals import DEVICE_FAILED, Head, framed, opened, payloads, read_head, refused
from .new_files import in_the_place_of
from .records import Mover, base_pools, entries
from .shape import Shape, require_room

WORDS_REFUSED = 2


@dataclass(frozen=True)
class Joined:
    """What was joined: the records that came of it, the paths of each, and how many pieces at the front were the same in all journals."""

    records: int
    paths: int
    shared: int


@dataclass(frozen=True)
class Piece:
    """What is moved as a whole, a record or an entry of one: its bytes, its paths, and the number of its record."""

    data: bytes
    paths: int
    iteration: int

    def is_same(self, other: Optional[Piece]) -> bool:
        """Whether another piece has the same certificates."""
        return other is not None and self.paths == other.paths and self.data[4:] == other.data[4:]


class Source:
    """One of the journals, read from its front on; `split` gives its entries one by one."""

    def __init__(self, shape: Shape, path: Path, file: BinaryIO) -> None:
        self._shape = shape
        self._path = path
        self._file = file
        self.head = read_head(file, str(path))
        self._first = file.tell()
        if self.head.digest != shape.digest:
            raise refused(str(path), f"OtherProblem kept {self.head.digest.hex()} asked {shape.digest.hex()}")

    def pieces(self, split: bool) -> Iterator[Piece]:
        """Its records from the first on, or the entries of them."""
        self._file.seek(self._first)
        for number, payload in enumerate(payloads(self._file, str(self._path)), 1):
            if payload[:4] != number.to_bytes(4, "big"):
                raise self.fault(number, RecordFault(f"iteration {int.from_bytes(payload[:4], 'big')} in place of {number}", 0))
            if split and self.head.paths > 1:
                yield from self._entries(payload, number)
            else:
                yield Piece(payload, self.head.paths, number)

    def _entries(self, payload: bytes, number: int) -> Iterator[Piece]:
        """The entries of a payload, one by one."""
        try:
            found = entries(self._shape, payload, self.head.paths, number)
        except RecordFault as fault:
            raise self.fault(number, fault) from None
        return (Piece(it, 1, number) for it in found)

    def fault(self, number: int, fault: RecordFault) -> FarmError:
        """The refusal of one of its records."""
        return refused(str(self._path), f"BadRecord iteration {number}: {fault}")


def join(shape: Shape, target: Path, journals: Sequence[Path], batch: Optional[int] = None) -> Joined:
    """Joins journals into a new one, with the seed of the first. Memory is taken for one record of each, and for the places of cuts.

    `batch` asks for records of so many paths (version 2); without it they stay as they are. FarmError with status 2 where these
    journals make no such records, 6 where one is refused, 7 where there are too many, 10 where a file fails.
    """
    if os.path.lexists(target):
        raise FarmError(f"{target} is there already: join writes a new journal", DEVICE_FAILED)
    with ExitStack() as stack:
        sources = [Source(shape, path, stack.enter_context(opened(path))) for path in journals]
        head, split = _form(sources, batch)
        shared, pieces = _counted(sources, split)
        size = head.paths if split else 1
        records = _records(pieces, size)
        require_room(shape, records, head.paths)
        _write_new(target, head, _packed(_moved(shape, sources, split, shared, size), size))
    return Joined(records, head.paths, shared)


def _form(sources: Sequence[Source], batch: Optional[int]) -> Tuple[Head, bool]:
    """The head of the joined journal, and whether entries have to be packed anew."""
    first = sources[0].head
    kept = {it.head.batch for it in sources}
    if batch is None and len(kept) > 1:
        raise FarmError("the journals have batches of several sizes: --batch says how many paths a record is to have", WORDS_REFUSED)
    wanted = first.batch if batch is None else batch
    return Head(first.digest, first.seed, wanted), any((it or 1) != (wanted or 1) for it in kept)


def _counted(sources: Sequence[Source], split: bool) -> Tuple[int, int]:
    """How many pieces at the front all journals share, and how many pieces the joined journal has."""
    shared = total = 0
    together = True
    for turn in zip_longest(*(it.pieces(split) for it in sources)):
        together = together and all(piece is not None and piece.is_same(turn[0]) for piece in turn)
        shared += together
        total += 1 if together else sum(piece is not None for piece in turn)
    return shared, total


def _records(pieces: int, size: int) -> int:
    """The number of records that so many pieces make, `size` of them each."""
    if pieces % size:
        raise FarmError(f"{pieces:,} paths make no whole records of {size}: {pieces % size} would be left over", WORDS_REFUSED)
    return pieces // size


def _moved(shape: Shape, sources: Sequence[Source], split: bool, shared: int, size: int) -> Iterator[bytes]:
    """The pieces of the joined journal in their order, with the numbers and places that they have there, `size` pieces to a record."""
    joined, places = base_pools(shape), count()
    movers = [Mover(shape, joined.copy(), joined)] * len(sources)
    for turn, pieces in enumerate(zip_longest(*(it.pieces(split) for it in sources))):
        if turn == shared:
            common = joined.copy()
            movers = [Mover(shape, common, joined) for _ in sources]
        there = [it for it in zip(sources, movers, pieces if turn >= shared else pieces[:1]) if it[2] is not None]
        yield from (_changed(source, mover, piece, next(places) // size + 1) for source, mover, piece in there)


def _changed(source: Source, mover: Mover, piece: Piece, number: int) -> bytes:
    """A piece as it is in record `number` of the joined journal."""
    try:
        return mover.record(piece.data, piece.paths, piece.iteration, number)
    except RecordFault as fault:
        raise source.fault(piece.iteration, fault) from None


def _packed(pieces: Iterator[bytes], size: int) -> Iterator[bytes]:
    """The payloads of records of so many pieces each."""
    while True:
        record = b"".join(islice(pieces, size))
        if not record:
            return
        yield record


def _write_new(target: Path, head: Head, records: Iterator[bytes]) -> None:
    """Writes a journal under another name, which it changes when all of it is on the disk."""
    try:
        with in_the_place_of(target) as file:
            file.write(head.bytes())
            for payload in records:
                file.write(b"\x01" + framed(payload))
            file.write(b"\x00")
    except OSError as fault:
        raise FarmError(f"journal {target}: {fault.strerror}", DEVICE_FAILED) from None
