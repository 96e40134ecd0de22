"""New files beside others, under names that nothing had before: no link is followed, and nothing that is there is written to or removed."""
from __future__ import annotations

import os
from contextlib import contextmanager, suppress
from pathlib import Path
from typing import BinaryIO, Iterator


def created(place: Path) -> BinaryIO:
    """A new file, open for writing and reading. FileExistsError where anything has its name, a link too."""
    made = os.open(place, os.O_RDWR | os.O_CREAT | os.O_EXCL | os.O_NOFOLLOW | os.O_CLOEXEC, 0o666)
    return os.fdopen(made, "w+b")


def drawn_name(front: str) -> str:
    """A name with this front and an end that is drawn, so that nobody else has it."""
    return front + os.urandom(8).hex()


@contextmanager
def in_the_place_of(target: Path) -> Iterator[BinaryIO]:
    """A new file that takes the name of another when all of it is on the disk. Where anything fails before, the other one stays as it is."""
    made = target.with_name(drawn_name(f"{target.name}.new-"))
    with created(made) as file:
        try:
            yield file
            file.flush()
            os.fsync(file.fileno())
            os.replace(made, target)
        except BaseException:
            with suppress(OSError):
                made.unlink()
            raise
