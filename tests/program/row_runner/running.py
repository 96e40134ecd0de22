"""The run that a row asks for, with its files and streams."""
from __future__ import annotations

import fcntl
import os
import shlex
from contextlib import contextmanager
from dataclasses import dataclass
from pathlib import Path
from typing import Iterator, Optional

from .program import Ended, Streams, ended
from .rows import BadRow, Row, bytes_of, place_of, unhexed


@dataclass(frozen=True)
class Verdict:
    """The first difference of a row from what is expected, None where there is none; and what else there is to say."""

    fault: Optional[str]
    note: str = ""


def journal_before(row: Row) -> Optional[bytes]:
    """Returns the bytes of the journal before the run; None where the row has none. BadRow where the row's file is not in its form."""
    name = row.options.get("journal")
    if name in (None, "pipe"):
        return None
    return b"" if name == "empty" else unhexed(name, bytes_of(name))


def made(row: Row, program: Path, folder: Path, problem: Optional[Path]) -> Optional[Path]:
    """The problem that another command of the program makes of the row's file, where the row has one."""
    words = row.options.get("made")
    if words is None:
        return problem
    run = ended(program, shlex.split(words), Streams(problem), folder)
    if run.status:
        raise BadRow(f"`{words}` ends with {run.status} and makes no problem: {run.said.decode('utf-8', 'replace').strip()}")
    (folder / "made.json").write_bytes(run.written)
    return folder / "made.json"


def padded(row: Row, folder: Path, problem: Optional[Path]) -> Optional[Path]:
    """The problem with as many blanks behind it as make it as long as the row says."""
    if "padded" not in row.options or problem is None:
        return problem
    (folder / "padded.json").write_bytes(problem.read_bytes().ljust(row.number("padded", 0)))
    return folder / "padded.json"


def streams(row: Row, program: Path, folder: Path) -> Streams:
    """The streams of a row's run. BadRow where a file of the row is not there."""
    name = row.options.get("problem", "/dev/null")
    problem = None if name == "closed" else place_of(name)
    if problem is not None and not problem.exists():
        raise BadRow(f"{name} is not there")
    problem = padded(row, folder, made(row, program, folder, problem))
    memory = row.number("memory", 0) if "memory" in row.options else None
    return Streams(
        problem, row.options.get("output"), memory, "piped" in row.options, row.options.get("errors") == "closed", "readonly" in row.options,
    )


def place_journal(row: Row, journal: Path) -> None:
    """Makes what a row has in the place of its journal: a file, a pipe that nobody writes to, or nothing."""
    held = journal_before(row)
    if held is not None:
        journal.write_bytes(held)
        if "readonly" in row.options:
            journal.chmod(0o444)
    elif "journal" in row.options:
        os.mkfifo(journal)


@contextmanager
def lock(row: Row, journal: Path) -> Iterator[None]:
    """Holds the lock of a row's journal, where the row says so."""
    if "held" not in row.options:
        yield
        return
    with journal.open("rb") as file:
        fcntl.flock(file, fcntl.LOCK_EX)
        yield


def run_of(row: Row, program: Path, folder: Path) -> Ended:
    """The run of a row, in a folder in which its journal is `J`."""
    journal = folder / "J"
    place_journal(row, journal)
    with lock(row, journal):
        return ended(program, row.words, streams(row, program, folder), folder)
