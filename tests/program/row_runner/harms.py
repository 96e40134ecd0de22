"""Training whose journal others remove, cut short or replace."""
from __future__ import annotations

import os
import subprocess
import time
from pathlib import Path
from typing import Callable, Dict, Optional

from .expectation import expectation, journal_difference, status_difference, status_of, text_difference
from .program import ENVIRONMENT, PATIENCE, Ended, NoEnd, journal_in
from .rows import BadRow, Row, bytes_of
from .running import Verdict, place_journal, streams

# Seconds between two looks at a journal that grows.
LOOK = 0.0005

# How often the journal is seen to grow before it is harmed.
CHANGES = 6

REPLACEMENT = b"another file of the same name\n"


def remove(journal: Path) -> None:
    """Leaves no journal."""
    journal.unlink()


def cut(journal: Path) -> None:
    """Leaves a journal without bytes."""
    os.truncate(journal, 0)


def replace(journal: Path) -> None:
    """Leaves another file in the journal's place."""
    other = journal.with_name("other")
    other.write_bytes(REPLACEMENT)
    os.replace(other, journal)


# What is done to the journal, and what stands in its place then.
HARMS: Dict[str, Callable[[Path], None]] = {"removed": remove, "cut": cut, "replaced": replace}
LEFT: Dict[str, Optional[bytes]] = {"removed": None, "cut": b"", "replaced": REPLACEMENT}


def wait_for_growth(process: subprocess.Popen, journal: Path) -> None:
    """Waits until the journal was seen to grow so often. NoEnd where the program has ended by then."""
    changes, size, until = CHANGES, -1, time.monotonic() + PATIENCE
    while changes:
        if process.poll() is not None or time.monotonic() > until:
            raise NoEnd("the program is through, or stuck, before its journal is harmed")
        time.sleep(LOOK)
        now = journal.stat().st_size if journal.exists() else -1
        changes, size = (changes - 1, now) if now != size else (changes, size)


def harmed(row: Row, program: Path, folder: Path) -> Ended:
    """The run of a row, whose journal is harmed while it grows."""
    given = streams(row, program, folder)
    harm = HARMS.get(row.options.get("harm", ""))
    if given.problem is None or harm is None:
        raise BadRow("a journal is harmed by `harm=removed`, `harm=cut` or `harm=replaced`, in a run with a problem")
    journal = folder / "J"
    place_journal(row, journal)
    with given.problem.open("rb") as source:
        how = {"stdin": source, "stdout": subprocess.PIPE, "stderr": subprocess.PIPE}
        process = subprocess.Popen([str(program), *row.words], cwd=folder, env=ENVIRONMENT, **how)
    try:
        wait_for_growth(process, journal)
        harm(journal)
        written, said = process.communicate(timeout=PATIENCE)
    except subprocess.TimeoutExpired as error:
        raise NoEnd(f"does not end within {PATIENCE} seconds") from error
    finally:
        process.kill()
        process.communicate()
    return Ended(process.returncode, said, written, journal_in(folder))


def harms(row: Row, program: Path, folder: Path) -> Verdict:
    """Whether a run whose journal is harmed ends and says what is expected, and leaves what stands in the journal's place."""
    expected = expectation(row.expected, bytes_of(row.expected))
    found = harmed(row, program, folder)
    return Verdict(
        status_difference(found, status_of(expected.lines))
        or text_difference("standard error", found.said, expected.lines)
        or text_difference("standard output", found.written, expected.text)
        or journal_difference(found.journal, LEFT[row.options["harm"]])
    )
