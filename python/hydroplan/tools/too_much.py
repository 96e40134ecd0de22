"""The line `too much: formula W gives V` in words, with what would fit.

Outside the proved core. The script `hydroplan` runs it behind a run that ended with 7, with the words of that run and the problem on
standard input: where that is a file, it is read again from its beginning.
"""
from __future__ import annotations

import json
import os
import stat
import sys
from typing import Any, Optional

from .before_training import first_commit_byte, walk
from .limits import GREATEST, MEANINGS, Extent, branches, denominator, extent_of
from .profile import MOST_FILE_BYTES

NO_FILE = "what would fit is computed where the problem is a file: --problem FILE"


def main(*words: str) -> int:
    """Says on standard error what is too much, and what would fit; 0."""
    for line in lines_on(words, problem_on(0)):
        print(f"hydroplan: {line}", file=sys.stderr)
    return 0


def problem_on(descriptor: int) -> Optional[dict[str, Any]]:
    """The problem in the file that is open there; None where it is no file, or no problem."""
    try:
        if not stat.S_ISREG(os.fstat(descriptor).st_mode):
            return None
        found = json.loads(os.pread(descriptor, MOST_FILE_BYTES + 1, 0))
    except (OSError, ValueError, RecursionError):
        return None
    return found if isinstance(found, dict) else None


def lines_on(words: tuple[str, ...], problem: Optional[dict[str, Any]]) -> list[str]:
    """The lines on a run with these words that was too much for this problem."""
    if problem is None:
        return [NO_FILE]
    try:
        return _lines(words, problem, extent_of(problem))
    except (KeyError, TypeError, AttributeError, ValueError):
        return [NO_FILE]


def _lines(words: tuple[str, ...], problem: dict[str, Any], extent: Extent) -> list[str]:
    command, journal = words[:2]
    records, kept = journal_at(journal)
    if command == "train":
        batch = int(words[4]) if len(words) > 4 else kept or 1
        return of_training(extent, max(int(words[3]), records), batch, bool(records))
    for at in range(1, records + 1):
        found = extent.exceeded(at, kept or 1)
        if found is not None:
            return [f"{meaning(*found)}: the journal has a record {at} that is too much for this problem"]
    if command == "simulate":
        return of_scenarios(extent, int(words[3]), "at most {most:,} scenarios")
    if command == "validate":
        return of_scenarios(extent, len(problem.get("validation_scenarios", [])), "at most {most:,} stored scenarios")
    return of_policy(problem) if command == "evaluate" else []


def journal_at(journal: str) -> tuple[int, Optional[int]]:
    """The number of records of a journal, and its batch; 0 and None where there is none."""
    try:
        descriptor = os.open(journal, os.O_RDONLY | os.O_NONBLOCK)
    except OSError:
        return 0, None
    try:
        commit_byte = first_commit_byte(descriptor)
        if commit_byte is None:
            return 0, None
        return walk(descriptor, commit_byte)[0], int.from_bytes(os.pread(descriptor, commit_byte - 51, 51), "big") or 1
    finally:
        os.close(descriptor)


def meaning(formula: int, value: int) -> str:
    """What a formula counts, with its value and its limit."""
    return "too much: " + MEANINGS[formula].format(value=value, greatest=GREATEST[formula])


def of_training(extent: Extent, count: int, batch: int, goes_on: bool) -> list[str]:
    """The lines on a training of so many iterations of a batch, or on a journal that goes on and keeps its batch."""
    found = extent.exceeded(count, batch)
    if found is None:
        return []
    most, paths = extent.most_iterations(batch), extent.most_paths(count)
    fits = f"with BATCH {batch} at most {most:,} iterations" if most else f"with BATCH {batch} not one iteration"
    said = [f"{meaning(*found)}: {fits}"]
    if paths and not goes_on:
        said.append(f"with COUNT {count} a BATCH of at most {paths} fits")
    return said


def of_scenarios(extent: Extent, count: int, fits: str) -> list[str]:
    """The lines on so many scenarios."""
    return [f"{meaning(4, count * extent.numbers())}: {fits.format(most=extent.most_scenarios())}"]


def of_policy(problem: dict[str, Any]) -> list[str]:
    """The lines on the tree of a whole policy: its branches, or its numbers."""
    tree = branches(problem)
    if tree > GREATEST[5]:
        return [f"{meaning(5, tree)}: `simulate` follows drawn scenarios of the policy"]
    under = denominator(problem)
    if under > GREATEST[6]:
        return [f"{meaning(6, under)}: divide each list of weights by what its numbers share"]
    return ["too much: the greatest cost of a stage, times the stages, is above 2^60: use greater units of money or of quantities"]
