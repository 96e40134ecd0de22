"""The check for a row of each kind."""
from __future__ import annotations

import tempfile
from dataclasses import replace
from pathlib import Path

from .bounds import between, rising, upper
from .expectation import difference, expectation
from .harms import harms
from .kills import killed
from .program import NoEnd
from .refuted import refuted
from .rows import BadRow, Row, bytes_of
from .running import Verdict, journal_before, run_of, streams
from .tables import each, edits, journals


def run(row: Row, program: Path, folder: Path) -> Verdict:
    """Whether a run ends, says, writes and leaves what is expected. What it says to a closed stream nobody hears."""
    expected = expectation(row.expected, bytes_of(row.expected))
    found = run_of(row, program, folder)
    if row.options.get("errors") == "closed":
        found = replace(found, said=expected.lines)
    return Verdict(difference(expected, journal_before(row), found))


def kills(row: Row, program: Path, folder: Path) -> Verdict:
    """Whether a run that is killed and started again, over and over, leaves and prints what an undisturbed one does."""
    given = streams(row, program, folder)
    if given.problem is None:
        raise BadRow("a run that is started again needs a problem")
    fault, note = killed(program, row.words, given.problem, folder, row.number("kills", 1), row.number("seed", 1))
    return Verdict(fault, note)


KINDS = {
    "run": run, "between": between, "upper": upper, "rising": rising, "refuted": refuted, "each": each, "edits": edits,
    "journals": journals, "kills": kills, "harms": harms,
}


def tried(row: Row, program: Path) -> Verdict:
    """Runs a row in a folder of its own, and returns the verdict."""
    kind = KINDS.get(row.kind)
    if kind is None:
        return Verdict(f"there is no kind `{row.kind}`")
    try:
        with tempfile.TemporaryDirectory(prefix="hydroplan-row-") as folder:
            return kind(row, program, Path(folder))
    except (BadRow, NoEnd, OSError, ValueError) as error:
        return Verdict(str(error) or repr(error))
