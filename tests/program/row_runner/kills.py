"""Training that is killed at moments that are drawn, and started again by the same words."""
from __future__ import annotations

import random
import subprocess
import time
from dataclasses import dataclass
from pathlib import Path
from typing import Optional, Sequence, Tuple

from .expectation import Expectation, difference
from .program import ENVIRONMENT, Ended, NoEnd, Streams, ended, journal_in

# Seconds within which a program is killed that has hardly begun.
FIRST_MOMENTS = 0.004

# Seconds between two looks at a journal that grows.
LOOK = 0.0001

# How often one training is killed before it is let through.
MOST = 10


@dataclass
class Kills:
    """A program that is killed so and so often, and what came of it so far."""

    program: Path
    words: Sequence[str]
    problem: Path
    folder: Path
    draw: random.Random
    # The run that nobody stopped, and the seconds that it took.
    whole: Ended
    length: float
    count: int = 0
    starts: int = 0
    before_the_first_byte: int = 0
    within_a_record: int = 0
    trainings: int = 0

    def note(self) -> str:
        """Returns a line on the kills that were done."""
        return (
            f"{self.count} kills in {self.trainings} trainings of {self.length:.1f} seconds, "
            f"{self.before_the_first_byte} before the first byte of the journal, {self.within_a_record} within a record"
        )

    def changes(self) -> int:
        """How often the journal is seen to grow before the next kill: up to a tenth of its records."""
        records = self.whole.written.count(b"\niteration ")
        return self.draw.randint(1, 1 + records // 10)

    def wait_for_growth(self, process: subprocess.Popen, changes: int) -> None:
        """Waits until the journal was seen to grow so often, or the program has ended."""
        journal, size = self.folder / "J", -1
        while changes and process.poll() is None:
            time.sleep(LOOK)
            now = journal.stat().st_size if journal.exists() else -1
            changes, size = (changes - 1, now) if now != size else (changes, size)

    def wait_for_moment(self, process: subprocess.Popen, is_first: bool) -> None:
        """Waits for a moment that is drawn: among the first ones, where every other training is killed at first; within a
        quarter of the run's length; or when the journal grows."""
        if is_first and self.trainings % 2:
            time.sleep(self.draw.uniform(0, FIRST_MOMENTS))
        elif self.draw.randrange(2):
            until = time.monotonic() + self.draw.uniform(0, self.length / 4)
            while process.poll() is None and time.monotonic() < until:
                time.sleep(LOOK)
        else:
            self.wait_for_growth(process, self.changes())

    def is_killed(self, is_first: bool) -> bool:
        """Starts the program, for the first time in this training or once more, and kills it at a drawn moment. False where it
        had ended by then."""
        self.starts += 1
        with self.problem.open("rb") as source:
            how = {"stdin": source, "stdout": subprocess.DEVNULL, "stderr": subprocess.DEVNULL}
            process = subprocess.Popen([str(self.program), *self.words], cwd=self.folder, env=ENVIRONMENT, **how)
        try:
            self.wait_for_moment(process, is_first)
        finally:
            process.kill()
        return process.wait() < 0

    def fault_of_check(self) -> Optional[str]:
        """Returns the fault of the journal that a kill left: `check` has to read it, and to find the first bounds of the undisturbed run."""
        journal = journal_in(self.folder)
        if not journal:
            self.before_the_first_byte += 1
        if journal is None:
            return None
        looked = ended(self.program, ["check", "J"], Streams(self.problem), self.folder)
        lines = looked.written.splitlines()
        self.within_a_record += bool(lines) and lines[-1].startswith(b"rest ") and lines[-1] != b"rest 0"
        bounds = [line for line in lines if line.startswith(b"iteration ")]
        expected = [line for line in self.whole.written.splitlines() if line.startswith(b"iteration ")]
        if looked.status or bounds != expected[: len(bounds)]:
            return f"after kill {self.count}, `check` ends with {looked.status} and has {len(bounds)} bounds: {looked.said!r}"
        return None

    def fault_of_training(self, wanted: int) -> Optional[str]:
        """Trains from nothing to the end, with at most so many kills. What is wrong with what comes of it."""
        (self.folder / "J").unlink(missing_ok=True)
        self.trainings += 1
        start = self.count
        while self.count < start + wanted and self.is_killed(self.count == start):
            self.count += 1
            fault = self.fault_of_check()
            if fault:
                return fault
        again = ended(self.program, self.words, Streams(self.problem), self.folder)
        expected = Expectation(b"", self.whole.written, self.whole.journal)
        fault = difference(expected, None, again)
        return fault and f"after {self.count} kills: {fault}"


def measured(program: Path, words: Sequence[str], problem: Path, folder: Path) -> Tuple[Ended, float]:
    """The undisturbed run, and the seconds that it takes."""
    start = time.monotonic()
    whole = ended(program, words, Streams(problem), folder)
    return whole, time.monotonic() - start


def killed(program: Path, words: Sequence[str], problem: Path, folder: Path, wanted: int, seed: int) -> Tuple[Optional[str], str]:
    """Kills the program so often, at moments drawn from a seed, and starts it again each time until it is through.

    Gives what is wrong with what it leaves or prints, None where nothing is, and what was done. NoEnd where the program is
    through before most of the kills.
    """
    whole, length = measured(program, words, problem, folder)
    if whole.status or not whole.journal:
        return f"the undisturbed run ends with {whole.status}: {whole.said!r}", ""
    kills = Kills(program, words, problem, folder, random.Random(seed), whole, length)
    fault = None
    while fault is None and kills.count < wanted:
        if kills.starts > 5 * wanted:
            raise NoEnd(f"the program is through before most of the kills: {kills.note()}")
        fault = kills.fault_of_training(min(MOST, wanted - kills.count))
    return fault, kills.note()
