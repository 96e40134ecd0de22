"""Progress of a training: about once a second, by the growing journal, of which `check` makes the bounds anew."""
from __future__ import annotations

import sys
import time
from dataclasses import dataclass
from pathlib import Path
from typing import Callable, List, Optional, TextIO, Union

from .tools.watch_command import clock_text, run_check

from .results import GapCheck

EVERY = 1.0
HEADING = f"{'time':>9} {'iteration':>9} {'bound':>22} {'moved':>16} {'unanswered':>10}"


@dataclass(frozen=True)
class Progress:
    """What is known of a training that goes on: the last iteration, its bound and by how much that moved since the report before.

    Money is in the user's units. `unanswered` counts solves whose answer was of no use. `compared` is the comparison with fresh scenarios that
    has just ended; a report that has one is of an iteration that was reported already, perhaps.
    """

    iteration: int
    bound: float
    moved: float
    seconds: float
    unanswered: int
    compared: Optional[GapCheck] = None


Callback = Callable[[Progress], None]


class ProgressPrinter:
    """Writes a line for each report, on standard error where no stream is given."""

    def __init__(self, stream: Optional[TextIO] = None) -> None:
        self._stream = stream
        self._begun = False

    def __call__(self, progress: Progress) -> None:
        stream = self._stream or sys.stderr
        if progress.compared is not None:
            print(self._comparison(progress.seconds, progress.compared), file=stream, flush=True)
            return
        if not self._begun:
            print(HEADING, file=stream)
            self._begun = True
        print(
            f"{clock_text(progress.seconds):>9} {progress.iteration:>9} {progress.bound:>22.6f} {progress.moved:>16.6f}"
            f" {progress.unanswered:>10}", file=stream, flush=True,
        )


    def _comparison(self, seconds: float, it: GapCheck) -> str:
        """A line on a comparison."""
        words = f"{it.scenarios} scenarios: mean {it.mean:.6f}, half-width {it.half_width:.6f}, gap {it.gap:.6f}"
        return f"{clock_text(seconds):>9} {it.iteration:>9} {words}"


def callback_of(progress: Union[bool, Callback]) -> Optional[Callback]:
    """The callback: a printer for True, none for False."""
    if progress is True:
        return ProgressPrinter()
    return None if progress is False else progress


class Watcher:
    """Looks at a journal while the program writes it, and reports at most once in `EVERY` seconds.

    `bound` turns a bound of the program into money. A look takes a run of `check`, so the next one comes no sooner than that took.
    """

    def __init__(self, program: Path, journal: Path, bound: Callable[[int], float], report: Optional[Callback], begun: float) -> None:
        self._program = program
        self._journal = journal
        self._bound = bound
        self._report = report
        self._begun = begun
        self._mark: object = None
        self._next = begun + EVERY
        self._last: Optional[Progress] = None

    def pauses(self) -> List[float]:
        """The seconds until the next look, in a list; an empty one where nobody looks."""
        return [] if self._report is None else [max(0.05, self._next - time.monotonic())]

    def look(self, problem: Path) -> None:
        """Looks at the journal where it is time and the journal changed, and reports what is new."""
        began = time.monotonic()
        if self._report is None or began < self._next:
            return
        mark = self._marked()
        if mark is not None and mark != self._mark:
            self._mark = mark
            seen = run_check(self._program, self._journal, problem)
            if seen.fault is None and seen.bounds:
                self.tell(len(seen.bounds), self._bound(seen.bounds[-1]), seen.unsettled)
        self._next = time.monotonic() + max(EVERY, time.monotonic() - began)

    def tell(self, iteration: int, bound: float, unanswered: int) -> None:
        """Reports an iteration, where it was not reported yet."""
        if self._report is None or (self._last is not None and self._last.iteration >= iteration):
            return
        moved = bound - self._last.bound if self._last is not None else 0.0
        self._last = Progress(iteration, bound, moved, time.monotonic() - self._begun, unanswered)
        self._next = time.monotonic() + EVERY
        self._report(self._last)

    def tell_comparison(self, compared: GapCheck) -> None:
        """Reports a comparison that has ended."""
        if self._report is None:
            return
        last, seconds = self._last, time.monotonic() - self._begun
        unanswered = last.unanswered if last is not None else 0
        self._report(Progress(compared.iteration, compared.bound, 0.0, seconds, unanswered, compared))

    def is_due(self) -> bool:
        """Whether so much time went by since the last report that another may come."""
        return time.monotonic() >= self._next

    def _marked(self) -> object:
        try:
            found = self._journal.stat()
        except OSError:
            return None
        return found.st_size, found.st_mtime_ns
