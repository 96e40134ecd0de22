"""The command `watch`: a growing journal on a terminal, by a loop that looks again.

Outside the proved core, but each bound that is shown is one that `check` printed: the program made the cuts anew.
"""
from __future__ import annotations

import argparse
import os
import subprocess
import sys
import time
from dataclasses import dataclass
from fractions import Fraction
from pathlib import Path
from typing import Callable, Iterator, Optional, Sequence

from ..repository import TOP
from .bounded_files import is_utf8, opened
from .convert_command import read_with
from .decimals import Direction, decimal_text
from .profile import SCALE
from .scales import read_scales
from .shown_names import shown_name
from .waiting import in_words
from .word_parser import WordParser


@dataclass(frozen=True)
class Look:
    """What `check` said: bounds by iteration, the solves that were of no use, bytes that are not read, or a fault."""

    bounds: tuple[int, ...] = ()
    unsettled: int = 0
    rest: int = 0
    fault: Optional[str] = None


def read_check(status: int, output: str, errors: str) -> Look:
    """The look of a run of `check` by its status and what it wrote."""
    if status != 0:
        return Look(fault=errors.strip() or f"the program ended with status {status}")
    bounds, unsettled, rest = [], 0, 0
    for line in output.splitlines():
        word, _, behind = line.partition(" ")
        if word == "iteration":
            bounds.append(int(behind.split()[2]))
        elif word == "total":
            unsettled = int(behind.split()[3])
        elif word == "rest":
            rest = int(behind)
    return Look(tuple(bounds), unsettled, rest)


def run_check(program: Path, journal: Path, problem: Path) -> Look:
    """Runs `check` on the journal. A program in the folder at hand is found there, not among the commands of the machine."""
    # a name that begins as an option does stands behind its folder
    named = os.path.join(".", journal) if str(journal).startswith("-") else str(journal)
    with open(opened(problem), "rb") as source:
        ended = subprocess.run([str(program.resolve()), "check", named], stdin=source, capture_output=True, check=False)
    output, errors = (it.decode("utf-8", "replace") for it in (ended.stdout, ended.stderr))
    return read_check(ended.returncode, output, errors)


@dataclass(frozen=True)
class Units:
    """How bounds are written: divided by the scale of costs, negated where costs were."""

    cost: Fraction = Fraction(1)
    negated: bool = False
    digits: int = 6

    def text(self, bound: int) -> str:
        """The bound, rounded to the side on which it stays one."""
        value = Fraction(bound, SCALE) / self.cost
        direction = Direction.UP if self.negated else Direction.DOWN
        return decimal_text(-value if self.negated else value, self.digits, direction)

    def gain(self, before: int, after: int) -> str:
        """By how much the bound moved."""
        value = Fraction(after - before, SCALE) / self.cost
        return decimal_text(-value if self.negated else value, self.digits)


def clock_text(seconds: float) -> str:
    """Seconds as hours, minutes and seconds."""
    whole = int(seconds)
    return f"{whole // 3600}:{whole // 60 % 60:02d}:{whole % 60:02d}"


HEADING = f"{'time':>9} {'iteration':>9} {'bound':>22} {'moved':>16} {'unsettled':>9}"


def rows(before: Look, now: Look, seconds: float, units: Units, most: int) -> Iterator[str]:
    """A row for each new iteration, for the last `most` of them; the time is that of the look that saw it."""
    first = max(len(before.bounds), len(now.bounds) - most)
    if first > len(before.bounds):
        yield f"{clock_text(seconds):>9} {'..':>9}"
    for at in range(first, len(now.bounds)):
        moved = units.gain(now.bounds[at - 1], now.bounds[at]) if at else ""
        last = str(now.unsettled) if at == len(now.bounds) - 1 else ""
        yield f"{clock_text(seconds):>9} {at + 1:>9} {units.text(now.bounds[at]):>22} {moved:>16} {last:>9}".rstrip()


@dataclass
class Watch:
    """Looks at a journal again and again. The devices are handed in: a look, what tells of a change, a clock, a sleep.

    While bytes stand behind the last commit byte a record is being written; that byte becomes 1 without a change of size, so
    each such look is followed by another.
    """

    look: Callable[[], Look]
    mark: Callable[[], object]
    clock: Callable[[], float]
    sleep: Callable[[float], None]
    show: Callable[[str], None]
    wait: Callable[[str], None]
    units: Units
    every: float = 2.0
    most: int = 10

    def run(self, until: Optional[int], once: bool) -> int:
        """Shows rows until the journal has so many iterations: 0; or once: 0, and 1 where the program refused it."""
        begun = self.clock()
        before, seen, shown_fault = Look(), object(), None
        self.show(HEADING)
        while True:
            mark, began = self.mark(), self.clock()
            if mark != seen or before.rest:
                now = self.look()
                for row in rows(before, now, self.clock() - begun, self.units, self.most) if now.fault is None else ():
                    self.show(row)
                if now.fault is not None and now.fault != shown_fault:
                    self.show(now.fault)
                shown_fault, seen = now.fault, mark
                before = before if now.fault is not None else now
            if once or (until is not None and len(before.bounds) >= until):
                return 0 if shown_fault is None else 1
            self.wait(f"{clock_text(self.clock() - begun):>9} at iteration {len(before.bounds)}")
            self.sleep(max(self.every, self.clock() - began))


DESCRIPTION = """Follows a journal that `hydroplan train` writes: runs `hydroplan check JOURNAL` on the problem file
whenever the journal changed, and writes a row for each iteration on standard output, and nothing else. Ends with --until,
--once or an interrupt. The bounds are those that `check` printed; nothing else here is proved."""


def parser() -> argparse.ArgumentParser:
    """What the command line may say."""
    found = WordParser(
        prog="watch", description=DESCRIPTION,
        epilog="example: ./hydroplan watch plan.journal problem.json --until 500",
    )
    found.add_argument("journal", type=Path, help="the journal")
    found.add_argument("problem", type=Path, help="the problem file for which it is made")
    found.add_argument(
        "--program", type=Path, default=default_program(), help="the program, or the script that runs it (./hydroplan of this repository)",
    )
    found.add_argument("--every", type=float, default=2.0, help="seconds between two looks, at least (2)")
    found.add_argument("--until", type=int, help="end at so many iterations")
    found.add_argument("--once", action="store_true", help="look once; the status is 1 where the journal is refused")
    found.add_argument("--last", type=int, default=10, help="rows of one look, at most (10)")
    found.add_argument("--scales", type=Path, help="scales of `convert problem`: bounds in the user's units")
    return found


def default_program() -> Path:
    """The repository's script, which runs its program."""
    return TOP / "hydroplan"


def main(words: Optional[Sequence[str]] = None) -> int:
    """The status: 0, or 1 with a line on standard error."""
    chosen = parser().parse_args(words)
    try:
        units = _units(chosen.scales)
        if not is_utf8(chosen.journal):
            raise ValueError(f"{chosen.journal}: the name of a journal is in UTF-8")
        for path in (chosen.program, chosen.problem):
            if not path.is_file():
                raise ValueError(f"{path} is not there")
        return _watch(chosen, units).run(chosen.until, chosen.once)
    except KeyboardInterrupt:
        return 0
    except (ValueError, OSError) as fault:
        print(shown_name(f"watch: {in_words(fault)}"), file=sys.stderr)
    return 1


def _units(path: Optional[Path]) -> Units:
    if path is None:
        return Units()
    scales = read_with(path, read_scales)
    if scales.cost is None:
        raise ValueError(f"{path} has no scale of costs")
    return Units(scales.cost, scales.negated)


def _watch(chosen: argparse.Namespace, units: Units) -> Watch:
    on_terminal = sys.stdout.isatty()

    def mark() -> object:
        try:
            found = chosen.journal.stat()
        except FileNotFoundError:
            return None
        return found.st_size, found.st_mtime_ns

    def show(rows: str) -> None:
        for row in rows.split("\n"):
            print(("\r\x1b[K" if on_terminal else "") + shown_name(row), flush=True)

    def wait(text: str) -> None:
        if on_terminal:
            print("\r\x1b[K" + text, end="", flush=True)

    return Watch(
        lambda: run_check(chosen.program, chosen.journal, chosen.problem), mark, time.monotonic, time.sleep,
        show, wait, units, chosen.every, chosen.last,
    )
