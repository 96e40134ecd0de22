"""Runs of the program's `check` over a joined journal, beside all else, and what they say.

`check` reads one record after another until it finds the end. So where a journal grows meanwhile, it accepts more records than there were when
it began; its report says how many.
"""
from __future__ import annotations

import mmap
import os
import re
import subprocess
import time
from contextlib import suppress
from pathlib import Path
from typing import BinaryIO, List, NamedTuple, Optional

from .errors import FarmError
from .new_files import created, drawn_name
from .program import command

REFUSED = re.compile(r"journal refused: Bad(?:Record|Certificate|Length) iteration (\d+)")
CUT, REST = b"\ncut ", b"rest "
WAITED_FOR, NICE, LEFT_OVER = "waited for", "nice", "left over"
"""What a run takes of the processors: its share, a small one, or what all others leave."""
NICER = 10
"""By so much a run with a small share is nicer than those that train."""
LOOKS_EVERY = 0.002


class Verdict(NamedTuple):
    """What `check` said: the record that it refused and its line, or neither, and then the report as `train` prints it."""

    refused: Optional[int]
    line: str
    report: List[str]

    @property
    def records(self) -> int:
        """The records that it accepted."""
        return int(self.report[-2].split()[2])

    @property
    def bound(self) -> int:
        """The bound of all cuts, times 2^24."""
        return int(self.report[-1].split()[1])


class Checking:
    """A run of `check` that goes on. Once it is over, `seconds` has the processor time that it took.

    One that takes what all others leave may be given its share later.
    """

    def __init__(self, program: Path, journal: Path, problem: Path, taking: str = WAITED_FOR) -> None:
        self._output, self._errors = _unnamed(journal), _unnamed(journal)
        self.seconds = 0.0
        with problem.open("rb") as source:
            self._process = subprocess.Popen(
                command(program, ["check", str(journal)]), stdin=source, stdout=self._output, stderr=self._errors,
            )
        self._begun = time.monotonic()
        self._is_held = taking == LEFT_OVER and _takes_what_is_left(self._process.pid)
        if taking == NICE or (taking == LEFT_OVER and not self._is_held):
            _be_nicer(self._process.pid)

    def is_held_up(self, seconds: float) -> bool:
        """Whether others have left it too little to end within so many seconds."""
        return self._is_held and time.monotonic() - self._begun > seconds

    def hasten(self, seconds: float) -> bool:
        """Lets the run have its share of the processors; false where the system does not allow it, and it is not over within so many seconds."""
        try:
            if self._is_held:
                os.sched_setscheduler(self._process.pid, os.SCHED_OTHER, os.sched_param(0))
                self._is_held = False
            return True
        except OSError:
            return self._ends_within(seconds)

    def _ends_within(self, seconds: float) -> bool:
        """Whether it ends within so many seconds."""
        until = time.monotonic() + seconds
        while not self.is_over():
            if time.monotonic() > until:
                return False
            time.sleep(LOOKS_EVERY)
        return True

    def is_over(self) -> bool:
        """Whether the run has ended."""
        return self._is_over(os.WNOHANG)

    def _is_over(self, how: int) -> bool:
        """Whether the run has ended; waits for it where `how` does not say otherwise."""
        if self._process.returncode is None:
            ended, status, used = os.wait4(self._process.pid, how)
            if ended:
                self._process.returncode = os.waitstatus_to_exitcode(status)
                self.seconds = used.ru_utime + used.ru_stime
        return self._process.returncode is not None

    def end(self) -> None:
        """Ends the run where it still goes on."""
        self._process.kill()
        self._is_over(0)
        self._output.close()
        self._errors.close()

    def verdict(self) -> Verdict:
        """Waits for the end; what it said. FarmError where the program ended otherwise than by refusing a record."""
        self._is_over(0)
        with self._output, self._errors:
            return self._read(self._process.returncode)

    def _read(self, status: int) -> Verdict:
        """The verdict by the status and what was written."""
        self._errors.seek(0)
        line = self._errors.read().decode("utf-8", "replace").strip()
        found = REFUSED.search(line)
        if status == 6 and found is not None:
            return Verdict(int(found.group(1)), line, [])
        if status != 0:
            raise FarmError(line.replace("hydroplan: ", "", 1) or f"check ended with status {status}", max(status, 1))
        return Verdict(None, "", _without_cuts(self._output))


def _takes_what_is_left(process: int) -> bool:
    """Has a process take of the processors what all others leave, where the system knows of that; whether it does."""
    try:
        os.sched_setscheduler(process, os.SCHED_IDLE, os.sched_param(0))
        return True
    except (AttributeError, OSError):
        return False


def _be_nicer(process: int) -> None:
    """Lets those that train go first."""
    with suppress(OSError):
        os.setpriority(os.PRIO_PROCESS, process, min(os.getpriority(os.PRIO_PROCESS, 0) + NICER, 19))


def _unnamed(beside: Path) -> BinaryIO:
    """A new file in the folder of another, without a name."""
    place = beside.with_name(drawn_name(f"{beside.name}.said-"))
    file = created(place)
    place.unlink()
    return file


def _without_cuts(report: BinaryIO) -> List[str]:
    """The lines of a report of `check` but the last one, `rest`, and those of cuts, which stand together and are by far the most."""
    with mmap.mmap(report.fileno(), 0, access=mmap.ACCESS_READ) as found:
        first = found.find(CUT)
        front, last = (len(found), len(found)) if first < 0 else (first + 1, found.find(b"\n", found.rfind(CUT) + 1) + 1)
        lines = (found[:front] + found[last:]).split(b"\n")[:-1]
    return [it.decode("utf-8", "replace") for it in lines if not it.startswith(REST)]
