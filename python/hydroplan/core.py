"""The program: where it is found, and how it is run on a compiled problem."""
from __future__ import annotations

import os
import select
import subprocess
from pathlib import Path
from types import TracebackType
from typing import BinaryIO, NamedTuple, Optional, Sequence, Type, Union

from .errors import ProgramMissing
from .repository import TOP

# how long processes that a run started may go on behind its end
LAST_SECONDS = 10
Place = Union[str, "os.PathLike[str]"]


class Ended(NamedTuple):
    """How a run ended: its status (below 0: the signal that ended it), its report, and what it wrote on standard error."""

    status: int
    output: str
    errors: str


def find_program(given: Optional[Place] = None) -> Path:
    """The program: the one that is given, else the repository's script `hydroplan`, else the command of that name.

    The script runs the program that was built of these sources, where there is one, else the one in `bin`.
    """
    if given is not None:
        found = Path(given).resolve()
        if not found.is_file():
            raise ProgramMissing(f"the program {given} is not there")
        return found
    front_door = TOP / "hydroplan"
    if front_door.is_file() and os.access(front_door, os.X_OK):
        return front_door
    import shutil  # takes a while, as tempfile does

    command = shutil.which("hydroplan")
    if command is None:
        raise ProgramMissing("hydroplan is not found: name the program, as in train(.., program='bin/hydroplan-x86_64-linux')")
    return Path(command).resolve()


class Running:
    """A run of the program on a problem, in a folder of its own; leaving the context ends it."""

    def __init__(self, program: Path, words: Sequence[str], problem: bytes) -> None:
        import tempfile

        self._folder = tempfile.TemporaryDirectory(prefix="hydroplan-")
        folder = Path(self._folder.name)
        self.problem = folder / "problem.json"
        self.problem.write_bytes(problem)
        self._output, self._errors = folder / "output", folder / "errors"
        # the other end is held by all processes of the run, by nobody else
        self._left, held = os.pipe()
        try:
            with self.problem.open("rb") as source, self._output.open("wb") as output, self._errors.open("wb") as errors:
                self._process = subprocess.Popen([str(program), *words], stdin=source, stdout=output, stderr=errors, pass_fds=[held])
        except OSError as fault:
            os.close(self._left)
            self._folder.cleanup()
            raise ProgramMissing(f"the program {program} cannot be run: {fault.strerror}") from None
        finally:
            os.close(held)

    def __enter__(self) -> Running:
        return self

    def __exit__(self, kind: Optional[Type[BaseException]], fault: Optional[BaseException], trace: Optional[TracebackType]) -> None:
        self.end()
        os.close(self._left)
        self._folder.cleanup()

    def clear(self) -> None:
        """Gives up the room that the report takes; the run has to be over."""
        self._output.write_bytes(b"")

    def wait(self, seconds: Optional[float] = None) -> bool:
        """Waits for so many seconds at most; whether the run has ended."""
        try:
            self._process.wait(seconds)
            return True
        except subprocess.TimeoutExpired:
            return False

    def end(self) -> None:
        """Ends the run where it still goes on. A journal is whole at every moment, up to its last whole iteration.

        Where the script `hydroplan` is ended, the kernel ends the program that it started, which is waited for too: it writes no more.
        """
        if self._process.poll() is None:
            self._process.kill()
        self._process.wait()
        select.select([self._left], [], [], LAST_SECONDS)

    def ended(self) -> Ended:
        """How the run ended; it has to be over."""
        return self.outcome()._replace(output=self._output.read_bytes().decode("utf-8", "replace"))

    def outcome(self) -> Ended:
        """How the run ended, without its report; it has to be over."""
        return Ended(self._process.returncode, "", self._errors.read_bytes().decode("utf-8", "replace"))

    def report(self) -> BinaryIO:
        """The report that was written so far, as a file to be read: it may be long. It is there until the context is left."""
        return self._output.open("rb")


def run(program: Path, words: Sequence[str], problem: bytes) -> Ended:
    """Runs the program to its end."""
    with Running(program, words, problem) as running:
        running.wait()
        return running.ended()
