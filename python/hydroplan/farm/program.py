"""The built programs themselves, which a farm runs many times, and how a run is begun so that it ends with whoever began it."""
from __future__ import annotations

import hashlib
import os
import subprocess
from functools import lru_cache
from pathlib import Path
from typing import Optional, Sequence

from ..repository import TOP
from ..core import Ended, Place, find_program
from ..errors import ProgramMissing
from .process import Process, command, unnamed
from .summed import OtherSum, compared, digest_of_copy, is_copy_of

__all__ = [
    "KEPT_WORKER", "WORKER_VARIABLE", "Begun", "built_program", "built_worker", "command", "digest_of", "is_of_these_sources",
    "program_to_run", "unnamed", "worker_to_run",
]

KEPT = TOP / "bin" / "hydroplan-x86_64-linux"
NEWER = TOP / "crates" / "hydroplan" / "out" / "hydroplan"
KEPT_WORKER = TOP / "bin" / "worker" / "hydroplan_worker-x86_64-linux"
NEWER_WORKER = TOP / "crates" / "hydroplan_worker" / "out" / "hydroplan_worker"
DIGEST = TOP / "bin" / "crates-digest"
WORKER_VARIABLE = "HYDROPLAN_WORKER"
MOST_SAID = 1 << 20


def built_program(given: Optional[Place] = None) -> Path:
    """The program: the one that is given; in a clone the one that its script would run, without the script; else the command `hydroplan`.

    ProgramMissing where there is none.
    """
    found = find_program(given)
    if given is not None or found != TOP / "hydroplan":
        return found
    return next((it for it in (NEWER, KEPT) if it.is_file() and (it == KEPT or is_of_these_sources(it))), found)


def program_to_run(given: Optional[Place] = None) -> Path:
    """As `built_program`, and from where it runs: of the one in `bin` a copy of the bytes that were compared with the sum beside it.

    ProgramMissing where these are others. One that is given or that was built of the crates at hand has no sum, and runs from its place.
    """
    found = built_program(given)
    return found if given is not None else _to_run(found)


def worker_to_run(program: Path) -> Optional[Path]:
    """As `built_worker`, and from where it runs, as `program_to_run`."""
    found = built_worker(program)
    return found if found is None or WORKER_VARIABLE in os.environ else _to_run(found)


def _to_run(program: Path) -> Path:
    """From where a program runs."""
    if program not in (KEPT, KEPT_WORKER):
        return program
    try:
        return Path(compared(str(program)))
    except OtherSum as fault:
        raise ProgramMissing(str(fault)) from None
    except OSError as fault:
        raise ProgramMissing(f"the program {program} cannot be read: {fault.strerror}") from None


def built_worker(program: Path) -> Optional[Path]:
    """The program `hydroplan_worker` that belongs to a program, where it is there: in `bin` to the one there, else one of the crates at hand.

    The environment's HYDROPLAN_WORKER names another; none where that is empty.
    """
    named = os.environ.get(WORKER_VARIABLE)
    if named is not None:
        return Path(named).resolve() if Path(named).is_file() else None
    if not KEPT_WORKER.is_file() and not NEWER_WORKER.is_file():
        return None
    if _is_same(program, KEPT):
        return KEPT_WORKER if KEPT_WORKER.is_file() else None
    if not _is_same(program, NEWER):
        return None
    if NEWER_WORKER.is_file() and is_of_these_sources(NEWER_WORKER):
        return NEWER_WORKER
    return KEPT_WORKER if KEPT_WORKER.is_file() and _is_kept_of_these_sources(KEPT_WORKER) else None


def _is_same(program: Path, other: Path) -> bool:
    """Whether two programs are there and have the same bytes."""
    return is_copy_of(str(program), str(other)) or (other.is_file() and digest_of(program) == digest_of(other))


def is_of_these_sources(program: Path) -> bool:
    """Whether a program was built of the crates at hand, as the script `hydroplan` asks: the stamp beside it names them, and itself."""
    return _is_stamped(program, program.stat().st_mtime_ns)


@lru_cache(maxsize=8)
def _is_stamped(program: Path, changed: int) -> bool:
    try:
        stamp = program.with_name(f"{program.name}.sources").read_text(encoding="ascii")
        now = _sources_of(program.name)
        return bool(now) and os.access(program, os.X_OK) and stamp.strip() == f"{now} {digest_of(program)}"
    except (OSError, ValueError, subprocess.CalledProcessError):
        return False


def _is_kept_of_these_sources(program: Path) -> bool:
    """Whether a program in `bin` is of the crates at hand, as the file CRATES beside it says."""
    try:
        return f"crates {_sources_of(program.name.partition('-')[0])}" in program.with_name("CRATES").read_text(encoding="ascii").splitlines()
    except (OSError, ValueError, subprocess.CalledProcessError):
        return False


@lru_cache(maxsize=8)
def _sources_of(crate: str) -> str:
    """The digest of the sources of a crate and those below it."""
    return subprocess.run([str(DIGEST), crate], capture_output=True, check=True, text=True).stdout.strip()


def digest_of(program: Path) -> str:
    """The SHA-256 of a program, in hexadecimal digits."""
    return digest_of_copy(str(program)) or _digest(program, program.stat().st_mtime_ns)


@lru_cache(maxsize=8)
def _digest(program: Path, changed: int) -> str:
    return hashlib.sha256(program.read_bytes()).hexdigest()


class Begun:
    """A run of the built program on a problem; leaving the context ends it."""

    def __init__(self, words: Sequence[str], problem: bytes, early: Optional[Process] = None) -> None:
        with unnamed(problem) as source:
            self._process = early or Process(words, source)

    def __enter__(self) -> Begun:
        return self

    def __exit__(self, *fault: object) -> None:
        self._process.end()

    def wait(self) -> None:
        """Waits for the end."""
        self._process.wait()

    def ended(self) -> Ended:
        """How the run ended, without its report; it has to be over."""
        return Ended(self._process.wait(), "", self._process.said(MOST_SAID))
