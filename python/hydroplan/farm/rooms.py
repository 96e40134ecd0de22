"""The folder that a run has for itself beside a journal, and those that killed runs left there.

A run marks its folder by a file, and keeps that locked as long as it lives. So a folder that has the mark and no lock is one that a run left.
Any other is somebody's, whatever its name: it is named and stays as it is.
"""
from __future__ import annotations

import fcntl
import os
import stat
from contextlib import contextmanager
from pathlib import Path
from typing import Callable, Iterator, Optional

from .new_files import created, drawn_name

MARKER, MARKER_MADE = "hydroplan-run", "hydroplan-run.new"
MARK = b"A run of hydroplan with --workers made this folder, and removes it.\n"
JOURNAL, PROBLEM = "journal", "problem.json"
SAID = f"{JOURNAL}.said-"
"""The front of the names that files have before they lose them (`checking`)."""


@contextmanager
def room_beside(journal: Path, say: Callable[[str], None]) -> Iterator[Path]:
    """A new folder beside a journal, with a name that nothing had before. It goes at the end, as do those that killed runs of this journal left."""
    beside = journal.resolve()
    front = f"{beside.name}.farm-work-"
    for name in sorted(it for it in os.listdir(beside.parent) if it.startswith(front)):
        _remove_left(beside.with_name(name), say)
    room = beside.with_name(drawn_name(front))
    room.mkdir(mode=0o700)
    marker = _marked(room)
    try:
        yield room
    finally:
        reason = _removed(room, marker)
        os.close(marker)
        if reason is not None:
            say(f"{room} stays: {reason}")


def _marked(room: Path) -> int:
    """Marks a new folder; the marker, which is locked before it has its name, so that nobody takes the folder for one that was left."""
    with created(room / MARKER_MADE) as file:
        _is_locked_here(file.fileno())
        file.write(MARK)
        file.flush()
        os.rename(room / MARKER_MADE, room / MARKER)
        return os.dup(file.fileno())


def _remove_left(room: Path, say: Callable[[str], None]) -> None:
    """Removes a folder that a killed run left, and says so; says why where it is none."""
    reason = _removed(room)
    say(f"{room}, which a run left, is removed" if reason is None else f"{room} stays: {reason}")


def _removed(room: Path, marker: Optional[int] = None) -> Optional[str]:
    """Removes a folder of a run, whose marker is given where this run has it; else why it stays."""
    try:
        folder = os.open(room, os.O_RDONLY | os.O_DIRECTORY | os.O_NOFOLLOW | os.O_CLOEXEC)
    except OSError:
        return "it is no folder of a run"
    try:
        reason = _emptied(folder) if marker is None else _emptied_by_its_run(folder)
        if reason is None:
            os.rmdir(room)
        return reason
    except OSError as fault:
        return str(fault.strerror)
    finally:
        os.close(folder)


def _emptied(folder: int) -> Optional[str]:
    """Empties an open folder that a run left; else why not."""
    try:
        marker = os.open(MARKER, os.O_RDWR | os.O_NOFOLLOW | os.O_NONBLOCK | os.O_CLOEXEC, dir_fd=folder)
    except OSError:
        return "it has no mark of a run"
    try:
        if not _is_mark(marker):
            return "it has no mark of a run"
        if not _is_locked_here(marker):
            return "another run has it, as far as its lock says"
        return _emptied_by_its_run(folder)
    finally:
        os.close(marker)


def _emptied_by_its_run(folder: int) -> Optional[str]:
    """Empties an open folder whose lock this run has; else why not. The mark goes last, so that a kill leaves it."""
    there = os.listdir(folder)
    other = next((it for it in sorted(there) if it not in (MARKER, MARKER_MADE, JOURNAL, PROBLEM) and not it.startswith(SAID)), None)
    if other is not None:
        return f"it has {other}, which is of no run"
    for name in sorted(there, key=lambda it: it == MARKER):
        os.unlink(name, dir_fd=folder)
    return None


def _is_mark(marker: int) -> bool:
    """Whether an open file is the marker of a run of this user."""
    found = os.fstat(marker)
    return stat.S_ISREG(found.st_mode) and found.st_uid == os.geteuid() and os.read(marker, len(MARK) + 1) == MARK


def _is_locked_here(marker: int) -> bool:
    """Locks a marker; whether nobody else has it, as far as the file system knows of locks."""
    try:
        fcntl.flock(marker, fcntl.LOCK_EX | fcntl.LOCK_NB)
        return True
    except OSError:
        return False
