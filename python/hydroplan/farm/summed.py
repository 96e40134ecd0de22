"""The programs in `bin` are compared with the sums beside them, once a run, and the very bytes that were compared are what runs.

A program is read once, into a file in the memory of the machine that nobody can change any more. Whatever comes to stand at its place later runs
in no worker and in no check. Imports little, since processes begin before most modules are there.
"""
from __future__ import annotations

import fcntl
import os

TYPE_CHECKING = False
if TYPE_CHECKING:
    from typing import Dict, Optional, Tuple

SUMS = "SHA256SUMS"
MAY_RUN = 0x10  # MFD_EXEC of Linux: a file in memory that may be run, whatever the machine has such files be
SEAL, SEALS = 1033, 15  # F_ADD_SEALS, and the seals against writing, growing, shrinking and other seals
_compared: Dict[str, Tuple[Tuple[int, ...], str]] = {}
_digests: Dict[str, str] = {}


class OtherSum(Exception):
    """A program whose sum is not the one that is named beside it, or one beside which none is named. The message is a whole sentence."""


def compared(place: str) -> str:
    """From where a program of `bin` runs: a copy of the bytes that were compared with the sum beside it.

    OtherSum where these are others. Where the system has no files in memory that may be run, the copy is the program itself.
    """
    found = os.stat(place)
    stamp = (found.st_dev, found.st_ino, found.st_size, found.st_mtime_ns, found.st_ctime_ns)
    known = _compared.get(place)
    if known is None or known[0] != stamp:
        known = _compared[place] = (stamp, _compared_now(place))
    return known[1]


def digest_of_copy(place: str) -> Optional[str]:
    """The SHA-256 of a copy that `compared` made, in hexadecimal digits; none of any other file."""
    return _digests.get(place)


def is_copy_of(place: str, program: str) -> bool:
    """Whether a place is that of the copy that was made of a program."""
    return program in _compared and _compared[program][1] == place


def _compared_now(place: str) -> str:
    from hashlib import sha256

    with open(place, "rb") as file:
        data = file.read()
    digest = sha256(data).hexdigest()
    if digest != _named(place):
        folder = os.path.dirname(place)
        shown = "bin" if os.path.basename(folder) == "bin" else os.path.join("bin", os.path.basename(folder))
        raise OtherSum(f"the program in {shown} is not the one that {shown}/{SUMS} names, and was not run")
    copy = _copy(data) or place
    _digests[copy] = digest
    return copy


def _named(place: str) -> str:
    """The sum that is named beside a program; none where there is none."""
    folder, name = os.path.split(place)
    try:
        with open(os.path.join(folder, SUMS), encoding="ascii") as file:
            lines = [it.split() for it in file]
    except (OSError, ValueError):
        return ""
    return next((it[0] for it in lines if it[1:] == [name]), "")


def _copy(data: bytes) -> Optional[str]:
    """Where a copy of a program in memory runs from, which this process keeps; none where the system has no such files."""
    for more in (MAY_RUN, 0):
        try:
            file = os.memfd_create("hydroplan", os.MFD_CLOEXEC | os.MFD_ALLOW_SEALING | more)
        except (AttributeError, OSError):
            continue
        # found by the number of this process, since a worker's is another
        place = f"/proc/{os.getpid()}/fd/{file}"
        try:
            left = memoryview(data)
            while left:
                left = left[os.write(file, left):]
            fcntl.fcntl(file, SEAL, SEALS)
            if os.path.samestat(os.stat(place), os.fstat(file)) and os.access(place, os.X_OK):
                return place
        except OSError:
            pass
        os.close(file)
    return None
