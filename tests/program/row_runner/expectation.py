"""The expectation of a row, and the first difference of a run from it."""
from __future__ import annotations

from dataclasses import dataclass
from typing import Optional, Union

from .program import Ended
from .rows import unhexed

NAME = b"hydroplan: "

# How the line of each status begins, as docs/use/FORMAT.md has them. A run without a line ends with 0.
STATUSES = {
    "usage: ": 2,
    "problem could not be read": 3,
    "problem is longer than 16777216 bytes": 4,
    "problem refused: ": 5,
    "journal refused: ": 6,
    "too much: formula ": 7,
    "range: iteration ": 8,
    "no stage solution: run ": 9,
    "journal device failed": 10,
    "output failed": 11,
    "memory": 12,
    "hydro refused: ": 14,
}


@dataclass(frozen=True)
class Expectation:
    """The lines on standard error (empty for status 0), the text on standard output, and the journal afterwards.

    The journal is None where nothing is said of it: then it has to be as it was.
    """

    lines: bytes
    text: bytes
    journal: Optional[bytes]


def status_of(line: bytes) -> Optional[int]:
    """The number that a run with this line on standard error ends with, 0 without a line. None where it is that of no status."""
    if not line:
        return 0
    if not line.startswith(NAME):
        return None
    text = line[len(NAME) :].decode("utf-8", "replace")
    return next((number for start, number in STATUSES.items() if text.startswith(start)), None)


def expectation(name: str, file: bytes) -> Expectation:
    """Reads the expectation from a file of the form `[hydroplan: LINE].. TEXT [journal HEX]`. BadRow where the digits are none.

    The first line belongs to the text where it is that of no status, and so do those behind it.
    """
    lines, text, journal = b"", file, None
    while text.startswith(NAME) and (lines or status_of(text)):
        line, newline, text = text.partition(b"\n")
        lines += line + newline
    before, mark, digits = (b"\n" + text).rpartition(b"\njournal ")
    if mark:
        text, journal = (before + b"\n")[1:], unhexed(name, digits)
    return Expectation(lines, text, journal)


def shown(piece: bytes) -> str:
    """A piece of a text, short enough for a line."""
    text = repr(piece.decode("utf-8", "replace"))
    return text if len(text) <= 200 else text[:200] + ".."


def first_unlike(found: bytes, expected: bytes) -> int:
    """The place of the first byte that differs."""
    length = min(len(found), len(expected))
    if found[:length] == expected[:length]:
        return length
    low, high = 0, length
    while high - low > 1:
        middle = (low + high) // 2
        low, high = (middle, high) if found[low:middle] == expected[low:middle] else (low, middle)
    return low


def text_difference(what: str, found: bytes, expected: bytes) -> Optional[str]:
    """The line in which two texts first differ, from shortly before the first byte that does."""
    if found == expected:
        return None
    at = first_unlike(found, expected)
    line = expected[:at].count(b"\n") + 1
    start = max(expected[:at].rfind(b"\n") + 1, at - 60)
    pieces = [shown(text[start:].partition(b"\n")[0]) for text in (found, expected)]
    ends = [" (where it ends)" if at == len(text) else "" for text in (found, expected)]
    return f"{what}, line {line}: gives {pieces[0]}{ends[0]}, expected {pieces[1]}{ends[1]}"


def journal_difference(found: Optional[bytes], expected: Optional[bytes]) -> Optional[str]:
    """Where two journals first differ. None stands for a journal that is not there."""
    if found == expected:
        return None
    if found is None or expected is None:
        there: Union[str, int] = "none" if found is None else f"one of {len(found)} bytes"
        return f"journal: leaves {there}, expected {'none' if expected is None else f'one of {len(expected)} bytes'}"
    at = first_unlike(found, expected)
    pieces = [text[at : at + 16].hex() or "the end" for text in (found, expected)]
    return f"journal of {len(found)} bytes, expected {len(expected)}: from byte {at} on it holds {pieces[0]}, expected {pieces[1]}"


def status_difference(ended: Ended, expected: Optional[int]) -> Optional[str]:
    """Says with what a run ended, where that is not as expected."""
    if ended.status == expected:
        return None
    how = f"ends with {ended.status}" if ended.status >= 0 else f"is ended by signal {-ended.status}"
    return f"{how}, expected {expected}; standard error has {shown(ended.said)}"


def difference(expected: Expectation, before: Optional[bytes], found: Ended) -> Optional[str]:
    """The first difference of a run from what is expected: of the status, standard error, standard output or the journal,
    which held these bytes before."""
    return (
        status_difference(found, status_of(expected.lines))
        or text_difference("standard error", found.said, expected.lines)
        or text_difference("standard output", found.written, expected.text)
        or journal_difference(found.journal, before if expected.journal is None else expected.journal)
    )
