"""Which known word a word looks like.

Outside the proved core.
"""
from __future__ import annotations

from typing import Optional


def nearest(word: str, known: tuple[str, ...]) -> Optional[str]:
    """The known word that differs least, none where all differ by much: 0 letters of 2, 1 of up to 5, else 2."""
    ranked = sorted((distance(_plain(word), _plain(other)), other) for other in known)
    return next((other for apart, other in ranked if apart <= _allowed(other)), None)


def _allowed(word: str) -> int:
    return 0 if len(word) <= 2 else 1 if len(word) <= 5 else 2


def _plain(word: str) -> str:
    return word.lower().replace("_", "").replace("-", "").replace(" ", "")


def distance(left: str, right: str) -> int:
    """How many letters are added, left out, changed or swapped with their neighbour (optimal string alignment)."""
    before: list[int] = []
    row = list(range(len(right) + 1))
    for i, letter in enumerate(left, 1):
        before, last, row = row, before, [i]
        for j, other in enumerate(right, 1):
            best = min(before[j] + 1, row[j - 1] + 1, before[j - 1] + (letter != other))
            if i > 1 and j > 1 and letter == right[j - 2] and left[i - 2] == other:
                best = min(best, last[j - 2] + 1)
            row.append(best)
    return row[-1]


def unknown_word(name: str, known: list[str]) -> str:
    """That a name is not known, and which is: the nearest, or the first ten where none is near."""
    like = nearest(name, tuple(known))
    hint = f'; "{like}" is' if like is not None else f"; known are {', '.join(known[:10])}" if known else ""
    return f'"{name[:140]}" is not known{hint}'
