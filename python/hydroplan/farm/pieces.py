"""Bytes that are written in pieces, so that nobody puts them together first."""
from __future__ import annotations

from typing import List, Union

MOST_PIECES = 512
"""So many pieces are written at once."""
Piece = Union[bytes, memoryview]


def behind(pieces: List[Piece], written: int) -> List[Piece]:
    """What is left of pieces where so many of their bytes are written."""
    for at, piece in enumerate(pieces):
        if written < len(piece):
            return [memoryview(piece)[written:], *pieces[at + 1:]]
        written -= len(piece)
    return []
