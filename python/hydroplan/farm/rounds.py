"""What each round is: how many iterations each part of it has, and by which seed. It follows from counts alone, so it comes out the same
on every machine, and after a kill."""
from __future__ import annotations

import hashlib
from functools import lru_cache
from typing import Tuple


@lru_cache(maxsize=1 << 10)
def part_seed(seed: int, part: int) -> int:
    """The seed of a part, 64 bits. Part 0 has the seed itself, so that training in one part is that of the program alone.

    The others are drawn from it, so that nobody who simulates with the next seed meets paths of training.
    """
    if part == 0:
        return seed
    text = b"hydroplan farm" + seed.to_bytes(8, "big") + part.to_bytes(4, "big")
    return int.from_bytes(hashlib.sha256(text).digest()[:8], "big")


def iterations_of_round(records: int, count: int, parts: int) -> Tuple[int, ...]:
    """The iterations of each part of the round that begins with so many records, of `count` in the end; empty where none is left.

    Each part has one: parts do not know of each other's cuts within a round, and what a round costs beside is little (docs/inside/DECISIONS.md).
    """
    return (1,) * min(parts, count - records)
