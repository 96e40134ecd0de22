"""Where the numbers of lists of pairs stand in the bytes of a certificate (docs/use/FORMAT.md, The journal), where each list has one pair."""
from __future__ import annotations

from functools import lru_cache
from struct import Struct
from typing import Callable, Tuple

NUMBER_BYTES = 4
PAIR_BYTES = 12
LIST_BYTES = NUMBER_BYTES + PAIR_BYTES
MULTIPLIER_BYTES = 8
ONE_PAIR = 1 << 32
"""A length of one and a place of 0, as one number."""
TWO_PAIRS = 2 << 32
"""No list of one pair has a length and a place as great, as one number."""
MOST_LISTS = 40
"""So many lists are read at once."""


class Lists:
    """The lists of some realizations. Where each has one pair, they have so many bytes, and places stand at these offsets for each successor.

    `lengths` reads the length of each list, `places` the place of each list of a successor, and `heads` both of each list as one number.
    """

    def __init__(self, rows: int, successors: int, realizations: int) -> None:
        self.realizations = realizations
        front = rows * MULTIPLIER_BYTES
        size = front + successors * LIST_BYTES
        self.bytes = size * realizations
        self.lengths = _reading(f"{front}x" + f"I{PAIR_BYTES}x" * successors, realizations)
        self.of_one = (1,) * (successors * realizations)
        self.heads = _reading(f"{front}x" + f"Q{MULTIPLIER_BYTES}x" * successors, realizations)
        firsts = [front + NUMBER_BYTES + LIST_BYTES * it for it in range(successors)]
        self.places = [_reading(f"{it}xI{size - NUMBER_BYTES - it}x", realizations) for it in firsts]
        self.offsets = [range(it, self.bytes, size) for it in firsts]


def _reading(one: str, times: int) -> Callable[[bytearray, int], Tuple[int, ...]]:
    """What reads numbers that stand so, so many times one after another."""
    return Struct(">" + one * times).unpack_from


@lru_cache(maxsize=1 << 12)
def lists_of(rows: int, successors: int, realizations: int) -> Tuple[Lists, ...]:
    """The lists of so many realizations, as many together as are read at once."""
    most = MOST_LISTS // successors or 1 if successors else realizations
    return tuple(Lists(rows, successors, min(most, realizations - first)) for first in range(0, realizations, most))
