"""Paths drawn by the words of ChaCha20 (Bernstein, 2008): the seed is the front of the key, and each path has a stream of its own."""
from __future__ import annotations

from typing import Iterator, List, Sequence, Tuple

from .problem import Problem

MASK = (1 << 32) - 1
CONSTANTS = (0x61707865, 0x3320646E, 0x79622D32, 0x6B206574)
SCENARIOS = 1 << 32
"""The stream of the first scenario."""

Path = List[Tuple[int, int]]
"""Nodes, each with the number of a realization."""


def turned(word: int, places: int) -> int:
    """The word turned to the left."""
    return ((word << places) | (word >> (32 - places))) & MASK


def quarter(words: List[int], a: int, b: int, c: int, d: int) -> None:
    """A quarter of a round."""
    for one, two, three, places in ((a, b, d, 16), (c, d, b, 12), (a, b, d, 8), (c, d, b, 7)):
        words[one] = (words[one] + words[two]) & MASK
        words[three] = turned(words[three] ^ words[one], places)


def block(seed: int, stream: int, number: int) -> List[int]:
    """The 16 words of a block."""
    begin = [*CONSTANTS, seed & MASK, seed >> 32, *[0] * 6, number & MASK, number >> 32, stream & MASK, stream >> 32]
    words = list(begin)
    for _ in range(10):
        for column in range(4):
            quarter(words, *(column + 4 * it for it in range(4)))
        for column in range(4):
            quarter(words, *((column + it) % 4 + 4 * it for it in range(4)))
    return [(one + other) & MASK for one, other in zip(words, begin)]


def words_of(seed: int, stream: int) -> Iterator[int]:
    """The words of a stream, one after another."""
    number = 0
    while True:
        yield from block(seed, stream, number)
        number += 1


def pick(weights: Sequence[int], word: int) -> int:
    """The first place at which the running sum of the weights is above the word's share of their total."""
    level, running = word * sum(weights) >> 32, 0
    for place, weight in enumerate(weights):
        running += weight
        if running > level:
            return place
    raise ValueError("weights without a total")


def path_of(problem: Problem, seed: int, stream: int) -> Path:
    """The path of a stream: from a successor of the root to where there are no successors, or the stop weight is picked."""
    words, steps = words_of(seed, stream), []
    number = problem.root[pick([weight for _, weight in problem.root], next(words))][0]
    while True:
        place = problem.places[number]
        steps.append((number, pick([it.weight for it in place.realizations], next(words))))
        if not place.successors:
            return steps
        weights = [weight for _, weight in place.successors] + ([place.stop] if place.stop else [])
        picked = pick(weights, next(words))
        if picked == len(place.successors):
            return steps
        number = place.successors[picked][0]


def stream_of(iteration: int, batch: int, path: int) -> int:
    """The stream of a path of an iteration; iterations and paths are counted from 1."""
    return (iteration - 1) * batch + path
