"""Decisions moved by small amounts until they meet their rows exactly, or left as they are given."""
from __future__ import annotations

from typing import Iterator, List, Optional, Sequence, Set, Tuple

from .node import UNIT, Node, given_part

Move = Tuple[int, int]
"""A decision with the amount that is added to it."""

TRIES = 256
DEPTH = 3


def amounts(coefficient: int, miss: int) -> List[int]:
    """The least amount by which a term reaches the side that its row misses, and the greatest that stops short of it, if another."""
    sign = 1 if (coefficient > 0) == (miss > 0) else -1
    beyond, short = -(-abs(miss) // abs(coefficient)), abs(miss) // abs(coefficient)
    return [sign * beyond, sign * short] if short not in (0, beyond) else [sign * beyond]


class Mending:
    """Decisions of a node under way: those that are held by a move being tried, and how many tries are left."""

    def __init__(self, node: Node, values: Sequence[int], state: Sequence[int], decisions: Sequence[int]) -> None:
        self.node = node
        self.given = [given_part(row, values, state) for row in node.rows]
        self.decisions = list(decisions)
        self.held: Set[int] = set()
        self.tries = TRIES

    def miss(self, number: int, decisions: Optional[Sequence[int]] = None) -> int:
        """By how much a row has to rise or to fall to its side; 0 where it is met."""
        row, at = self.node.rows[number], self.decisions if decisions is None else decisions
        left = self.given[number] + sum(coefficient * at[decision] for decision, coefficient in row.terms)
        if row.low is not None and left < UNIT * row.low:
            return UNIT * row.low - left
        if row.high is not None and left > UNIT * row.high:
            return UNIT * row.high - left
        return 0

    def is_free(self, decision: int) -> bool:
        """Whether a decision may be moved: its box has room, and it is not held."""
        low, high = self.node.boxes[decision]
        return low < high and decision not in self.held

    def room(self, decision: int) -> Tuple[int, int]:
        """The least and the greatest amount that keep a decision in its box."""
        low, high = self.node.boxes[decision]
        return UNIT * low - self.decisions[decision], UNIT * high - self.decisions[decision]

    def moved(self, move: Move) -> List[int]:
        """The decisions after a move."""
        decision, amount = move
        made = list(self.decisions)
        made[decision] += amount
        return made

    def moves(self, number: int, miss: int) -> Iterator[Move]:
        """The moves of one decision for the sake of a row, in the order of its terms: to its side, or short of it."""
        for decision, coefficient in self.node.rows[number].terms:
            if coefficient == 0 or not self.is_free(decision):
                continue
            low, high = self.room(decision)
            yield from ((decision, amount) for amount in amounts(coefficient, miss) if low <= amount <= high)

    def met_rows(self, number: int) -> List[int]:
        """The rows that have to be met after a move for the sake of a row: that one, and those that are met now."""
        return [it for it in range(len(self.node.rows)) if it == number or self.miss(it) == 0]

    def harm(self, number: int, move: Move) -> int:
        """How many of these rows a move leaves unmet."""
        after = self.moved(move)
        return sum(self.miss(it, after) != 0 for it in self.met_rows(number))

    def in_order(self, number: int, moves: Iterator[Move], depth: int) -> List[Move]:
        """Moves by the rows that they harm, then by what they cost, then as listed; at depth 0 those alone that harm none."""
        ranked = [(self.harm(number, move), self.node.costs[move[0]] * move[1], move) for move in moves]
        ranked.sort(key=lambda it: it[:2])
        return [move for harm, _, move in ranked if depth > 0 or harm == 0]

    def fix(self, number: int, depth: int) -> bool:
        """Whether a row is met, or can be by moves that leave every met row met; where not, the decisions are as before."""
        miss = self.miss(number)
        if miss == 0:
            return True
        for move in self.in_order(number, self.moves(number, miss), depth):
            if self.tries == 0:
                return False
            self.tries -= 1
            if self.holds_after(number, move, depth):
                return True
        return False

    def holds_after(self, number: int, move: Move, depth: int) -> bool:
        """Makes a move, holds its decision, and mends each row that it harms; takes it back where one cannot be."""
        before, rows = list(self.decisions), self.met_rows(number)
        self.decisions = self.moved(move)
        self.held.add(move[0])
        done = all(self.fix(it, depth - 1) for it in rows)
        self.held.discard(move[0])
        if not done:
            self.decisions = before
        return done


def mended(node: Node, values: Sequence[int], state: Sequence[int], decisions: Sequence[int]) -> List[int]:
    """The decisions moved so that each row is met exactly, all in their boxes, or, where a row can't be met, as they are given."""
    mending = Mending(node, values, state, decisions)
    if all(mending.fix(number, DEPTH) for number in range(len(node.rows))):
        return mending.decisions
    return list(decisions)
