"""Decisions moved until they meet their rows: small rows worked out by hand, and what is promised of any.

S is 2^24. Decisions are in fine units, S for one; coefficients, sides and boxes are whole.
"""
import random
import unittest
from typing import Sequence

from second_reading.mending import Mending, amounts, mended
from second_reading.node import UNIT as S
from second_reading.node import Node, StageRow, decisions_of

WIDE_BOX = (0, 100)


def equal(side: int, *terms, states: Sequence[int] = ()) -> StageRow:
    """A row whose terms sum to a side."""
    return StageRow(side, side, terms, tuple(states))


def node_of(count, rows, costs=None, boxes=None) -> Node:
    """A node of some decisions, with costs of 0 and wide boxes where none are given."""
    return Node(tuple(boxes or [WIDE_BOX] * count), tuple(costs or [0] * count), tuple(rows))


def fine(*decisions) -> list:
    """Decisions in fine units, each given as whole units and fine ones."""
    return [S * whole + rest for whole, rest in decisions]


class OneDecision(unittest.TestCase):
    def test_a_unit_is_missing(self):
        """u0 + u1 = 6 at 4 and 2 less a fine unit: the miss is 1, so either may rise by 1; the one that costs less does."""
        given = fine((4, 0), (2, -1))
        for costs, after in (((3, 2), fine((4, 0), (2, 0))), ((2, 3), fine((4, 1), (2, -1))), ((2, 2), fine((4, 1), (2, -1)))):
            self.assertEqual(mended(node_of(2, [equal(6, (0, 1), (1, 1))], costs), (), (), given), after)

    def test_a_unit_too_much(self):
        """u0 - u1 <= 2 at 4 and 2 less 3: the miss is -3, so u0 falls by 3 or u1 rises by 3; the costs are -3*5 and 3*1."""
        node = node_of(2, [StageRow(None, 2, ((0, 1), (1, -1)))], (5, 1))
        self.assertEqual(mended(node, (), (), fine((4, 0), (2, -3))), fine((4, -3), (2, -3)))

    def test_beyond_the_side(self):
        """3*u0 >= 6 at 2 less 1 misses 3, and 3 are met by 1. 3*u0 + 7*u1 >= 6 there misses 3 too: 7 goes beyond, which it may."""
        self.assertEqual(mended(node_of(1, [StageRow(6, None, ((0, 3),))]), (), (), fine((2, -1))), fine((2, 0)))
        node = node_of(2, [StageRow(6, None, ((0, 3), (1, 7)))], (2, 1))
        self.assertEqual(mended(node, (), (), fine((2, -1), (0, 0))), fine((2, -1), (0, 1)))

    def test_what_is_given(self):
        """u0 + 2*x + 5*w = 20 with x = 3 and a fine unit and w = 2: 20 - 6 - 10 = 4, less 2 fine units."""
        node = Node(((0, 9),), (1,), (StageRow(20, 20, ((0, 1),), (2,), (5,)),))
        self.assertEqual(mended(node, (2,), (3 * S + 1,), fine((4, 0))), fine((4, -2)))

    def test_boxes(self):
        """u0 is at its high and u1 has no room, so u2 rises, though it costs most."""
        node = node_of(3, [equal(9, (0, 1), (1, 1), (2, 1))], (1, 1, 9), [(0, 4), (2, 2), (0, 9)])
        self.assertEqual(mended(node, (), (), fine((4, 0), (2, 0), (3, -1))), fine((4, 0), (2, 0), (3, 0)))

    def test_rows_that_are_met_count_first(self):
        """u0 would unmeet u0 = 4, so u1 rises, though it costs more."""
        node = node_of(2, [equal(6, (0, 1), (1, 1)), equal(4, (0, 1))], (1, 9))
        self.assertEqual(mended(node, (), (), fine((4, 0), (2, -1))), fine((4, 0), (2, 0)))


class CanNotBeMet(unittest.TestCase):
    def test_gcd(self):
        """2*u0 + 4*u1 + x = 10 with x odd: the two terms are even and what is left is odd."""
        node = node_of(2, [equal(10, (0, 2), (1, 4), states=(1,))])
        given = fine((1, 0), (2, 0))
        self.assertEqual(mended(node, (), (1,), given), given)

    def test_all_is_as_given(self):
        """The first row could be met by u2 alone, but the second can't, so nothing changes."""
        node = node_of(3, [equal(5, (0, 1), (2, 1)), equal(10, (0, 2), (1, 4), states=(1,))])
        given = fine((1, 0), (2, 0), (4, -1))
        self.assertEqual(mended(node, (), (1,), given), given)
        self.assertEqual(mended(node_of(3, node.rows[:1]), (), (1,), given), fine((1, 1), (2, 0), (4, -1)))

    def test_no_room(self):
        node = node_of(2, [equal(8, (0, 1), (1, 1))], None, [(0, 4), (3, 3)])
        given = fine((4, 0), (3, 0))
        self.assertEqual(mended(node, (), (), given), given)


class Amounts(unittest.TestCase):
    def test_beyond_and_short(self):
        """2 units of a factor of 2 reach 3, and 1 stops short of it; 2 of 5 reach 10 exactly; 1 of 4 reaches 3, and none stops short."""
        self.assertEqual(amounts(2, 3), [2, 1])
        self.assertEqual(amounts(-3, 7), [-3, -2])
        self.assertEqual(amounts(3, -7), [-3, -2])
        self.assertEqual(amounts(5, 10), [2])
        self.assertEqual(amounts(4, 3), [1])

    def test_short_of_the_side(self):
        """3*u0 + u1 = 10 misses 4. u1 has room for 1, so u0 rises: by 1, short of the side, since that costs less than 2, and u1 by 1."""
        node = node_of(2, [equal(10, (0, 3), (1, 1))], (1, 0), [(0, 9), (0, 4)])
        self.assertEqual(mended(node, (), (), fine((2, -1), (4, -1))), fine((2, 0), (4, 0)))

    def test_beyond_the_side_and_back(self):
        """2*u0 + 3*u1 = 13 misses 1. u0 cannot help: 1 goes 1 beyond, and u1 then 2 the other way. u1 rises by 1, 2 beyond, and u0 falls by 1."""
        node = node_of(2, [equal(13, (0, 2), (1, 3))])
        self.assertEqual(Mending(node, (), (), fine((2, 1), (3, -1))).miss(0), 1)
        self.assertEqual(mended(node, (), (), fine((2, 1), (3, -1))), fine((2, 0), (3, 0)))


def ladder_of(count):
    """u0 alone is 1, and each later decision equals the one before it; all are 1 less a fine unit, so the first row misses it."""
    rows = [equal(1, (0, 1)), *(equal(0, (it - 1, 1), (it, -1)) for it in range(1, count))]
    return node_of(count, rows), fine(*[(1, -1)] * count)


class Depth(unittest.TestCase):
    def test_rows_after_one_another(self):
        """Each move unmeets the next row, which the next decision meets. Below the first three such moves only one is left."""
        for count in (1, 2, 3, 4):
            node, given = ladder_of(count)
            self.assertEqual(mended(node, (), (), given), fine(*[(1, 0)] * count))

    def test_too_deep(self):
        """The fourth move would unmeet a fifth row, and it may unmeet none."""
        node, given = ladder_of(5)
        self.assertEqual(mended(node, (), (), given), given)

    def test_what_is_held_stays(self):
        """u0 + u1 = 6 misses 1, and u0 + 2*u1 = 8 is met.

        Where u0 rises by 1, the second row asks u1 to fall by 1/2: by 1 it goes beyond. Where u1 rises by 1, the second row asks u0
        to fall by 2, and then the first is unmet again, with both held.
        """
        node = node_of(2, [equal(6, (0, 1), (1, 1)), equal(8, (0, 1), (1, 2))])
        given = fine((4, -2), (2, 1))
        self.assertEqual(Mending(node, (), (), given).miss(0), 1)
        self.assertEqual(mended(node, (), (), given), given)


class Tries(unittest.TestCase):
    def row_of(self, bad):
        """A sum that misses a unit. Each of its first decisions is bound by a row of its own, which can't be met once it moved.

        The last one's row has another decision, but it costs more to move the last one, so it is tried after all others.
        """
        count = bad + 2
        rows = [equal(1, *((it, 1) for it in range(bad + 1))), *(equal(0, (it, 1)) for it in range(bad)),
                equal(0, (bad, 1), (bad + 1, -1))]
        given = [0] * bad + [S - 1, S - 1]
        return node_of(count, rows, [0] * bad + [1, 0]), given

    def test_256_are_enough(self):
        """254 tries fail, and one for the last decision and one for its row are left."""
        node, given = self.row_of(254)
        self.assertEqual(mended(node, (), (), given), [0] * 254 + [S, S])

    def test_257_are_too_many(self):
        node, given = self.row_of(255)
        self.assertEqual(mended(node, (), (), given), given)


class Promise(unittest.TestCase):
    def drawn_node(self, drawn):
        """A node whose rows hold at a drawn point in fine units, and decisions near that point."""
        count = drawn.randint(1, 6)
        boxes = [(low, low + drawn.choice([0, 1, 5, 90])) for low in (drawn.randint(-9, 9) for _ in range(count))]
        point = [S * low + drawn.randint(0, S * (high - low)) for low, high in boxes]
        state = [drawn.randint(-5 * S, 5 * S)]
        rows = []
        for _ in range(drawn.randint(1, 5)):
            names = sorted(drawn.sample(range(count), drawn.randint(1, count)))
            terms = tuple((it, drawn.choice([-1, 1]) * drawn.choice([1, 1, 1, 2, 3, 7, 30])) for it in names)
            slope, word = drawn.choice([0, 1, 2]), drawn.randint(-3, 3)
            side = (sum(it * point[name] for name, it in terms) + slope * state[0]) // S + 2 * word
            kinds = [(side, side), (side, side), (side, None), (None, side), (side, side + 3)]
            rows.append(StageRow(*drawn.choice(kinds), terms, (slope,), (word,)))
        node = Node(tuple(boxes), tuple(drawn.randint(-9, 9) for _ in range(count)), tuple(rows))
        near = [(it + drawn.choice([0, 0, 1, -1, 2, -5, drawn.randint(-S, S)])) << 8 for it in point]
        return node, state, decisions_of(node, near)

    def test_every_row_or_nothing(self):
        """Decisions meet every row and lie in their boxes, or they are those given; rows that are met stay as they are."""
        drawn, changed, met_before, left = random.Random(11), 0, 0, 0
        for number in range(1500):
            node, state, given = self.drawn_node(drawn)
            after = mended(node, (2,), state, given)
            with self.subTest(number=number):
                self.assertTrue(all(S * low <= it <= S * high for it, (low, high) in zip(after, node.boxes)))
                meets = [Mending(node, (2,), state, after).miss(it) == 0 for it in range(len(node.rows))]
                self.assertTrue(all(meets) or after == given)
                changed += after != given
                met_before += after == given and all(meets)
                left += not all(meets)
        self.assertTrue(min(changed, met_before, left) >= 50, (changed, met_before, left))
