"""Certificates of duals, and what rays are worth, with the numbers worked out by hand. S is 2^24, and duals are 2^8 times finer."""
import unittest

from second_reading.node import Node, StageRow, Successor
from second_reading.node import UNIT as S
from second_reading.program import FOUND, RAY, STUCK, Answer
from second_reading.settling import Certificate, certificate_of_duals, classified, refutes, settled_cuts


class Cuts(unittest.TestCase):
    def test_rounding_goes_to_the_greatest(self):
        """S/2 with 255 of 256 parts of a unit, and S/2 less 255 of them: S/2 and S/2 - 1. One is missing, and two are above 0."""
        half = 1 << 31
        self.assertEqual(settled_cuts([0, half + 255, half - 255], S), ((1, S // 2 + 1), (2, S // 2 - 1)))

    def test_as_much_as_there_are_pairs(self):
        """S/2 - 1 twice: 2 are missing and 2 are above 0, so the greatest gets them, the first of equals."""
        dual = (S // 2 - 1) << 8
        self.assertEqual(settled_cuts([0, dual, dual], S), ((1, S // 2 + 1), (2, S // 2 - 1)))

    def test_more_goes_to_the_first_cut(self):
        """S/2 - 1 and S/2 - 2: 3 are missing and 2 are above 0. So they are of the least value, which place 0 states."""
        duals = [0, (S // 2 - 1) << 8, (S // 2 - 2) << 8]
        self.assertEqual(settled_cuts(duals, S), ((0, 3), (1, S // 2 - 1), (2, S // 2 - 2)))

    def test_nothing_kept(self):
        """No dual is above 0, so all of the target is missing."""
        self.assertEqual(settled_cuts([-5, 255, 0], 7 * S), ((0, 7 * S),))

    def test_too_much(self):
        """Places keep what the target leaves: 2S of 3S, then S of 2S, then nothing."""
        self.assertEqual(settled_cuts([2 * S << 8, 2 * S << 8, S << 8], 3 * S), ((0, 2 * S), (1, S)))

    def test_place_0_is_the_greatest(self):
        """One is missing, one is above 0, at place 0."""
        self.assertEqual(settled_cuts([(S << 8) - 1, 0], S), ((0, S),))


class Certificates(unittest.TestCase):
    node = Node(((0, 9), (0, 9)), (1, 1), (StageRow(1, None, ((0, 1),)), StageRow(None, 5, ((1, 1),)), StageRow(2, 3, ((0, 1),))),
                (Successor(1, 2), Successor(2, 1)))

    def test_rows(self):
        """Multipliers are rounded down, within 64 bits; a positive one without low and a negative one without high are 0."""
        duals = (511, -1, -257, 0, S << 8, 2 * S << 8)
        self.assertEqual(certificate_of_duals(self.node, Answer(FOUND, (), duals)), Certificate((1, -1, -2), (((1, S),), ((0, 2 * S),))))
        duals = (-1, 1 << 80, 1 << 80, 0, 0, 0)
        self.assertEqual(certificate_of_duals(self.node, Answer(FOUND, (), duals)).rows, (0, 0, (1 << 63) - 1))
        self.assertEqual(certificate_of_duals(self.node, Answer(FOUND, (), (0, -(1 << 80), 0, 0, 0, 0))).rows, (0, -(1 << 63), 0))

    def test_without_duals(self):
        for kind in (RAY, STUCK):
            answer = Answer(kind, (), (1 << 50,) * 6)
            self.assertEqual(certificate_of_duals(self.node, answer), Certificate((0, 0, 0), (((0, S),), ((0, 2 * S),))))


class Classifying(unittest.TestCase):
    def test_first_scale_counts(self):
        """u >= 5 in the box [0, 3]: 1 leaves S*5 - S*3, also without any digit dropped."""
        node = Node(((0, 3),), (0,), (StageRow(5, None, ((0, 1),)),))
        self.assertEqual(classified(node, (), (), Answer(RAY, (0,), (1 << 59,))), ("Infeasible", [1 << 59]))
        self.assertEqual(classified(node, (), (), Answer(RAY, (0,), (0,))), ("Unanswered", None))

    def test_scale_for_its_size(self):
        """2^30 * u >= 2^50 + 1 with u at most 2^20. The sizes of its two products are 2^24 * y * (2^51 + 1) together.

        With y = 2^59 or 2^55 that is 2^130 or more; with 2^51 it is a little above 2^126.
        """
        node = Node(((0, 1 << 20),), (0,), (StageRow((1 << 50) + 1, None, ((0, 1 << 30),)),))
        self.assertEqual(classified(node, (), (), Answer(RAY, (0,), (1 << 59,))), ("Infeasible", [1 << 51]))

    def test_state_and_values(self):
        """u + 2*x + 3*w <= 10 with u in [1, 4], x = 3/2 and w = 2: -1 leaves -(10 - 6 - 3) + 1 = 0; with x finer by one, 2."""
        node = Node(((1, 4),), (0,), (StageRow(None, 10, ((0, 1),), (2,), (3,)),))
        self.assertFalse(refutes(node, (2,), (3 * S // 2,), (-1,)))
        self.assertTrue(refutes(node, (2,), (3 * S // 2 + 1,), (-1,)))
        self.assertFalse(refutes(node, (2,), (3 * S // 2 + 1,), (1,)))

    def test_other_answers(self):
        node = Node(((0, 3),), (0,), (StageRow(5, None, ((0, 1),)),))
        self.assertEqual(classified(node, (), (), Answer(FOUND, (0,), (1 << 59,)))[0], "Found")
        self.assertEqual(classified(node, (), (), Answer(STUCK, (0,), (1 << 59,)))[0], "Unanswered")
