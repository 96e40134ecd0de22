"""Proofs that no point keeps the own rows, with the sums worked out by hand."""
import unittest

from second_reading.ladder import answer_of
from second_reading.making import first
from second_reading.program import FINER, RAY, UNIT, Column, Program, Row
from second_reading.rays import clipped, proves, ray, surplus
from second_reading.wide import wide_answer
from reader_rows import raw


def of_rows(boxes, *rows):
    """A program without costs and successors, in whole numbers."""
    columns = tuple(Column(low * UNIT, high * UNIT, 0) for low, high in boxes)
    own = tuple(Row(None if low is None else low * UNIT, None if high is None else high * UNIT,
                    tuple((column, term * UNIT) for column, term in terms)) for low, high, terms in rows)
    return Program(len(columns), columns, own, (), ())


class Rays(unittest.TestCase):
    def test_surplus(self):
        """x0 + x1 >= 5 in boxes [0, 2] and [0, 2]: a multiplier y leaves 5y - 2y - 2y = y, at 2^24 for one."""
        program = of_rows([(0, 2), (0, 2)], (5, None, [(0, 1), (1, 1)]))
        self.assertEqual(surplus(program, [3]), 3 * UNIT // FINER)
        self.assertTrue(proves(program, [3]))
        self.assertFalse(proves(program, [0]))

    def test_signs(self):
        """A positive multiplier stands on a low, a negative one on a high."""
        program = of_rows([(0, 9)], (1, None, [(0, 1)]), (None, 2, [(0, 1)]), (3, 4, [(0, 1)]))
        self.assertEqual(clipped(program, [1, 1, 1]), [1, 0, 1])
        self.assertEqual(clipped(program, [-1, -1, -1]), [0, -1, -1])

    def test_difference_of_two_rows(self):
        """x0 >= 3 and x0 <= 2: with 1 and -1 the sides leave 3 - 2 = 1, and the box nothing, as x0 has the weight 0."""
        program = of_rows([(-50, 50)], (3, None, [(0, 1)]), (None, 2, [(0, 1)]))
        self.assertEqual(surplus(program, [1, -1]), UNIT // FINER)

    def test_scale(self):
        """At 2^59 the product with the side 2^62 * 2^24 leaves 128 bits, and so it does until 2^127; without 20 digits it is 2^125."""
        program = of_rows([(0, 1)], (1 << 62, None, [(0, 1)]))
        for places, fit in ((16, False), (20, True)):
            multiplier = (1 << 59) >> places
            self.assertEqual(multiplier * (1 << 86) < 1 << 127, fit)
        self.assertTrue(proves(program, [1 << 59]))

    def test_small_multipliers_are_lost_in_a_smaller_scale(self):
        """x0 - 16*x1 >= 1, x1 >= 1, x0 <= 16 asks for 1, 16 and -1: 1 + 16 - 16 = 1. Without 4 digits it is 0, 1 and -1: 1 - 16."""
        program = of_rows([(-99, 99), (-99, 99)], (1, None, [(0, 1), (1, -16)]), (1, None, [(1, 1)]), (None, 16, [(0, 1)]))
        self.assertEqual(surplus(program, [1, 16, -1]), UNIT // FINER)
        self.assertLess(surplus(program, [0, 1, -1]), 0)
        self.assertTrue(proves(program, [1, 16, -1]))

    def test_answers_are_proved(self):
        """An infeasible program is answered by multipliers that prove it, whole and with 0 for what is not used; points at low."""
        program = of_rows([(1, 2), (-1, 2)], (None, 7, [(0, 1)]), (5, None, [(0, 1), (1, 1)]))
        for answer in (answer_of(None, program, [])[0], wide_answer(program)):
            self.assertEqual((answer.kind, list(answer.point)), (RAY, raw(1, -1)))
            self.assertEqual(answer.duals[0], 0)
            self.assertTrue(proves(program, answer.duals))

    def test_no_multipliers(self):
        """Where neither the violated variable nor a nonbasic one is the slack of an own row, there is nothing to prove by."""
        program = of_rows([(0, 1), (0, 1)])
        self.assertIsNone(ray(first(program), program, 0, [0, 1 << 40], 1))

    def test_sixty_digits(self):
        """x0 >= 3 in the box [0, 2]: the row alone is to blame. Its multiplier is 1 brought to 60 digits, which is 2^59."""
        program = of_rows([(0, 2)], (3, None, [(0, 1)]))
        for answer in (answer_of(None, program, [])[0], wide_answer(program)):
            self.assertEqual((answer.kind, answer.duals), (RAY, (1 << 59,)))
        program = of_rows([(0, 2)], (None, -3, [(0, 1)]))
        self.assertEqual(answer_of(None, program, [])[0].duals, (-(1 << 59),))
