"""Limits: each number that is kept is tested against its range, and sums on the way stay within theirs."""
import unittest
from unittest import mock

from second_reading import making, wide
from second_reading.ladder import answer_of, begin, start
from second_reading.numbers import LEAN, WIDE, Numbers, Stop, bits, fits, towards_zero
from second_reading.program import UNIT, Column, Cut, Program, Row, is_narrow
from second_reading.simplex import append
from reader_rows import program_of, rows_of_chains, rows_of_ladder


class Limits(unittest.TestCase):
    def test_cells_and_values(self):
        for numbers, cell, value in ((LEAN, 60, 55), (WIDE, 124, 110)):
            for keep, digits in ((numbers.cell, cell), (numbers.value, value)):
                most = (1 << digits) - 1
                self.assertEqual((keep(most), keep(-most)), (most, -most))
                for beyond in (most + 1, -most - 1):
                    self.assertRaises(Stop, keep, beyond)

    def test_down_rounds_halves_upwards(self):
        for numbers in (LEAN, WIDE):
            one = 1 << numbers.cells
            rows = [(one // 2, 1), (one // 2 - 1, 0), (-one // 2, 0), (-one // 2 - 1, -1), (3 * one, 3), (-3 * one, -3)]
            for total, rounded in rows:
                self.assertEqual(numbers.down(total), rounded)

    def test_shifts_of_lean_numbers(self):
        """2^126 * 2 is 2^127, which 128 bits don't hold; -2^127 they do."""
        self.assertEqual(LEAN.shift(-(1 << 126), 1), -(1 << 127))
        self.assertRaises(Stop, LEAN.shift, 1 << 126, 1)
        self.assertRaises(Stop, LEAN.shift, -(1 << 126) - 1, 1)
        self.assertEqual((LEAN.shift(-1, -5), LEAN.shift(31, -5), LEAN.shift(0, 10**6)), (-1, 0, 0))

    def test_shifts_of_wide_numbers(self):
        """7 has 3 digits, so 247 places are the most."""
        self.assertEqual(WIDE.shift(7, 247), 7 << 247)
        self.assertRaises(Stop, WIDE.shift, 7, 248)
        self.assertRaises(Stop, WIDE.shift, -4, 248)
        self.assertEqual((WIDE.shift(-9, -3), WIDE.shift(0, 10**6)), (-2, 0))

    def test_digits_and_quotients(self):
        self.assertEqual([bits(it) for it in (0, 1, -1, 255, -256)], [0, 1, 1, 8, 9])
        self.assertEqual([towards_zero(7, 2), towards_zero(-7, 2), towards_zero(7, -2), towards_zero(-7, -2)], [3, -3, -3, 3])
        self.assertTrue(fits(-(1 << 127), 128) and fits((1 << 127) - 1, 128))
        self.assertFalse(fits(1 << 127, 128) or fits(-(1 << 127) - 1, 128))


class Programs(unittest.TestCase):
    def test_narrow(self):
        """An alpha of 100 digits, slopes of 57, and bounds below 2^39 are the most. Bounds in which no cut has a slope don't count."""
        rows = [
            ((1 << 100) - 1, (1 << 57) - 1, (1 << 39) * UNIT - 1, True), (1 << 100, 0, UNIT, False), (0, 1 << 57, UNIT, False),
            (-(1 << 100) + 1, -(1 << 57) + 1, 0, True), (0, 1, (1 << 39) * UNIT, False), (0, 0, (1 << 39) * UNIT, True),
        ]
        for alpha, slope, bound, narrow in rows:
            with self.subTest(alpha=alpha, slope=slope, bound=bound):
                columns = (Column(-bound, 0, 0), Column(0, UNIT, UNIT))
                program = Program(1, columns, (), (0,), ((Cut(0, (0,)), Cut(alpha, (slope,))),))
                self.assertEqual(is_narrow(program, 0), narrow)

    def test_narrow_by_terms(self):
        """A cut of 50 slopes beside the successor's cost, and of 51."""
        for count, narrow in ((50, True), (51, False)):
            columns = (Column(0, UNIT, 0),) * count + (Column(0, UNIT, UNIT),)
            program = Program(count, columns, (), tuple(range(count)), ((Cut(0, (1,) * count),),))
            self.assertEqual(is_narrow(program, 0), narrow)

    def test_two_states_of_one_decision(self):
        """Their slopes are added in the cut's row, and a sum of 0 leaves no term."""
        columns = (Column(0, UNIT, 0), Column(0, UNIT, UNIT))
        program = Program(1, columns, (), (0, 0), ((Cut(3, (5, 7)), Cut(4, (5, -5))),))
        self.assertEqual(program.all_rows(), [Row(3 << 8, None, ((0, -12 << 8), (1, UNIT))), Row(4 << 8, None, ((1, UNIT),))])

    def test_too_many_columns(self):
        """1,199 columns are answered, and 1,200 leave every attempt without an answer."""
        for count, kind in ((1199, "Found"), (1200, "Stuck")):
            program = Program(count, (Column(UNIT, 2 * UNIT, -UNIT),) * count, (), (), ())
            answer, _ = answer_of(None, program, [])
            self.assertEqual(answer.kind, kind)
            self.assertEqual(set(answer.point), {2 * UNIT if kind == "Found" else UNIT})
        self.assertIsNone(begin(start(program, []), program))

    def test_a_cost_that_stops(self):
        """The decision's cost 1 of 33 digits gives costs the exponent -1. A successor's cost of 2^22 then becomes 2^61, past 2^60."""
        for power, begins in ((20, True), (22, False)):
            columns = (Column(0, UNIT, UNIT), Column(0, UNIT, UNIT << power))
            program = Program(1, columns, (), (0,), ((Cut(0, (0,)),),))
            chain = begin(start(program, []), program)
            self.assertEqual(chain is not None, begins)
            if chain is not None:
                self.assertEqual((chain.cost_exponent, chain.costs[1]), (-1, 1 << (power + 39)))

    def test_a_row_that_stops_is_not_appended(self):
        """The side 2^60 of a row whose only coefficient is 1 becomes 2^59 at the row's exponent, past 2^55."""
        program = Program(1, (Column(0, UNIT, UNIT),), (), (), ())
        table = making.first(program)
        before = table.copy()
        self.assertRaises(Stop, append, table, Row(1 << 60, None, ((0, UNIT),)))
        self.assertEqual(table, before)


class Watched(Numbers):
    """Numbers that look at each sum before it is rounded."""

    def down(self, total):
        """The rounded sum, where it was within twice the digits of a number."""
        if not fits(total, 128 if self.cells == 40 else 256):
            raise AssertionError(f"a sum of {bits(total)} digits")
        return super().down(total)


class Sums(unittest.TestCase):
    def test_sums_stay_in_their_range(self):
        """In all rows each sum of products is within 128 bits in lean numbers, and within 256 in wide ones."""
        watched = [Watched(**vars(it)) for it in (LEAN, WIDE)]
        with mock.patch.object(making, "LEAN", watched[0]), mock.patch.object(wide, "WIDE", watched[1]):
            for row in [*rows_of_chains(), *rows_of_ladder()]:
                program = program_of(row)
                wide.wide_answer(program)
                answer_of(None, program, [])
                answer_of(begin(start(program, []), program), program, [])
