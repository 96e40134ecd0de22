"""Single steps on small tables, worked out by hand. ONE is one in cells of 64-bit numbers, and a point is at 2^32 for one."""
import random
import unittest

from second_reading.ladder import rebuild, start
from second_reading.making import first
from second_reading.numbers import WIDE
from second_reading.program import FOUND, UNIT, Column, Cut, Program, Row
from second_reading.scaling import successor_exponent
from second_reading.simplex import Entering, Violation, enter, entering_line, line_of, move, pivot, refine
from second_reading.turns import go, most_turns
from second_reading.wide import wide_answer, wide_table
from reader_rows import program_of, rows_of_chains
from test_optima import drawn_programs

ONE = 1 << 40


def table_of(costs, highs, rows=()):
    """The first table of decisions from 0 on, in which nothing is scaled: all exponents of columns and values are 0.

    Rows are given as sides and whole coefficients. The exponent of costs is set to 0 too, so a cost of UNIT is ONE.
    """
    columns = tuple(Column(0, high * UNIT, 0) for high in highs)
    own = tuple(Row(low, high, tuple((it, term * UNIT) for it, term in terms)) for low, high, terms in rows)
    table = first(Program(len(columns), columns, own, (), ()))
    table.costs = list(costs)
    table.reduced = list(costs)
    table.at_high = [cost < 0 for cost in costs]
    return table


class Enters(unittest.TestCase):
    def test_least_cell(self):
        table = table_of([0, 0], [9, 9])
        self.assertEqual(enter(table, [(1 << 24) - 1, 1 << 24], 1, 1 << 13), Entering(1, (), 1 << 13))
        self.assertIsNone(enter(table, [(1 << 24) - 1, 0], 1, 1 << 13))

    def test_signs(self):
        """At low a variable can only rise, at high only fall; below its low (sign 1) the leaving one has to rise."""
        table = table_of([0, -1], [9, 9])
        self.assertEqual(table.at_high, [False, True])
        self.assertEqual(enter(table, [ONE, ONE], 1, UNIT).place, 0)
        self.assertEqual(enter(table, [ONE, ONE], -1, UNIT).place, 1)
        self.assertEqual(enter(table, [-ONE, -ONE], 1, UNIT).place, 1)
        self.assertIsNone(enter(table, [-ONE, ONE], 1, UNIT))

    def test_equal_bounds(self):
        self.assertIsNone(enter(table_of([0], [0]), [ONE], 1, UNIT))

    def test_flips_and_rest(self):
        """Ratios 1, 2, 3. The first may pass by 2 and the second by 3, which leaves 7 - 5 = 2 for the third."""
        table = table_of([3 * ONE, ONE, 2 * ONE], [9, 2, 3])
        self.assertEqual(enter(table, [ONE] * 3, 1, 7 * UNIT), Entering(0, (1, 2), 2 * UNIT))
        self.assertEqual(enter(table, [ONE] * 3, 1, 5 * UNIT + (1 << 12)), Entering(2, (1,), 3 * UNIT + (1 << 12)))
        self.assertEqual(enter(table, [ONE] * 3, 1, 5 * UNIT + (1 << 12) + 1), Entering(0, (1, 2), (1 << 12) + 1))
        self.assertIsNone(enter(table, [ONE] * 3, 1, 15 * UNIT))

    def test_ties(self):
        """Equal ratios: the greater cell first, then the lower variable. A cost below 2^16 counts as none."""
        table = table_of([2 * ONE, 4 * ONE, 4 * ONE], [9, 9, 9])
        self.assertEqual(enter(table, [ONE, 2 * ONE, 2 * ONE], 1, UNIT).place, 1)
        table = table_of([0, (1 << 16) - 1, 1 << 16], [9, 9, 9])
        self.assertEqual(enter(table, [ONE, 2 * ONE, 9 * ONE], 1, UNIT).place, 1)

    def test_a_slack_without_a_side_passes_nowhere(self):
        """Place 0 has the slack of a row without an upper side: it enters, however little that costs and however much is asked."""
        table = table_of([0, 0], [9, 9], [(0, None, [(0, 1)])])
        table.nonbasic, table.lines = [2, 1], {0: [ONE, 0]}
        self.assertEqual(enter(table, [ONE, 0], 1, 1 << 50), Entering(0, (), 1 << 50))


class Moves(unittest.TestCase):
    def test_pivot(self):
        """x0 + 2*x1 = s; x0 leaves the slack's line: x0 = s - 2*x1. Its cost 3 becomes 3*s, and x1's 7 becomes 7 - 6 = 1."""
        table = table_of([3 * ONE, 7 * ONE], [9, 9], [(4 * UNIT, None, [(0, 1), (1, 2)])])
        scale = 1 << -table.row_exponents[0]
        self.assertEqual((scale, line_of(table, 2)), (4, [ONE // 4, ONE // 2]))
        pivot(table, 2, 1, line_of(table, 2), 0)
        self.assertEqual((table.nonbasic, table.at_high), ([2, 1], [False, False]))
        self.assertEqual((table.lines, table.reduced), ({0: [4 * ONE, -2 * ONE]}, [12 * ONE, ONE]))
        refine(table)
        self.assertEqual(table.point, [4 * UNIT, 0])

    def test_inverse_of_lean_numbers(self):
        """The pivot 5*2^36 has 39 digits: its inverse is 2^95/(5*2^36), rounded down (2^59 - 3)/5. A cell of 2^58 times it, without
        55 digits, is 8 times it. The pivot's own place has 2^80/(5*2^36) to the nearest, (2^44 - 1)/5."""
        made = entering_line(table_of([0, 0], [1, 1]), [1 << 58, 5 << 36], 1)
        self.assertEqual(made, [-8 * (((1 << 59) - 3) // 5), ((1 << 44) - 1) // 5])

    def test_inverse_of_wide_numbers(self):
        """The pivot 5*2^77 has 80 digits: its inverse is 2^204/(5*2^77), rounded down (2^127 - 3)/5. A cell of 2^123 times it, without
        124 digits, is half of it to the nearest, halves upwards."""
        table = wide_table(Program(2, (Column(0, UNIT, 0),) * 2, (), (), ()))
        self.assertEqual(entering_line(table, [1 << 123, 5 << 77], 1)[0], -((((1 << 127) - 3) // 5 + 1) // 2))

    def test_move(self):
        """x0 = s - x1 + 2*x2 is above its high; x1 enters and x2 goes from its high 3 to 0, which leaves 8 - 6 of 8.

        The basic x3 = x1 + x2 rises by 2 - 3.
        """
        table = table_of([0] * 4, [1, 9, 3, 50], [(0, 0, [(0, 1)]), (0, 0, [(3, 1)])])
        table.nonbasic, table.at_high = [4, 1, 2, 5], [False, False, True, False]
        table.lines = {0: [ONE, -ONE, 2 * ONE, 0], 3: [0, ONE, ONE, ONE]}
        table.point = [9 * UNIT, 0, 3 * UNIT, 20 * UNIT]
        move(table, Violation(8 * UNIT, 0, -1), table.lines[0], Entering(1, (2,), 2 * UNIT))
        self.assertEqual(table.point, [UNIT, 2 * UNIT, 0, 19 * UNIT])
        self.assertEqual(table.at_high, [False, False, True, False])

    def test_turns(self):
        self.assertEqual(most_turns(table_of([0] * 7, [1] * 7)), 240)


class Scales(unittest.TestCase):
    def test_successor(self):
        """Slopes of 33 and 73 digits: the least counts as 53, so (73 + 53)/2 - 33. One without digits doesn't count."""
        slopes = [1 << (33 - 9), 1 << (73 - 9), 0]
        columns = (Column(0, UNIT, 0), Column(0, UNIT, UNIT))
        program = Program(1, columns, (), (0,), (tuple(Cut(0, (it,)) for it in slopes),))
        self.assertEqual(successor_exponent(program, 1, [0, 0], 0), 30)
        self.assertEqual(successor_exponent(program, 1, [5, 0], 0), 35)

    def test_costs_of_wide_numbers(self):
        """The successor's cost alone is 2^92: with 32 digits for it, it is a cell, and 60 digits more would be none."""
        columns = (Column(0, UNIT, 0), Column(-UNIT, UNIT, UNIT << 60))
        program = Program(1, columns, (), (0,), ((Cut(0, (0,)),),))
        self.assertEqual(wide_table(program).costs, [0, 1 << (31 + 48)])
        self.assertEqual(wide_answer(program).point, (0, 0))
        self.assertEqual(WIDE.cell_shift, 48)


class Rebuilds(unittest.TestCase):
    def test_ties_by_place(self):
        """x0 + x1 and x0 - x1 both tight: the first row's cells are equal, so its slack takes place 0, and the other's place 1."""
        table = table_of([0, 0], [9, 9], [(0, 0, [(0, 1), (1, 1)]), (0, 0, [(0, 1), (1, -1)])])
        table.nonbasic, table.at_high, table.lines = [3, 2], [True, False], {0: [1, 1], 1: [1, 1]}
        self.assertTrue(rebuild(table))
        self.assertEqual((table.nonbasic, table.at_high), ([2, 3], [False, True]))
        half = ONE << -table.row_exponents[0] >> 1
        self.assertEqual(table.lines, {0: [half, half], 1: [half, -half]})

    def test_columns_without_cost_stay_high(self):
        table = table_of([0, 0, -1, 1], [9] * 4)
        table.at_high = [True, False, False, True]
        self.assertTrue(rebuild(table))
        self.assertEqual(table.at_high, [True, False, True, False])

    def test_of_drawn_programs(self):
        """The same variables are nonbasic, each slack at the side where it was, and the answer comes without a pivot."""
        drawn = random.Random(8)
        for number in range(60):
            program = next(iter(drawn_programs(drawn))).without_cuts()
            table = first(program)
            answer = go(table, program, [])
            if answer is None or answer.kind != FOUND:
                continue
            before = dict(zip(table.nonbasic, table.at_high))
            self.assertTrue(rebuild(table))
            with self.subTest(number=number):
                after = dict(zip(table.nonbasic, table.at_high))
                self.assertEqual(sorted(after), sorted(before))
                self.assertEqual([high for it, high in after.items() if it >= 3], [before[it] for it in after if it >= 3])
                trace = []
                again = go(table, program, trace)
                self.assertEqual((trace, again.kind, again.point), ([], FOUND, answer.point))

    def test_a_weak_start_is_not_solved(self):
        """The program's table passes over a violation, so the start is its first table."""
        row = next(it for it in rows_of_chains() if it["name"] == "lazy-parallel")
        pivots = []
        self.assertEqual(start(program_of(row), pivots), first(program_of(row)))
        self.assertEqual(len(pivots), 3)
