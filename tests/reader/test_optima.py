"""Drawn programs of two decisions and one successor: answers beside the optimum over all corners, which is found exactly."""
import random
import unittest
from fractions import Fraction
from itertools import combinations

from second_reading.ladder import answer_of, begin, start
from second_reading.program import FOUND, RAY, UNIT, Column, Cut, Program, Row
from second_reading.rays import proves
from second_reading.wide import wide_answer


def sides_of(program):
    """All that is asked of a point, as coefficients and the number that they have to come to at least."""
    asked = []
    for number, column in enumerate(program.columns):
        for sign, bound in ((1, column.low), (-1, column.high)):
            asked.append(([sign * UNIT * (it == number) for it in range(3)], sign * bound))
    for row in program.all_rows():
        terms = dict(row.terms)
        for sign, side in ((1, row.low), (-1, row.high)):
            if side is not None:
                asked.append(([sign * terms.get(it, 0) for it in range(3)], sign * side))
    return asked


def determinant(one, two, three):
    """Returns the determinant of three columns or rows."""
    return (one[0] * (two[1] * three[2] - two[2] * three[1]) - one[1] * (two[0] * three[2] - two[2] * three[0])
            + one[2] * (two[0] * three[1] - two[1] * three[0]))


def corner(three):
    """Where three of the sides are met, in whole units as numerators over a denominator above 0; none where that is no one point."""
    rows, ends = [it[0] for it in three], [it[1] for it in three]
    size = determinant(*rows)
    if size == 0:
        return None
    found = [determinant(*[[*row[:k], end, *row[k + 1:]] for row, end in zip(rows, ends)]) for k in range(3)]
    return ([-it for it in found], -size) if size < 0 else (found, size)


def optimum(program):
    """The least cost, in raw numbers, of a corner that meets all sides; none where there is none."""
    asked, best = sides_of(program), None
    for three in combinations(asked, 3):
        at = corner(three)
        if at is None or any(sum(a * x for a, x in zip(row, at[0])) < end * at[1] for row, end in asked):
            continue
        cost = Fraction(sum(column.cost * x for column, x in zip(program.columns, at[0])), at[1])
        best = cost if best is None else min(best, cost)
    return best


def drawn_programs(drawn):
    """Programs of one chain: the same columns, terms and cuts, with other sides."""
    box = [sorted(drawn.randint(-20, 40) for _ in range(2)) for _ in range(2)]
    columns = [Column(low * UNIT, high * UNIT, drawn.randint(-9, 20) * UNIT) for low, high in box]
    columns.append(Column(-3000 * UNIT, 9000 * UNIT, drawn.randint(1, 3) * UNIT))
    terms = [tuple((it, drawn.choice([-4, -1, 1, 1, 2, 7]) * UNIT) for it in sorted(drawn.sample(range(2), drawn.randint(1, 2))))
             for _ in range(drawn.randint(0, 2))]
    cuts = tuple(Cut(drawn.randint(-40 << 24, 60 << 24), tuple(drawn.randint(-(5 << 24), 5 << 24) for _ in range(2)))
                 for _ in range(drawn.randint(1, 5)))
    program = Program(2, tuple(columns), tuple(Row(None, None, it) for it in terms), (0, 1), (cuts,))
    for _ in range(3):
        sides = []
        for _ in terms:
            low = drawn.randint(-60, 120) * UNIT
            sides.append(drawn.choice([(low, low), (low, None), (None, low), (low, low + 9 * UNIT)]))
        yield program.with_sides(sides)


class Optima(unittest.TestCase):
    def check(self, program, answer, best):
        """A point costs the optimum, to one part in 2^20, and a ray comes exactly where there is no point."""
        if best is None:
            self.assertEqual(answer.kind, RAY)
            self.assertTrue(proves(program, answer.duals[:len(program.own)]))
            return
        self.assertEqual((answer.kind, answer.weak), (FOUND, False))
        cost = Fraction(sum(column.cost * it for column, it in zip(program.columns, answer.point)), UNIT)
        self.assertLessEqual(abs(cost - best), max(UNIT, abs(best)) / Fraction(1 << 20))

    def test_drawn_programs(self):
        drawn, kinds = random.Random(3), {FOUND: 0, RAY: 0}
        for number in range(150):
            programs, chain = list(drawn_programs(drawn)), None
            for place, program in enumerate(programs):
                best = optimum(program)
                kinds[RAY if best is None else FOUND] += 1
                chain = begin(start(programs[0], []), program) if place == 0 else chain
                with self.subTest(chain=number, program=place):
                    answer, chain = answer_of(chain, program, [])
                    self.check(program, answer, best)
                    self.check(program, answer_of(None, program, [])[0], best)
                    self.check(program, wide_answer(program), best)
        self.assertGreater(min(kinds.values()), 50)
