"""Single programs: the answer of wide numbers bit for bit, that of all attempts together, and the optimum that is known exactly."""
import unittest
from fractions import Fraction

from second_reading.ladder import answer_of
from second_reading.program import FOUND, UNIT
from second_reading.wide import wide_answer, wide_turns
from reader_rows import program_of, rows_of_ladder, table_of_all

REFINED_EACH_TURN = ("infeasible-1", "infeasible-2")
"""Rows whose point is that of a table refined at each turn; they can't be met, so it depends on how often that is done."""


class Ladder(unittest.TestCase):
    """Each row is a test of its own for wide numbers, one for all attempts, and one for its optimum."""

    maxDiff = None

    def check_wide(self, row):
        """Kind, weakness, point and duals, bit for bit."""
        answer, expected = wide_answer(program_of(row)), row["wide"]
        self.assertEqual((answer.kind.lower(), answer.weak), (expected["kind"], expected["weak"]))
        self.assertEqual(list(answer.point), expected["point"])
        self.assertEqual(list(answer.duals), expected["duals"])

    def check_ladder(self, row):
        """Kind, who answered, duals and, of most rows, the point, without a chain."""
        trace, expected = [], row["ladder"]
        answer, chain = answer_of(None, program_of(row), trace)
        who = "chain" if chain is not None else trace[-1]
        self.assertEqual((answer.kind.lower(), who), (expected["kind"], expected["who"]))
        self.assertEqual(list(answer.duals), expected["duals"])
        if row["name"] not in REFINED_EACH_TURN:
            self.assertEqual(list(answer.point), expected["point"])

    def check_optimum(self, row):
        """The point costs what the optimum is, to one part in 2^30 or 2^-16, and a program without points has a ray."""
        program = program_of(row)
        answer = wide_answer(program)
        if row["optimum"] is None:
            self.assertEqual(answer.kind, "Ray")
            return
        self.assertEqual(answer.kind, FOUND)
        optimum = Fraction(row["optimum"])
        cost = Fraction(sum(column.cost * it for column, it in zip(program.columns, answer.point)), UNIT**2)
        self.assertLessEqual(abs(cost - optimum), max(abs(optimum) / 2**30, Fraction(1, 2**16)))

    def test_refined_each_turn(self):
        """Their points agree where a lean table goes through the turns of wide numbers."""
        for row in rows_of_ladder():
            if row["name"] in REFINED_EACH_TURN:
                program = program_of(row)
                with self.subTest(row["name"]):
                    answer = wide_turns(table_of_all(program), program)
                    self.assertEqual(list(answer.point), row["ladder"]["point"])
                    self.assertEqual(list(answer.duals), row["ladder"]["duals"])

    def test_there_are_as_many_rows_as_came(self):
        self.assertEqual(len(rows_of_ladder()), 19)


def add_rows():
    """Gives the class three tests for each row."""
    for row in rows_of_ladder():
        for kind in ("wide", "ladder", "optimum"):
            name = f"test_{kind}_" + row["name"].replace("-", "_")
            setattr(Ladder, name, lambda self, it=row, what=kind: getattr(self, "check_" + what)(it))


add_rows()
