"""Chains of programs: kind, point, duals, what happened, and which cuts are in afterwards, as other readings gave them."""
import unittest

from second_reading.ladder import answer_of, begin, start
from second_reading.turns import go
from reader_rows import program_of, raw, rows_of_chains, table_of_all

PASSED_OVER = "lazy-parallel"
"""The row that has the answer of its table alone."""


def programs_of(row):
    """The programs of a row's chain; one without sides has those of the row."""
    program = program_of(row)
    return [program.with_sides([tuple(it) for it in sides]) if sides else program for sides in row["solve"]]


def said_of(answer, trace, cuts):
    """An answer in the words of the rows."""
    return {"kind": answer.kind, "point": list(answer.point), "duals": list(answer.duals), "trace": trace,
            "cuts": [f"{successor}.{place}" for successor, place in cuts]}


class Chains(unittest.TestCase):
    """Each row is a test of its own; what it shows is said in it."""

    maxDiff = None

    def check(self, row):
        """Goes through a row's chain, from its start where it has one."""
        programs, pivots, chain = programs_of(row), [], None
        if row["begun"]:
            chain = begin(start(program_of(row), pivots), programs[0])
            self.assertEqual(pivots, row["start"])
        for number, (program, expected) in enumerate(zip(programs, row["answers"])):
            trace = []
            answer, chain = answer_of(chain, program, trace)
            with self.subTest(program=number):
                self.assertEqual(said_of(answer, trace, chain.cuts if chain else []), expected, row["shows"])

    def test_every_row_has_an_answer_for_each_program(self):
        rows = rows_of_chains()
        self.assertEqual(len(rows), 26)
        self.assertEqual(sum(len(row["answers"]) for row in rows), 35)
        for row in rows:
            self.assertEqual(len(row["answers"]), len(row["solve"]))

    def test_of_the_table_alone(self):
        """The row's answer is that of the table of all cuts, which passes over a violation, so that it is weak."""
        row = next(it for it in rows_of_chains() if it["name"] == PASSED_OVER)
        program, trace = program_of(row), ["anew"]
        table = table_of_all(program)
        answer = go(table, program, trace)
        self.assertEqual(said_of(answer, trace, table.cuts), row["answers"][0])
        self.assertTrue(answer.weak)

    def test_wide_numbers_after_it(self):
        """After a weak answer wide numbers are asked, and they have the only point of the four rows, in which r is 1 + 2^-15.

        x0 + x1 = 0 and r*x0 + x1 - x2 = 0 give x0 = 2^15*x2; x2 + x3 = 1 and r*x2 + x3 = 2 give x2 = 2^15. So x0 = 2^30, x1 = -2^30
        and x3 = 1 - 2^15. All costs are 1, and the first and third row sum to them, so these have the dual 1.
        """
        row = next(it for it in rows_of_chains() if it["name"] == PASSED_OVER)
        trace = []
        answer, chain = answer_of(None, program_of(row), trace)
        self.assertEqual(list(answer.point), raw(2**30, -2**30, 2**15, 1 - 2**15))
        self.assertEqual(list(answer.duals), raw(1, 0, 1, 0))
        self.assertEqual(trace, [*row["answers"][0]["trace"], "weak", "wide"])
        self.assertIsNone(chain)


def add_rows():
    """Gives the class a test for each row."""
    for row in rows_of_chains():
        if row["name"] != PASSED_OVER:
            setattr(Chains, "test_" + row["name"].replace("-", "_"), lambda self, it=row: self.check(it))


add_rows()
