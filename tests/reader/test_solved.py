"""Each file of programs in crates/test_golden that the program's own solver is to solve: what is stored there is the second reading's.

The second reading shares no code with the program, which is held to the same stored lines by its gate.
"""
import unittest

from program_files import GOLDEN, expected_lines, row_of_text, solve_rows
from second_reading.program import UNIT


class Solved(unittest.TestCase):
    """Each row is a test of its own."""

    maxDiff = None

    def check(self, line, file):
        """The lines behind the row's own are the second reading's answers, one after another."""
        stored = (GOLDEN / "stdout").read_text(encoding="utf-8").splitlines()
        begin, expected = stored.index(line) + 1, expected_lines(file)
        self.assertEqual(stored[begin:begin + len(expected)], expected)
        self.assertIn(stored[begin + len(expected)].split()[0], ("solve", "parts"))

    def test_there_are_rows(self):
        self.assertEqual(len(solve_rows()), 40)

    def test_files(self):
        """Numbers count units, raw ones stand for themselves, and `-` is no side."""
        row = row_of_text("decisions 1\nown 1\ncolumn -1 2 3raw\ncolumn 0 0 0\nrow - 5 0:-2raw\nsolve\nsolve 1 -\n")
        self.assertEqual((row["decisions"], row["own"]), (1, 1))
        self.assertEqual(row["columns"], [[-UNIT, 2 * UNIT, 3], [0, 0, 0]])
        self.assertEqual(row["rows"], [(None, 5 * UNIT, [(0, -2)])])
        self.assertEqual(row["solve"], [[], [UNIT, None]])


def add_rows():
    """Gives the class a test for each row."""
    for line, file in solve_rows():
        name = "test_" + line.split()[1].replace("-", "_")
        setattr(Solved, name, lambda self, at=line, it=file: self.check(at, it))


add_rows()
