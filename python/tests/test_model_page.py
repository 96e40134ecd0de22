"""The page docs/use/MODELS.md: its blocks are run one after the other, what they print is compared, and bounds with the optima from outside."""
import os
import unittest
from fractions import Fraction as F

from model_support import Folder
from page_blocks import BLOCK, PAGE, optima, run_blocks


class Page(Folder):
    def setUp(self):
        super().setUp()
        self.addCleanup(os.chdir, os.getcwd())
        os.chdir(self.folder)

    def near(self, bound, optimum):
        """A bound is at most the optimum, but for the last of its six digits, and within a ten-thousandth part of it."""
        self.assertLessEqual(bound, optimum + F(1, 10**6))
        self.assertLessEqual(optimum - bound, abs(optimum) / 10**4)

    def test_the_page(self):
        text, known = PAGE.read_text(encoding="utf-8"), optima()
        self.maxDiff = None
        renewed, names = run_blocks(text)
        self.assertEqual(text, renewed)
        self.assertLessEqual(names["trained"].exact_bound, F(25000, 3))
        self.near(names["trained"].exact_bound, known["three_stages"])
        self.assertGreaterEqual(names["policy"].exact_upper, F(25000, 3))
        self.near(-names["farmer_trained"].exact_bound, known["farmer"])
        self.near(names["year_trained"].exact_bound, known["markov_year"])

    def test_the_three_stages_are_twelve_lines(self):
        block = BLOCK.search(PAGE.read_text(encoding="utf-8"))
        self.assertLessEqual(len([line for line in block.group(2).splitlines() if line.strip()]), 12)


if __name__ == "__main__":
    unittest.main()
