"""The page docs/use/PLANTS.md: its blocks are run, what they print is compared, and its example has the optimum of its extensive form."""
import os
import re
import unittest
from dataclasses import fields
from fractions import Fraction as F

from extensive_plants import Extensive, needs_scipy
from model_support import TOP, Folder
from page_blocks import run_blocks
from random_plants import Case
from hydroplan import plants
from hydroplan.plants.elements import Element

PAGE = TOP / "docs" / "use" / "PLANTS.md"
BLOCKS = {"peak": [186, 168, 186], "base": [558, 504, 558]}


class Page(Folder):
    def setUp(self):
        super().setUp()
        self.addCleanup(os.chdir, os.getcwd())
        os.chdir(self.folder)

    def test_the_page(self):
        text = PAGE.read_text(encoding="utf-8")
        self.maxDiff = None
        renewed, names = run_blocks(text)
        self.assertEqual(text, renewed)
        self.assertRegex(names["compiled"].ledger[0], r"^discount: those of 2 stages were rounded to multiples of 0\.0001 \(.*:\d+\)$")
        self.assertEqual(names["compiled"].ledger[1:], ("0 numbers were rounded",))
        self.assertLessEqual(names["policy"].exact_bound, names["policy"].exact_upper)

    @needs_scipy
    def test_the_optimum_of_its_example(self):
        names = run_blocks(PAGE.read_text(encoding="utf-8"))[1]
        elements = [it for it, _ in names["months"].of_kind(Element)]
        outcomes = [[(2, names["dry"]), (1, names["wet"])]] * 3
        optimum = F(Extensive(Case(3, BLOCKS, elements, outcomes, "0.08", 12, "0.0001")).optimum())
        near = abs(optimum) / 10**8
        self.assertLessEqual(names["policy"].exact_bound, optimum + near)
        self.assertGreaterEqual(names["policy"].exact_upper, optimum - near)
        self.assertLessEqual(optimum - names["policy"].exact_bound, near)

    def test_all_members_have_their_line(self):
        text = PAGE.read_text(encoding="utf-8")
        said = set(re.findall(r"`(\w+)`", text))
        kinds = [it for it in vars(plants).values() if isinstance(it, type) and issubclass(it, Element)]
        members = {member.name for kind in kinds for member in fields(kind)} - {"name"}
        self.assertEqual((members - said, len(kinds)), (set(), 9))


if __name__ == "__main__":
    unittest.main()
