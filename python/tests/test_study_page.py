"""The page docs/use/STUDIES.md: its blocks are run, what they print is compared, and it has all keys. The studies that are there have what it says."""
import csv
import os
import re
import unittest
from dataclasses import fields
from importlib.util import find_spec
from pathlib import Path

from model_support import TOP, Folder, needs_numpy
from extensive_plants import needs_scipy
from studies_page import PAGE, run_page
from hydroplan import __version__
from hydroplan.study import read_study
from hydroplan.study.elements import KINDS
from hydroplan.study.study import TABLES

STUDIES = TOP / "studies"


class Page(Folder):
    @needs_numpy
    @needs_scipy
    def test_the_page(self):
        self.addCleanup(os.chdir, os.getcwd())
        os.chdir(self.folder)
        text = PAGE.read_text(encoding="utf-8")
        self.maxDiff = None
        self.assertEqual(text, run_page(text))
        # the system of docs/use/PLANTS.md: its page has its bounds, and a test the optimum of its extensive form
        between = re.search(r"between (\d+\.\d+) and (\d+\.\d+)", (TOP / "docs" / "use" / "PLANTS.md").read_text(encoding="utf-8"))
        self.assertIn(f"no policy costs less than {float(between[1]):,.2f} EUR", text)
        self.assertIn(f"the trained policy costs at most {float(between[2]):,.2f} EUR", text)

    def test_all_tables_are_named(self):
        said = set(re.findall(r"`([a-z_]+)[.`]", PAGE.read_text(encoding="utf-8")))
        self.assertEqual(set(TABLES) - said, set())


class Shipped(unittest.TestCase):
    @unittest.skipUnless(find_spec("tomllib"), "tomllib comes with Python 3.11")
    def test_each_member_is_in_the_study_of_eight_reservoirs(self):
        import tomllib

        document = tomllib.loads((STUDIES / "nordic" / "study.toml").read_text(encoding="utf-8"))
        with (STUDIES / "nordic" / "thermals.csv").open(encoding="utf-8") as file:
            columns = {name.partition(".")[0] for name in next(csv.reader(file))}
        for kind, made in KINDS.items():
            used = {member for it in document[kind].values() for member in it} | (columns if kind == "thermal" else set())
            self.assertEqual({it.name for it in fields(made)} - {"name"} - used, set(), kind)
        self.assertEqual((len(document["reservoir"]), len(document["bus"]), document["calendar"]["stages"]), (8, 3, 36))

    @needs_numpy
    @needs_scipy
    def test_they_are_read_and_compiled(self):
        for name, stages in (("small", 12), ("nordic", 36)):
            study = read_study(STUDIES / name)
            self.assertEqual((len(study.compiled.node_names), study.compiled.maximizes), (stages, False))
            self.assertEqual(study.compiled.warnings, ())

    def test_the_version_is_that_of_the_package(self):
        text = (TOP / "pyproject.toml").read_text(encoding="utf-8")
        self.assertIn(f'\nversion = "{__version__}"\n', text)

    def test_no_results_are_kept(self):
        self.assertIn("results/", (STUDIES / ".gitignore").read_text(encoding="utf-8").split())
        self.assertTrue(Path(STUDIES / "small" / "record.csv").is_file())


if __name__ == "__main__":
    unittest.main()
