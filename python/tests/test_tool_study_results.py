"""Pictures and tables of a study's folder of results, which is written here by hand."""
import importlib.util
import json
import tempfile
import unittest
from pathlib import Path

from tool_support import run
from hydroplan.tools.plot_command import OF_A_STUDY, main

SUMMARY = {
    "title": "Two <lakes>", "units": {"money": "EUR", "money_scale": 1}, "calendar": [
        {"stage": 1, "date": "2026-01-01"}, {"stage": 2, "date": "2026-02-01"},
    ],
    "estimated": {"mean": 12.5, "scenarios": 40},
}
BOUNDS = "iteration,bound,mean,half_width,gap,seconds\n1,-3.5,,,,0.1\n2,12.25,12.5,0.5,0.25,0.2\n"
STORED = """stage,date,reservoir,unit,mean,least,p05,p10,p25,p50,p75,p90,p95,greatest
1,2026-01-01,"up, per",hm3,4,1,1.5,2,3,4,5,6,6.5,7
2,2026-02-01,"up, per",hm3,3,0,0,1,2,3,4,5,5,6
"""
REPORT = 'hydroplan 1\nscale 16777216\nstate 0 "v"\nnode 0 "n"\niteration 1 bound 16777216\n'


class OfAStudy(unittest.TestCase):
    def setUp(self):
        made = tempfile.TemporaryDirectory()
        self.addCleanup(made.cleanup)
        self.folder = Path(made.name)
        self.results = self.written("small", SUMMARY)

    def written(self, name, summary):
        """A folder of results with this summary."""
        folder = self.folder / name
        folder.mkdir()
        for file, text in (("summary.json", json.dumps(summary)), ("bounds.csv", BOUNDS), ("storage_quantiles.csv", STORED)):
            (folder / file).write_text(text, encoding="utf-8")
        return folder

    def plotted(self, *words):
        status, out, err = run(main, *words)
        self.assertEqual((status, err), (0, ""))
        return out.splitlines()

    def refused(self, *words):
        status, out, err = run(main, *words)
        self.assertEqual((status, out), (1, ""))
        return err

    def test_bounds(self):
        rows = ["report\titeration\tbound", "Two <lakes>\t1\t-3.5", "Two <lakes>\t2\t12.25", "mean of 40 simulated costs (estimated)\t\t12.5"]
        self.assertEqual(self.plotted("bounds", self.results), rows)
        two = self.plotted("bounds", self.results, self.written("other", {**SUMMARY, "title": "other"}))
        self.assertEqual(two[1:], [*rows[1:3], "other\t1\t-3.5", "other\t2\t12.25"])

    def test_stored_water(self):
        rows = [
            "name\tstage\tdate\tshare 0\tshare 1/10\tshare 1/4\tshare 1/2\tshare 3/4\tshare 9/10\tshare 1",
            "up, per\t1\t2026-01-01\t1\t2\t3\t4\t5\t6\t7", "up, per\t2\t2026-02-01\t0\t1\t2\t3\t4\t5\t6",
        ]
        self.assertEqual(self.plotted("storage", self.results), rows)

    def test_what_is_refused(self):
        report = self.folder / "report.txt"
        report.write_text(REPORT, encoding="utf-8")
        alone = "plot: a study's folder of results stands beside other such folders alone: reports have other units\n"
        for words in ((self.results, report), (report, self.results), (self.results, "--cost", report)):
            self.assertEqual(self.refused("bounds", *words), alone)
        crowns = self.written("crowns", {**SUMMARY, "units": {"money": "NOK", "money_scale": 1000}})
        self.assertEqual(self.refused("bounds", self.results, crowns), "plot: the studies are in EUR, 1,000 NOK: one picture has one unit\n")
        self.assertEqual(self.refused("residuals", self.results), f"plot: {OF_A_STUDY}\n")
        self.assertEqual(self.refused("water-values", self.results, "--state", "v=1"), f"plot: {OF_A_STUDY}\n")
        (crowns / "summary.json").write_text("{}", encoding="utf-8")
        self.assertEqual(self.refused("storage", crowns), f"plot: {crowns / 'summary.json'} is no summary of a study: KeyError('units')\n")
        (self.results / "bounds.csv").unlink()
        self.assertEqual(self.refused("bounds", self.results), f"plot: cannot open {self.results / 'bounds.csv'}: No such file or directory\n")

    @unittest.skipUnless(importlib.util.find_spec("matplotlib"), "matplotlib is not there")
    def test_pictures_have_dates_and_units(self):
        def text(*words):
            self.plotted(*words, "--output", self.folder / "drawn")
            return (self.folder / "drawn.svg").read_text(encoding="utf-8")

        stored = text("storage", self.results)
        for part in ("<!-- up, per: stored after the stage -->", "<!-- [hm3] -->", "<!-- stage [by its first day] -->", "<!-- Feb -->"):
            self.assertTrue(part in stored, part)
        bounds = text("bounds", self.results)
        for part in ("<!-- bound: no policy costs less -->", "<!-- [cost, EUR] -->", "<!-- mean of 40 simulated costs (estimated) -->"):
            self.assertTrue(part in bounds, part)


if __name__ == "__main__":
    unittest.main()
