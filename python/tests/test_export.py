"""Tables in wide form from the small results of report_support."""
import contextlib
import csv
import io
import unittest

from report_support import DATES, ReportFolder, needs_numpy, needs_pandas


@needs_numpy
@needs_pandas
class Export(ReportFolder):
    def table(self, *words, separator=","):
        """The rows that the command writes to standard output."""
        from hydroplan.export.command import main

        written = io.StringIO()
        with contextlib.redirect_stdout(written):
            self.assertEqual(main([str(self.results), *words]), 0)
        return list(csv.reader(io.StringIO(written.getvalue()), delimiter=separator))

    def refused(self, *words):
        from hydroplan.export.command import main

        errors = io.StringIO()
        with contextlib.redirect_stderr(errors):
            self.assertEqual(main([str(self.results), *words]), 1)
        return errors.getvalue()

    def columns(self, rows, *names):
        """Columns of a table as numbers, by their heads."""
        places = [rows[0].index(it) for it in names]
        return [[float(row[it]) for it in places] for row in rows[1:]]

    def test_storage(self):
        rows = self.table("--what", "storage")
        self.assertEqual(rows[0], ["stage", "date", "upper", "lower"])
        self.assertEqual([row[:2] for row in rows[1:]], [[str(it + 1), day] for it, day in enumerate(DATES)])
        self.assertEqual(self.columns(rows, "upper", "lower"), [[67.5, 12], [32, 12], [34, 12], [27, 12]])
        self.assertEqual(self.columns(self.table("--what", "storage", "--number", "p10"), "upper"), [[53], [4], [12], [6]])

    def test_storage_of_scenarios(self):
        self.assertEqual(self.columns(self.table("--what", "storage", "--scenario", "2"), "upper"), [[60], [40], [5], [20]])
        rows = self.table("--what", "storage", "--each-scenario")
        self.assertEqual(rows[0], ["scenario", "stage", "date", "upper", "lower"])
        self.assertEqual([row[0] for row in rows[1:]], ["1"] * 4 + ["2"] * 4 + ["3"] * 4 + ["4"] * 4)
        self.assertEqual(self.columns(rows, "upper")[12:], [[90], [80], [70], [60]])

    def test_generation(self):
        rows = self.table("--what", "generation")
        self.assertEqual(rows[0][2:], ["upper", "coal", "ridge", "cable exported", "south deficit"])
        self.assertEqual(self.columns(rows, *rows[0][2:]), [[225, 300, 80, 0, 10], [225, 300, 80, 0, 0], [300, 200, 80, 5, 0], [300, 200, 80, 0, 0]])
        # the median of 0, 300, 300, 300; nine tenths of the way from the first to the last of 200, 200, 200, 600 lie at 480
        self.assertEqual(self.columns(self.table("--what", "generation", "--number", "p50"), "upper")[0], [300])
        self.assertEqual(self.columns(self.table("--what", "generation", "--number", "p90"), "coal")[0], [480])

    def test_generation_by_block(self):
        rows = self.table("--what", "generation", "--by-block", "--scenario", "1")
        self.assertEqual(self.columns(rows, "upper, peak", "upper, base", "coal, peak")[3], [100, 200, 100])

    def test_prices(self):
        # (1000 · 50 + 3416 · 20) / 4416
        found = self.columns(self.table("--what", "prices"), "north", "south")[0]
        self.assertAlmostEqual(found[0], 118320 / 4416, places=9)
        self.assertAlmostEqual(found[1], 74160 / 4416, places=9)
        self.assertEqual(self.columns(self.table("--what", "prices", "--by-block", "--number", "p95"), "north, peak", "south, base"), [[100, 50]] * 4)

    def test_decimal_commas(self):
        rows = self.table("--what", "storage", "--separator", "semicolon", "--decimal", "comma", separator=";")
        self.assertEqual(rows[1][2:], ["67,5", "12"])
        with self.assertRaises(SystemExit), contextlib.redirect_stderr(io.StringIO()):
            self.table("--what", "storage", "--decimal", "comma")

    def test_a_file(self):
        path = self.folder / "wide.csv"
        self.assertEqual(self.table("--what", "storage", "--to", str(path)), [])
        self.assertEqual(path.read_text(encoding="utf-8").splitlines()[1], "1,2026-03-01,67.5,12")

    def test_heads_are_no_formulas_and_turn_no_text(self):
        names = {"upper": "=1+1", "lower": "\u202ereversed"}
        self.rows("storage_quantiles.csv", lambda row: {**row, "reservoir": names[row["reservoir"]]})
        self.assertEqual(self.table("--what", "storage")[0][2:], ["'=1+1", "\\u{202E}reversed"])

    def test_what_is_refused(self):
        self.assertIn("prices of single scenarios are not kept", self.refused("--what", "prices", "--scenario", "1"))
        self.assertIn("quantiles of prices are those of a block", self.refused("--what", "prices", "--number", "p90"))
        self.assertIn("has no rows of scenario 9 with volume", self.refused("--what", "storage", "--scenario", "9"))
        (self.results / "decisions.csv").unlink()
        self.assertIn("decisions.csv is not there", self.refused("--what", "generation"))
        (self.results / "summary.json").unlink()
        self.assertIn("summary.json: No such file or directory", self.refused("--what", "storage"))


if __name__ == "__main__":
    unittest.main()
