"""The record beside the model: statistics by Python's own, exact distributions beside drawn paths, text, table, picture, files."""
import contextlib
import csv
import io
import json
import statistics
import unittest
from decimal import Decimal as D
from math import sqrt
from unittest import mock

from inflow_support import TWO_STATIONS, Folder, needs_matplotlib, needs_numpy, needs_pandas, needs_scipy, record_of, two_stations
from hydroplan.errors import MissingPackage
from hydroplan.inflows import (
    Horizon, InflowError, compare, draw_comparison, drawn_paths, grouped_years, independent_years, markov_classes, periodic_autoregression,
    statistics_by_stage, statistics_of, write_csv, write_json,
)
from hydroplan.inflows.command import main

FLUSH = """aure (hm3)             mean           deviation         lag-1
   month           record    model   record    model record  model
       1           101.08   101.08    39.30    39.30   0.94      -
"""


def correlation(one, other):
    """Pearson's correlation of two lists, by its formula."""
    means = [statistics.fmean(it) for it in (one, other)]
    cross = sum((a - means[0]) * (b - means[1]) for a, b in zip(one, other))
    return cross / sqrt(sum((a - means[0]) ** 2 for a in one) * sum((b - means[1]) ** 2 for b in other))


def _rows(path):
    return list(csv.DictReader(io.StringIO(path.read_text(encoding="utf-8"))))


@needs_numpy
class Comparisons(unittest.TestCase):
    def test_the_records_side(self):
        record = two_stations()
        months = [[[float(row[at]) for row in record.of_step(step)] for step in range(1, 13)] for at in (0, 1)]
        for step in (1, 2, 12):
            found = statistics_of(record, step)
            for at, name in enumerate(record.stations):
                own, before = months[at][step - 1], months[at][step - 2]
                self.assertAlmostEqual(float(found.mean[name]), statistics.fmean(own), 9)
                self.assertAlmostEqual(found.deviation[name], statistics.pstdev(own), 9)
                pairs = (own, before) if step > 1 else (own[1:], before[:-1])
                self.assertAlmostEqual(found.lag[name], correlation(*pairs), 9)
            self.assertAlmostEqual(found.cross["aure", "bygd"], correlation(months[0][step - 1], months[1][step - 1]), 9)

    def test_years_as_they_are_have_all_but_the_step_before(self):
        record = two_stations()
        for row in compare(record, independent_years(record, Horizon(24, resolution="0.01"))).rows:
            if row.measure == "lag-1 correlation":
                self.assertEqual((row.model, row.stage), (0, row.step + 12))
            else:
                self.assertAlmostEqual(row.record, row.model, 9)

    @needs_scipy
    def test_groups_lose_deviation_alone(self):
        record = two_stations()
        found = compare(record, grouped_years(record, Horizon(12, resolution="0.01"), 4, seed=1))
        for row in found.rows:
            if row.measure == "mean":
                self.assertAlmostEqual(row.record, row.model, 2)
            if row.measure == "deviation":
                self.assertTrue(0.7 * row.record < row.model < row.record)

    def test_what_does_not_vary(self):
        record = record_of([1, 3], [1, 5])
        found = compare(record, independent_years(record, Horizon(1)))
        self.assertEqual([(it.measure, it.step, it.record, it.model) for it in found.rows], [
            ("mean", 1, 1, 1), ("deviation", 1, 0, 0), ("lag-1 correlation", 1, None, None)])
        self.assertIn("   1             1.00     1.00     0.00     0.00      -      -\n", found.text())

    def test_drawn_paths_have_the_exact_distribution(self):
        count, found = 2000, markov_classes(two_stations(), Horizon(14, start=11), 3)
        paths = drawn_paths(found, count, seed=1)
        self.assertEqual(paths, drawn_paths(found, count, seed=1))
        self.assertNotEqual(paths[:5], drawn_paths(found, 5, seed=2))
        for at, it in enumerate(statistics_by_stage(found)):
            own = {name: [path[at][name] for path in paths] for name in it.mean}
            self.assertLess(abs(correlation(own["aure"], own["bygd"]) - it.cross["aure", "bygd"]), 0.1)
            for name, deviation in it.deviation.items():
                self.assertLess(abs(statistics.fmean(own[name]) - float(it.mean[name])), 4.5 * deviation / sqrt(count))
                self.assertLess(abs(statistics.pstdev(own[name]) / deviation - 1), 0.15)
                if at:
                    self.assertLess(abs(correlation([path[at - 1][name] for path in paths], own[name]) - it.lag[name]), 0.1)

    def test_drawn_years_are_years(self):
        record = two_stations()
        for path in drawn_paths(independent_years(record, Horizon(3, resolution="0.01")), 50, seed=3):
            for step, it in enumerate(path, 1):
                self.assertIn(tuple(it.values()), [tuple(map(float, row)) for row in record.of_step(step)])

    def test_text(self):
        record = two_stations()
        text = compare(record, independent_years(record, Horizon(12, resolution="0.01"))).text()
        self.assertTrue(text.startswith(FLUSH), text[:300])
        head, last = text.splitlines()[-2:]
        self.assertEqual(head, "cross-correlation                  record  model   furthest apart")
        self.assertRegex(last, r"^aure, bygd                           0\.88   0\.88   0\.00 in month \d+$")

    def test_inflows_of_another_record(self):
        record = two_stations()
        with self.assertRaisesRegex(InflowError, "the inflows are of aure in hm3, and the record is not"):
            compare(record, independent_years(record.only(["aure"]), Horizon(1)))

    @needs_pandas
    def test_table(self):
        record = two_stations()
        table = compare(record, independent_years(record, Horizon(12))).table()
        self.assertEqual(list(table.columns), ["measure", "step", "stage", "station", "other", "record", "model"])
        self.assertEqual(table.shape, (12 * (3 * 2 + 1), 7))
        self.assertEqual(table[table.measure == "mean"].station.unique().tolist(), ["aure", "bygd"])


@needs_numpy
class Files(Folder):
    @needs_matplotlib
    def test_pictures(self):
        record = two_stations()
        path = self.folder / "picture.png"
        draw_comparison(compare(record, periodic_autoregression(record, Horizon(12))), path)
        self.assertEqual(path.read_bytes()[:8], b"\x89PNG\r\n\x1a\n")

    def test_a_missing_package_is_named(self):
        with mock.patch.dict("sys.modules", {"numpy": None}):
            with self.assertRaisesRegex(MissingPackage, "Debian has it as python3-numpy"):
                statistics_of(two_stations(), 1)

    def read(self, inflows):
        """The rows of a CSV file and the object of a JSON file."""
        files = io.StringIO(), io.StringIO()
        write_csv(inflows, files[0])
        write_json(inflows, files[1])
        return list(csv.DictReader(io.StringIO(files[0].getvalue()))), json.loads(files[1].getvalue(), parse_float=D)

    def test_classes(self):
        record = record_of([1, 20], [3, 10], [2, 40], [4, 30])
        rows, found = self.read(markov_classes(record, Horizon(2), 2))
        self.assertEqual(rows[2], {"stage": "1", "step": "1", "class": "1", "weight": "1", "a": "3.0", "years": "2002"})
        self.assertEqual((found["initial"], found["unit"], found["resolution"]), ([2, 2], "hm3", D("0.1")))
        self.assertEqual(found["stages"][0]["classes"][1], {
            "realizations": [{"weight": 1, "values": {"a": 3}, "years": [2002]}, {"weight": 1, "values": {"a": 4}, "years": [2004]}],
            "successors": [1, 1],
        })
        self.assertEqual([len(it["classes"]) for it in found["stages"]], [2, 2])

    def test_years(self):
        rows, found = self.read(independent_years(two_stations(), Horizon(12, resolution="0.01")))
        self.assertEqual(",".join(rows[0]), "stage,month,class,weight,aure,bygd,years")
        self.assertEqual(",".join(rows[0].values()), "1,1,0,1,65.39,24.58,1981")
        self.assertEqual(found["stages"][0]["classes"][0]["realizations"][0]["values"], {"aure": D("65.39"), "bygd": D("24.58")})

    def test_autoregressions(self):
        record = record_of([2, 3], [4, 5], [6, 5], [8, 7])
        rows, found = self.read(periodic_autoregression(record, Horizon(1, start=2)))
        self.assertEqual((rows[0]["a"], rows[0]["coefficient a"]), ("1.8", "0.6"))
        stage, = found["stages"]
        self.assertEqual((found["previous"], stage["coefficients"]), ({"a": 5}, {"a": D("0.6")}))
        self.assertEqual((stage["lower"], stage["upper"]), ({"a": D("4.4")}, {"a": D("5.6")}))


class Command(Folder):
    def run_command(self, *words, status=0):
        """What the command writes on standard output, or on standard error where it fails."""
        with contextlib.redirect_stdout(io.StringIO()) as out, contextlib.redirect_stderr(io.StringIO()) as err:
            self.assertEqual(main([str(it) for it in words]), status, err.getvalue())
        return err.getvalue() if status else out.getvalue()

    @needs_numpy
    @needs_scipy
    @needs_pandas
    @needs_matplotlib
    def test_all_methods_and_files(self):
        for words, method in (
            ([], "years as they are"), (["--groups", 4, "--seed", 3], "4 groups of years, seed 3"),
            (["--classes", 3, "--by", "bygd"], "3 Markov classes by bygd"), (["--autoregression"], "PAR(1)"),
        ):
            files = [self.folder / name for name in ("out.csv", "out.json", "comparison.csv", "picture.svg")]
            out = self.run_command(
                TWO_STATIONS, "--stages", 24, "--start", 5, "--resolution", "0.1", "--output", files[0], "--output", files[1],
                "--comparison", files[2], *(["--picture", files[3]] if method == "PAR(1)" else []), *words)
            self.assertTrue(out.startswith(method + ": "), out[:100])
            self.assertIn("\n10 years, 1981 to 1990; 24 stages; in hm3 at 0.1\n", out)
            found = json.loads(files[1].read_text(encoding="utf-8"))
            self.assertEqual(found["method"], method)
            self.assertEqual([it["step"] for it in found["stages"]], [*range(5, 13), *range(1, 13), *range(1, 5)])
            weights = [sum(r["weight"] for c in it["classes"] for r in c["realizations"]) for it in found["stages"]]
            self.assertEqual(set(weights), {9, 10} if method == "PAR(1)" else {10})
            self.assertEqual(sum(int(row["weight"]) for row in _rows(files[0])), sum(weights))
            self.assertEqual(len(_rows(files[2])), 84)
        self.assertIn("<svg", files[3].read_text(encoding="utf-8"))

    @needs_numpy
    def test_flows_to_volumes_of_some_stations(self):
        path = self.written("year,step,a,b\n1,1,10,1\n1,2,20,1\n2,1,30,1\n2,2,40,1\n3,1,9,9\n")
        out = self.run_command(
            path, "--unit", "m3/s", "--hm3", "--days", "100,200", "--stations", "a", "--leave-out-partial-years",
            "--output", self.folder / "out.json")
        self.assertIn("left out: year 3, which has steps 1 to 1 alone", out)
        found = json.loads((self.folder / "out.json").read_text(encoding="utf-8"), parse_float=D)
        # 10 and 30 m3/s over 100 days of 0.0864
        self.assertEqual([it["values"] for it in found["stages"][0]["classes"][0]["realizations"]], [{"a": D("86.4")}, {"a": D("259.2")}])
        self.assertEqual((found["unit"], len(found["stages"])), ("hm3", 2))

    @needs_numpy
    def test_what_came_before(self):
        out = self.folder / "out.json"
        words = [TWO_STATIONS, "--stages", 1, "--output", out]
        self.run_command(*words, "--autoregression", "--previous", "bygd=40.5,aure=150")
        self.assertEqual(json.loads(out.read_text(encoding="utf-8"))["previous"], {"aure": 150, "bygd": 40.5})
        for wrong, said in (
            ("aure=1,2", "NAME=VALUE,.. is expected"), ("aure=1", "a previous inflow is expected for each of aure, bygd, and not for aure"),
        ):
            self.assertIn(said, self.run_command(*words, "--autoregression", "--previous", wrong, status=1))
        self.run_command(*words, "--classes", 2, "--before", 0)
        counts = markov_classes(two_stations(), Horizon(2, start=12), 2).transitions[0][0]
        self.assertEqual(json.loads(out.read_text(encoding="utf-8"))["initial"], list(counts))

    @needs_numpy
    def test_names_forge_no_line(self):
        text = 'year,step,"a\nb\u202e",c\n1,1,2,3\n2,1,4,5\n'
        out = self.run_command(self.written(text))
        self.assertIn("\na\\u{000A}b\\u{202E} (hm3)", out)
        self.assertIn("\na\\u{000A}b\\u{202E}, c ", out)
        self.assertNotIn("\u202e", out)
        for words in (["--stations", "d"], ["--classes", 2, "--by", "d"]):
            said = self.run_command(self.written(text), *words, status=1)
            self.assertEqual((said.count("\n"), said.count("a\\u{000A}b\\u{202E}")), (1, 1), said)
        said = self.run_command(self.written(text.replace("1,1,2", "1,1,x")), status=1)
        self.assertRegex(said, r"^inflows: .*: the value of a\\u{000A}b\\u{202E} is no number: 'x'\n$")

    def test_refusals(self):
        for text, words, said in (
            ("year,step,a\n1,1,x\n", [], r"^inflows: .*record\.csv, line 2, column 3: the value of a is no number: 'x'\n$"),
            ("year,step,a\n1,1,2\n", ["--output", "out.txt"], "^inflows: a file of realizations ends in .csv or .json, .* out.txt\n$"),
            ("year,step,a\n1,1,2\n", ["--by", "a"], "^inflows: --by and --before go with --classes\n$"),
            ("year,step,a\n1,1,2\n", ["--previous", "a=1"], "^inflows: --previous goes with --autoregression\n$"),
            ("year,step,a\n1,1,2\n", ["--start", "9"], "^inflows: the start is one of the steps 1 to 1, and not 9\n$"),
            ("year,step,a\n1,1,2\n", ["--resolution", "fine"], "^inflows: the resolution has to be a number, and is 'fine'\n$"),
        ):
            self.assertRegex(self.run_command(self.written(text), *words, status=1), said)
        self.assertRegex(self.run_command(self.folder / "none.csv", status=1), "^inflows: .*No such file")


if __name__ == "__main__":
    unittest.main()
