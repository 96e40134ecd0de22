"""Studies drawn at random: the compiled problems and their certified bounds beside the least cost that HiGHS finds, and balances recomputed from
decisions.csv.

Each study is a folder of study.toml and CSV files. A second reading of these files alone gives the extensive form; docs/use/STUDIES.md and
docs/use/PLANTS.md are all that the two have in common. Hypothesis draws the compared ones, the same each time; `many_studies` draws thousands
by hand.
"""
import contextlib
import io
import random
import re
import tempfile
import unittest
from dataclasses import replace
from fractions import Fraction
from pathlib import Path

from model_support import needs, needs_numpy
from decisions_balances import DecisionBalances, paths_of, rows_of
from extensive_plants import Extensive, needs_scipy
from random_studies import StudyDraw, write_study
from study_optima import UNROUNDED, compared
from study_readings import StudyReading, read_case
from hydroplan.plants import Tiers
from hydroplan.study import main

needs_hypothesis = needs("hypothesis")
needs_tomllib = unittest.skipUnless(StudyReading.TOML, "tomllib comes with Python 3.11")
STUDIES = 200
# kinds and members that are a price of something; one wrong by so much, in money, is found
PRICES = (
    ("thermal", "cost"), ("bus", "deficit"), ("import", "cost"), ("export", "price"), ("reservoir", "end_value"), ("reservoir", "alert_penalty"),
)
WRONG_BY = Fraction(1, 100)
SPELLINGS = {
    "a list": r"= \[\d+, \d+", "a fraction": r'"\d+/2"', "a text": r'"\d+"', "a column": r"file = \"columns.csv\"", "months": r"months = \[",
    "a column of months": r'months = \{ file = "months.csv"', "weeks": r"weeks = \[", "a profile": r"profile = ", "times": r"times = ",
    "a profile that is a list": r"\np\d+ = \[", "by block": r"\{ peak = ", "by block in a list": r"\[\{ peak = ", "some stages": r"\bat\b.*=",
    "a flow": r"flow = ", "a flow by block": r"flow = \{ peak = ", "a random flow": r"flow = \{ random = ", "a factor": r"factor = ",
    "tiers": r"= \[\{ size = ", "tiers of their own": r"\[\[thermal\.[^\n]*cost\]\]", "dotted keys": r"\nturbine\.flow = ",
    "a table of its own": r"\[reservoir\.[^\n]*\.downstream\]", "rows of elements": r"\[tables\]", "gone": r"spilled = false",
    "outcomes": r"outcomes = ", "outcomes by stage": r'"outcomes.csv"', "years": r'record = "record.csv"', "records": r"records\b",
    "flows of a record": r'unit = "m3/s"', "days": r"days = \[", "a rest": r'"rest"', "hours of a block": r"hours = 4",
    "months as they are": r"step = \"month\"",
    "a name between quotes": r"Övre sjön", "a discount": r"yearly_rate = 0.1", "under way": r"under_way = \[\d",
}
POINTS = {
    "a tier": "cost.1.size", "a block": r"(maximum|cost|minimum)\.peak\b", "a flow": r"turbine\.flow", "a way": r"downstream\.travel",
    "some stages": r"target\.at\.",
    "stages": r"(cost|maximum)\.1,", "a stage and block": r"\.1\.peak",
}


def drawn(seed):
    """The files of a study of a seed."""
    return StudyDraw(random.Random(seed)).draw()


class InFolders(unittest.TestCase):
    """Writes each study in a folder of its own."""

    @contextlib.contextmanager
    def study(self, files):
        """The folder of a study."""
        with tempfile.TemporaryDirectory() as made:
            folder = Path(made)
            write_study(folder, files)
            yield folder


@needs_numpy
@needs_scipy
@needs_tomllib
class Optima(InFolders):
    @needs_hypothesis
    def test_bounds_of_studies_are_the_optima_of_their_extensive_forms(self):
        from drawn_studies import compared_studies

        def words(own):
            return ["upper"] if own.upper is not None else []

        found = compared_studies(STUDIES, words, derandomize=True)
        self.assertGreaterEqual(found["the optimum"], STUDIES * 19 // 20, found)
        self.assertLessEqual(found["no plan"], STUDIES // 50, found)
        self.assertLessEqual(found["too coarse"], STUDIES // 100, found)
        self.assertGreaterEqual(found[UNROUNDED], STUDIES * 9 // 10, found)
        self.assertGreaterEqual(found["upper"], STUDIES // 10, found)

    def test_stages_without_a_solution_are_found_by_both(self):
        # 10 hm3 at first and 8 that must be there in the end: where the lake is emptied before, as is cheapest, a plan meets a dead end
        files = {
            "study.toml": '[calendar]\nstart = 2026-01-01\nstages = 2\nhours = 1\n[bus.b]\ndemand = [10, 0]\ndeficit = 9\n[reservoir.r]\n'
            'bus = "b"\nmaximum = 20\ninitial = 10\nspill = 50\nturbine = 20\nproductivity = 1\ntarget = { at = { 2 = 8 } }\n',
        }
        endings = []
        for target in (8, 11):
            with self.study({name: text.replace("2 = 8", f"2 = {target}") for name, text in files.items()}) as folder:
                own = compared(folder)
                endings.append((own.ending(), own.fault(), round(own.lacking, 6), round(own.lacking_alone, 6)))
        self.assertEqual(endings, [("a dead end", "", 0, 8), ("no plan", "", 1, 11)])
        self.assertIn("HiGHS has a solution for the stage", replace(own, lacking_alone=0.0).fault())
        self.assertIn("does not show that there is none", replace(own, lacking=0.0).fault())
        self.assertIn("HiGHS finds no plan, and training does", replace(own, bound=Fraction(1)).fault())

    def test_the_second_reading_knows_a_study_by_hand(self):
        # 10 hm3 of water, a MWh for each; 8 MWh are needed in each stage, and energy costs 3 and then 7
        files = {
            "study.toml": '[calendar]\nstart = 2026-01-01\nstages = 2\nhours = 1\n[bus.b]\ndemand = { file = "d.csv", column = "b" }\n'
            '[tables]\nthermal = "t.csv"\n[reservoir.r]\nbus = "b"\nmaximum = 20\ninitial = 10\nspill = 50\nturbine = 20\nproductivity = "2/2"\n',
            "d.csv": "b\n8\n8\n", "t.csv": "name,bus,maximum,cost.1,cost.2\nt,b,20,3,7\n",
        }
        with self.study(files) as folder:
            self.assertAlmostEqual(Extensive(read_case(folder)).optimum(), 3 * 6)
            self.assertEqual(compared(folder).fault(), "")

    def test_a_price_that_is_wrong_by_a_hundredth_is_found(self):
        # the same folder beside a case in which one price is another: the problem's optimum and the bound are not that case's, where it counts
        counted = by_problem = by_bound = 0
        for seed in range(6):
            with self.study(drawn(seed)) as folder:
                own, case = compared(folder), read_case(folder)
            for it, member in ((it, member) for kind, member in PRICES for it in case.elements if it.KIND == kind and getattr(it, member)):
                right = getattr(it, member)
                setattr(it, member, dearer(right))
                optimum = Fraction(Extensive(case).optimum())
                setattr(it, member, right)
                if abs(optimum - own.optimum) <= Fraction(1, 10**7) * max(1, abs(own.optimum)):
                    continue
                counted += 1
                by_problem += abs(optimum - own.meant) > own.near
                by_bound += not own.bound - own.near <= optimum <= own.bound + own.loss + own.near
        self.assertGreaterEqual(counted, 12)
        self.assertEqual((by_problem, by_bound), (counted, counted))


@needs_tomllib
class Draws(InFolders):
    def test_each_spelling_is_drawn(self):
        files = [drawn(seed) for seed in range(150)]
        for name, pattern in SPELLINGS.items():
            with self.subTest(spelling=name):
                self.assertTrue(any(re.search(pattern, it["study.toml"]) for it in files))
        headers = [text.split("\n")[0] for it in files for name, text in it.items() if re.fullmatch("[a-z]+s.csv", name)]
        for name, pattern in POINTS.items():
            with self.subTest(point=name):
                self.assertTrue(any(re.search(pattern, it) for it in headers))

    @needs_scipy
    def test_each_member_counts_in_some_drawn_study(self):
        left = {(kind, member) for kind, own in StudyReading.DEFAULTS.items() for member in own} - {("thermal", "maximum")}
        for seed in range(120):
            with self.study(drawn(seed)) as folder:
                case = read_case(folder)
            left -= {it for it in sorted(left) if counts(case, *it)}
        self.assertEqual(left, set())


def dearer(given):
    """A price, or each of several, with a little more."""
    if isinstance(given, Tiers):
        return Tiers(*((size, dearer(price)) for size, price in given.tiers))
    if isinstance(given, dict):
        return {name: dearer(it) for name, it in given.items()}
    return [dearer(it) for it in given] if isinstance(given, (list, tuple)) else given + WRONG_BY


def optimum_of(case):
    """The least cost, none where there is no plan."""
    try:
        return Extensive(case).optimum()
    except AssertionError:
        return None


def counts(case, kind, member):
    """Whether a case has another optimum where elements of a kind have a member as it is where it is not given."""
    default = StudyReading.DEFAULTS[kind][member]
    given = [it for it in case.elements if it.KIND == kind and getattr(it, member) != default]
    if not given:
        return False
    before, kept = optimum_of(case), [getattr(it, member) for it in given]
    for it in given:
        setattr(it, member, default)
    after = optimum_of(case)
    for it, value in zip(given, kept):
        setattr(it, member, value)
    return before is not None and (after is None or abs(after - before) > 1e-3)


@needs_numpy
@needs_scipy
@needs_tomllib
class FromDecisions(InFolders):
    def test_balances_and_costs_from_decisions_alone(self):
        runs = 0
        for seed in range(12):
            with self.study(drawn(seed)) as folder, contextlib.redirect_stderr(io.StringIO()), contextlib.redirect_stdout(io.StringIO()):
                if main([str(folder), "--quiet"]) == 0:
                    runs += 1
                    self.look(seed, folder)
        self.assertGreaterEqual(runs, 10)

    def look(self, seed, folder):
        """Looks at each scenario."""
        case = read_case(folder)
        costs = {(int(row["scenario"]), int(row["stage"])): Fraction(row["cost"]) for row in rows_of(folder / "results" / "costs.csv")}
        for scenario, path in enumerate(paths_of(case, folder / "results"), 1):
            balances = DecisionBalances(case, path)
            self.assertEqual(list(balances.outside()), [])
            for stage, row, amount in balances.all():
                self.assertLessEqual(abs(amount), Fraction(1, 100), (seed, scenario, stage.number, row))
            for stage in path:
                near = Fraction(1, 10**4) * max(1, abs(costs[scenario, stage.number]))
                self.assertLessEqual(abs(balances.cost(stage) - costs[scenario, stage.number]), near, (seed, scenario, stage.number))


if __name__ == "__main__":
    unittest.main()
