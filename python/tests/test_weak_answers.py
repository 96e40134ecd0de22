"""Where an answer of the solver that is a little beside the best one would cost much: the solver looks for a better one.

On its way the solver passes over a column whose cell is below 2^-16. Such a column may stay at its wrong bound, where no multiplier makes up for
it. Then the point costs more than the duals show, and the cut says what these show. Where it is more by over 2^-26 of both the answer is weak
(docs/inside/THEORY.md, The warm simplex): its basis is taken into a clean table, and there the best answer is found. With 2^-18 in that place the bounds
of all that is here would stay below the least cost by more than rounding; the second reading in tests/reader shows it.
"""
import json
import sys
import unittest
from dataclasses import replace
from fractions import Fraction
from types import SimpleNamespace
from unittest import mock

from model_support import TOP, needs, needs_numpy
from extensive_plants import needs_scipy
from file_meaning import least_cost
from rounding_loss import rounding_loss
from study_optima import FIRST_ITERATIONS, NEAR, compared
from study_readings import StudyReading
from study_support import StudyFolder
from hydroplan.core import find_program, run

if str(TOP / "tests" / "reader") not in sys.path:
    sys.path.append(str(TOP / "tests" / "reader"))

from second_reading.cuts import reduced_costs  # noqa: E402
from second_reading.journal import journal_of  # noqa: E402
from second_reading.node import UNIT  # noqa: E402
from second_reading.numbers import LEAN  # noqa: E402
from second_reading.problem import problem_of  # noqa: E402
from second_reading.simplex import TRUSTED  # noqa: E402
from second_reading.training import Training  # noqa: E402

DATA = TOP / "python" / "tests" / "data"
# a million for each x, 1 for each y; of `dear` one may be kept for nothing, and `cheap` stays 0
DEAR = (DATA / "dear_and_cheap.json").read_bytes()
# a drawn study made smaller: a unit of what is stored is worth 400, and one more of water nothing, but for what a multiplier is rounded
LAKE = (DATA / "lake_and_battery.json").read_bytes()
SEED, ITERATIONS = 7, 12
LOOSER = 18

# water of a million beside water of 7 for a hm3: what is under way from the one to the other arrives behind the last stage
STUDY = """\
[calendar]
start = 2026-01-01
stages = 2

[bus.town]
demand = 1000
deficit = 80

[reservoir.upper]
maximum = 30
initial = 15
turbine = 12
spill = 200
downstream = { to = "lower", travel = 2 }
spilled = false
end_value = 1000000

[reservoir.lower]
maximum = 34
initial = 6
turbine = 8
spill = 200
end_value = 7
"""


def trained(problem, trusted=TRUSTED, iterations=ITERATIONS):
    """The training that the second reading has of a problem's bytes, where answers are weak past so many binary digits."""
    with mock.patch("second_reading.simplex.TRUSTED", trusted):
        training = Training(problem_of(problem), SEED)
        training.train(iterations)
    return training


def bound(training):
    """The bound in the problem's own unit."""
    return Fraction(training.bounds[-1], UNIT)


def rounding(problem, training):
    """By how much the bound may stay below the least cost by rounding, in the problem's own units."""
    scales = SimpleNamespace(cost=1, states=dict.fromkeys(training.problem.state_names, 1))
    cuts = [[SimpleNamespace(alpha=Fraction(it.alpha, UNIT), slopes=[Fraction(slope, UNIT) for slope in it.slopes]) for it in pool]
            for pool in training.pools]
    check = SimpleNamespace(exact_cuts=dict(zip(training.problem.names, cuts)))
    return rounding_loss(SimpleNamespace(problem=problem, scales=scales), check)


class Problem(StudyFolder):
    def test_the_limit_is_that_of_the_definition(self):
        text = (TOP / "crates" / "lp_price" / "specs" / "Finish.antt").read_text(encoding="utf-8")
        self.assertIn(f"exceeds the least one by more than 2^-{TRUSTED} of both and 2^-16\n", text)
        self.assertEqual(Fraction(LEAN.gap, 1 << LEAN.cells + LEAN.points), Fraction(1, 2**16))
        self.assertEqual(Fraction(LEAN.least_pivot, 1 << LEAN.cells), Fraction(1, 2**16))

    @needs_scipy
    def test_only_the_stricter_limit_leaves_nothing_but_rounding(self):
        for problem in (DEAR, LAKE):
            least = Fraction(least_cost(json.loads(problem)))
            near = NEAR * least
            strict, loose = trained(problem), trained(problem, LOOSER)
            self.assertTrue(least - rounding(problem, strict) - near <= bound(strict) <= least + near)
            self.assertLess(bound(loose), least - rounding(problem, loose) - near)
            self.assertEqual((strict.unanswered, loose.unanswered), (0, 0))

    def test_the_program_makes_the_cuts_of_the_stricter_limit(self):
        for number, problem in enumerate((DEAR, LAKE)):
            journal, training = self.folder / f"{number}.journal", trained(problem)
            ended = run(find_program(), ["train", str(journal), str(SEED), str(ITERATIONS)], problem)
            self.assertEqual((ended.status, ended.errors), (0, ""))
            self.assertEqual(Fraction(int(ended.output.split()[-1]), UNIT), bound(training))
            self.assertEqual(journal.read_bytes(), journal_of(training, problem))

    def test_the_column_that_stays_at_its_wrong_bound(self):
        # in the row of the cut `cheap` counts 1 and `dear` a million: its cell is 2^-20, and it is passed over. So the row "kept" is worth nothing
        # though one more of `cheap` saves 1; in the clean table of the same basis the row is worth that, and the column has its right bound
        for trusted, cost, kept, lost in ((LOOSER, 300_001_000, 0, 1), (TRUSTED, 300_002_000, -1, 0)):
            training = trained(DEAR, trusted)
            self.assertEqual(bound(training), cost)
            number, made = training.records[-1][0].steps[-1]
            self.assertEqual((number, made[0].rows), (0, (10**6 * UNIT, kept * UNIT)))
            place = training.problem.places[0]
            out = place.stage.outs[training.problem.state_names.index("cheap")]
            self.assertEqual(reduced_costs(place, training.pools, made[0])[out], -lost * UNIT * UNIT)


@needs_numpy
@needs_scipy
@needs("hypothesis")
@unittest.skipUnless(StudyReading.TOML, "tomllib comes with Python 3.11")
class Study(StudyFolder):
    def test_water_of_7_beside_water_of_a_million(self):
        self.write(STUDY)
        own = compared(self.folder)
        self.assertEqual((own.ending(), own.fault(), own.iterations), ("the optimum", "", FIRST_ITERATIONS))
        self.assertLess(abs(own.meant - own.optimum), Fraction(1, 10**6))
        self.assertIn("the bound stays below the optimum", replace(own, bound=own.optimum - own.loss - 2 * own.near).fault())
        self.assertIn("the problem has another optimum than the study", replace(own, meant=own.optimum + 1).fault())
        self.assertIn("and not of both", replace(own, meant=None).fault())

    def test_water_that_is_under_way_would_be_taken_for_there(self):
        # 12 hm3 may be under way, of 7 each; the duals take them for there, and no policy has them
        self.write(STUDY)
        compiled = self.study().compiled
        least = Fraction(least_cost(json.loads(compiled.problem)))
        missing = [(least - bound(trained(compiled.problem, it))) / compiled.scales.cost for it in (LOOSER, TRUSTED)]
        self.assertLess(abs(missing[0] - 7 * 12), Fraction(1, 100))
        self.assertLess(abs(missing[1]), rounding_loss(compiled) + NEAR * least / compiled.scales.cost)


if __name__ == "__main__":
    unittest.main()
