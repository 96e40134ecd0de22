"""Systems of plants against their extensive form, a second reading that HiGHS solves; and balances of simulated decisions, exactly."""
import unittest
from dataclasses import MISSING, fields, replace
from fractions import Fraction as F

from exact_paths import exact_paths
from extensive_plants import Extensive, needs_scipy
from model_support import Folder
from plants_balances import Balances
from random_plants import Case, Draw
from rounding_loss import rounding_loss
from hydroplan.plants import Battery, Bus, Export, Import, Line, Pump, Random, Renewable, Reservoir, Thermal
from hydroplan.runs import train

SEEDS = range(40)
MOST_ITERATIONS = 240
KINDS = (Battery, Bus, Export, Import, Line, Pump, Renewable, Reservoir, Thermal)


def without(case, kind, member):
    """A case whose elements of a kind have the member as it is where it is not given."""
    default = {it.name: it.default for it in fields(kind)}[member]
    return replace(case, elements=[replace(it, **{member: default}) if isinstance(it, kind) else it for it in case.elements])


def differ(case, other):
    """Whether two cases have other optima; one without an optimum has another."""
    try:
        return abs(Extensive(case).optimum() - Extensive(other).optimum()) > 1e-3
    except AssertionError:
        return True


def off_on_ways(path):
    """By how much the rows of water on its way are missed along a path."""
    return sum((missed for stage in path for row, missed in stage.missed.items() if row.startswith("way:")), F(0))


class Optima(Folder):
    def trained(self, compiled, name, enough):
        """The bound, after twice the iterations until it is at least so much."""
        iterations = 15
        while True:
            found = train(compiled, self.folder / name, seed=7, iterations=iterations, progress=False)
            self.assertEqual(found.unanswered, 0)
            if found.exact_bound >= enough or iterations >= MOST_ITERATIONS:
                return found.exact_bound
            iterations *= 2

    @needs_scipy
    def test_bounds_are_the_optima_of_the_extensive_form(self):
        for seed in SEEDS:
            case = Draw(seed).case()
            optimum = F(Extensive(case).optimum())
            compiled = case.system().compile(successor_total=256)
            near = F(1, 10**8) * max(1, abs(optimum))
            with self.subTest(seed=seed):
                self.assertEqual(compiled.ledger[-1], "0 numbers were rounded")
                bound = self.trained(compiled, str(seed), optimum - rounding_loss(compiled) - near)
                self.assertLessEqual(bound, optimum + near)
                self.assertGreaterEqual(bound, optimum - rounding_loss(compiled) - near)

    @needs_scipy
    def test_each_feature_counts_in_some_drawn_system(self):
        cases = [Draw(seed).case() for seed in SEEDS]
        members = [(kind, it.name) for kind in KINDS for it in fields(kind) if it.default is not MISSING]
        for kind, member in members:
            if (kind, member) != (Thermal, "maximum"):  # what it would be without is no system
                with self.subTest(kind=kind.KIND, member=member):
                    self.assertTrue(any(differ(case, without(case, kind, member)) for case in cases))
        for kind in (Battery, Export, Import, Line, Pump, Renewable):
            with self.subTest(kind=kind.KIND):
                others = [replace(case, elements=[it for it in case.elements if not isinstance(it, kind)]) for case in cases]
                self.assertTrue(any(differ(case, other) for case, other in zip(cases, others)))

    @needs_scipy
    def test_the_second_reading_knows_a_case_by_hand(self):
        # 10 of water, a MWh for each hm3; 8 are needed in the first stage and 8 in the second, where energy costs 7 in place of 3
        elements = [Bus("b", 8), Thermal("t", "b", [3, 7], 20), Reservoir("r", 20, 10, 50, bus="b", turbine=20, productivity=1)]
        case = Case(2, {"all": 1}, elements, [[], []])
        self.assertAlmostEqual(Extensive(case).optimum(), 3 * 6)
        self.assertEqual(round(self.trained(case.system().compile(), "hand", F(18) - F(1, 10**6)), 5), 18)


class Exactly(Folder):
    def test_balances_of_simulated_decisions(self):
        for seed in range(24):
            case = Draw(seed).case()
            compiled = case.system().compile()
            journal = self.folder / str(seed)
            train(compiled, journal, seed=7, iterations=10, progress=False)
            for path in exact_paths(compiled, journal, 1, 5):
                for stage, row, amount in Balances(case, path).all():
                    with self.subTest(seed=seed, stage=stage.number, row=row):
                        # decisions are whole at scale 2^24; where they cannot meet a row, the report says by how much they miss it,
                        # and what arrives is off by what the rows of its way miss
                        self.assertLessEqual(abs(abs(amount) - stage.missed.get(row, 0)), off_on_ways(path) if row.startswith("water:") else 0)
                        self.assertLessEqual(abs(amount), F(1, 10**5))

    def test_decisions_that_are_whole_meet_their_balances(self):
        elements = [
            Bus("b", 20, 90), Thermal("t", "b", 5, 30), Reservoir("high", 20, 10, 50, 0, Random("rain"), "b", 20, 1, downstream="low"),
            Reservoir("low", 30, 5, 50, bus="b", turbine=6, productivity=2),
        ]
        case = Case(3, {"all": 1}, elements, [[(1, {"rain": 0}), (1, {"rain": 9})]] * 3)
        compiled = case.system().compile()
        train(compiled, self.journal, seed=7, iterations=20, progress=False)
        found = [amount for path in exact_paths(compiled, self.journal, 1, 20) for _, _, amount in Balances(case, path).all()]
        self.assertEqual((set(found), len(found)), ({0}, 20 * 3 * 3))


if __name__ == "__main__":
    unittest.main()
