"""Small systems whose least cost is found by hand, one for each part; docs/use/PLANTS.md has the equations."""
import unittest
from decimal import Decimal
from fractions import Fraction as F

from extensive_plants import Extensive, needs_scipy
from model_support import Folder
from random_plants import Case
from hydroplan.plants import Battery, Bus, Export, Import, Line, Pump, Random, Renewable, Reservoir, System, Thermal, Tiers, Way, flow
from hydroplan.plants.system import discount
from hydroplan.runs import NoStageSolution, train

COAL = Thermal("coal", "b", 5, 100)


def lake(**members):
    """A lake of 10 hm3, each of which is a MWh."""
    chosen = {"maximum": 20, "initial": 10, "spill": 50, "bus": "b", "turbine": 20, "productivity": 1}
    return Reservoir("lake", **{**chosen, **members})


def one(*elements, demand=10, stages=1, blocks=None, outcomes=None, **chosen):
    """A case with the bus b."""
    return Case(stages, blocks or {"all": 1}, [Bus("b", demand), *elements], outcomes or [[]] * stages, **chosen)


WORKED = {
    # 8 of 10 hm3 are left, and 2 MWh are burnt at 5; a slack without a cost makes nothing evaporate, one at 3 is cheaper than coal
    "evaporation that has to be": (one(COAL, lake(evaporation=2)), 10),
    "evaporation that may go short": (one(COAL, lake(evaporation=2, evaporation_penalty=0)), 0),
    "evaporation at a penalty": (one(COAL, lake(evaporation=2, evaporation_penalty=3)), 6),
    "irrigation that has to be": (one(COAL, lake(irrigation=4)), 20),
    "irrigation in tiers": (one(COAL, lake(irrigation=4, irrigation_penalty=Tiers((1, 2), (9, 7)))), 2 + 15),
    # a second tier of 50 is no more than what is left of the 4
    "irrigation with all missing": (one(COAL, lake(irrigation=4, irrigation_penalty=Tiers((1, 2), (50, 3)), initial=0)), 50 + 2 + 9),
    # 10 m3/s over 100 h are 3.6 hm3; 0.36 MW per m3/s are 100 MWh per hm3: 360 of 500 MWh
    "flows": (one(COAL, lake(turbine=flow(10), productivity=flow("0.36")), demand=5, blocks={"all": 100}), 140 * 5),
    # 2 and 3 hours of 10 MW: the turbine gives 2 hm3 in the stage, wherever they are worth most
    "a limit of the stage": (one(Thermal("t", "b", {"a": 5, "b": 7}, 100), lake(turbine=2), blocks={"a": 2, "b": 3}), 20 * 5 + 28 * 7),
    # 100 m3/s are 0.72 and 1.08 hm3, 10 MWh each
    "a limit of the blocks": (
        one(
            Thermal("t", "b", {"a": 5, "b": 7}, 100), lake(turbine=flow(100), productivity=10), blocks={"a": 2, "b": 3},
        ), F("12.8") * 5 + F("19.2") * 7,
    ),
    "deficits in tiers": (Case(1, {"all": 1}, [Bus("b", 10, Tiers(("0.1", 50), ("0.9", 100)))], [[]]), 50 + 900),
    # 5 of the minimum: 3 at 2 and 2 at 7, and one more is bought at 1
    "thermal tiers": (one(Thermal("t", "b", Tiers((3, 2), (4, 7)), minimum=5), Import("i", "b", 10, 1), demand=6), 6 + 14 + 1),
    "maintenance": (one(Thermal("t", "b", 2, 8, 4, availability=["0.5", 0]), Import("i", "b", 10, 3), stages=2), 8 + 18 + 30),
    "a line that loses": (
        Case(1, {"all": 1}, [Bus("b"), Bus("south", 9), COAL, Line("l", "b", "south", 20, 0, "0.9")], [[]]), 50,
    ),
    "a line back": (Case(1, {"all": 1}, [Bus("b"), Bus("south", 8), COAL, Line("l", "south", "b", 0, 20, "0.8")], [[]]), 50),
    # 10 are charged at 5; 8 of them are stored and taken out, and 4 arrive; the other 6 cost 50 each
    "a battery": (
        one(Thermal("t", "b", [5, 50], 100), Battery("c", "b", 9, 10, 9, 0, "0.8", "0.5"), demand=[0, 10], stages=2), 50 + 300,
    ),
    # a hm3 is lifted with 1 / 0.5 MWh of wind; above, each gives 1 MWh in the next stage
    "a pump": (
        one(
            Renewable("wind", "b", [6, 0]), COAL, Pump("p", "b", "lake", "high", 9, 1, "0.5"), lake(productivity=0),
            Reservoir("high", 20, 0, 50, bus="b", turbine=9, productivity=1), demand=[0, 20], stages=2,
        ), 17 * 5,
    ),
    # 2 hm3 are all there is to be lifted; 6 MWh could lift 3
    "a pump that empties": (
        one(
            Renewable("wind", "b", [6, 0]), COAL, Pump("p", "b", "lake", "high", 9, 1, "0.5"), lake(initial=2, productivity=0),
            Reservoir("high", 20, 0, 50, bus="b", turbine=9, productivity=1), demand=[0, 20], stages=2,
        ), 18 * 5,
    ),
    # 0.21 a year is 1 / 1.1 half a year later, 0.91 at two decimals
    "a discount": (one(COAL, stages=2, yearly_rate="0.21", stages_per_year=2), 50 + F("0.91") * 50),
    # 4 hm3 are worth 8, more than the 5 of coal; the next 3 are worth 4
    "an end value": (one(COAL, lake(end_value=Tiers((4, 8), (3, 4)))), 20 - 32),
    "an end value of all": (one(COAL, lake(end_value=6)), 50 - 60),
    "a target": (one(COAL, lake(target=7), demand=4), 5),
    "a target of the last stage": (one(COAL, lake(target=[None, 7], target_penalty=9), demand=[4, 4], stages=2), 25),
    "a target in tiers": (one(COAL, lake(target=7, target_penalty=Tiers((2, 1), (9, 6))), demand=12), 2 + 35),
    # a tier of 2 is all that may be missing
    "a penalty for a part": (one(COAL, lake(target=7, target_penalty=Tiers((2, 1)))), 2 + 25),
    "an alert volume": (one(COAL, lake(alert=3, alert_penalty=4)), 12),
    "an outflow that has to be": (one(COAL, lake(minimum_outflow=3, productivity=0, end_value=2)), 50 - 14),
    "an outflow at a penalty": (one(COAL, lake(minimum_outflow=3, outflow_penalty=1, productivity=0, end_value=2)), 50 + 3 - 20),
    # one goes through the turbine, two past it
    "an outflow past the turbine": (one(COAL, lake(turbine=1, minimum_outflow=3, outflow_penalty=9, productivity=0, end_value=2)), 50 - 14),
    "a spill that costs": (one(COAL, lake(maximum=7, turbine=1, spill_penalty=3)), 45 + 6),
    # 3 arrive in the first stage, 5 in the second, and what leaves the upper one now in the third
    "water under way": (
        one(COAL, lake(initial=0), Reservoir("high", 20, 4, 50, turbine=20, downstream=Way("lake", 2, [3, 5])), stages=3), 35 + 25 + 30,
    ),
    # spilled water goes to the lake, turbined water is gone
    "two ways": (one(COAL, lake(initial=0), Reservoir("high", 2, 9, 3, turbine=20, spilled="lake")), 35),
    "a price": (one(Import("i", "b", 30, 2), Export("e", "b", 8, 3)), 36 - 24),
    "a random demand": (
        one(COAL, demand=Random("d", {"a": 1, "b": 2}), blocks={"a": 1, "b": 1}, outcomes=[[(1, {"d": 4}), (3, {"d": 8})]]), F(60 + 3 * 120, 4),
    ),
    "wind": (one(COAL, Renewable("w", "b", Random("w")), outcomes=[[(1, {"w": 4}), (1, {"w": 12})]]), 15),
    "an inflow in m3/s": (one(COAL, lake(initial=0, inflow=flow(Random("r"))), demand=1, blocks={"all": 100}, outcomes=[[(1, {"r": 50})]]), 410),
}


class Worked(Folder):
    def test_bounds(self):
        for number, (name, (case, cost)) in enumerate(WORKED.items()):
            with self.subTest(name=name):
                compiled = case.system().compile()
                self.assertEqual(compiled.ledger[-1], "0 numbers were rounded")
                found = train(compiled, self.folder / str(number), seed=7, iterations=12, progress=False)
                self.assertLessEqual(abs(found.exact_bound - cost), F(1, 10**5))
                self.assertLessEqual(found.exact_bound, cost)

    def test_a_firm_need_that_cannot_be_met(self):
        compiled = one(COAL, lake(initial=1, evaporation=2)).system().compile()
        with self.assertRaises(NoStageSolution) as caught:
            train(compiled, self.journal, seed=7, iterations=1, progress=False)
        self.assertEqual((caught.exception.rows, caught.exception.state), (("water:lake",), {"volume:lake": 1}))

    def test_inflows_are_decimals_by_station(self):
        inflows = [[(Decimal("0.25"), {"r": Decimal("1.5")}), (Decimal("0.75"), {"r": Decimal(3)})]]
        compiled = one(COAL, lake(initial=0, inflow=Random("r")), outcomes=inflows).system().compile()
        found = train(compiled, self.journal, seed=7, iterations=5, progress=False)
        self.assertAlmostEqual(found.bound, 5 * (0.25 * 8.5 + 0.75 * 7), places=5)

    @needs_scipy
    def test_the_extensive_form(self):
        for name, (case, cost) in WORKED.items():
            with self.subTest(name=name):
                self.assertAlmostEqual(Extensive(case).optimum(), float(cost), places=6)


class Discounts(unittest.TestCase):
    def test_factors(self):
        # 1.08^-1 = 0.925926, 1.08^-2 = 0.857339 and 1.08^-(1/12) = 0.993607, from tables of present values
        found = [discount(F("0.08"), F(years), F(1, 10**6)) for years in ("0", "1", "2", "1/12")]
        self.assertEqual(found, [1, F("0.925926"), F("0.857339"), F("0.993607")])

    def test_the_ledger_says_where_they_are_rounded(self):
        def first(**chosen):
            return one(COAL, stages=3, **chosen).system().compile().ledger[0]

        self.assertRegex(first(yearly_rate="0.1"), r"^discount: those of 2 stages were rounded to multiples of 0\.01 \(.*random_plants.py:\d+\)$")
        self.assertEqual(first(yearly_rate="0.25"), "0 numbers were rounded")  # 0.8 and 0.64
        self.assertEqual(first(yearly_rate="0.5625", stages_per_year=2), "0 numbers were rounded")  # the same by half years
        self.assertRegex(first(yearly_rate="0.25", discount_resolution="0.1"), "those of 1 stages were rounded to multiples of 0.1")
        self.assertEqual(first(), "0 numbers were rounded")

    def test_exact_where_it_can_be(self):
        self.assertEqual(discount(F("0.25"), F(3), F(1, 1000)), F(4, 5) ** 3)
        self.assertEqual([System(3, yearly_rate=1).discount(stage) for stage in (1, 2, 3)], [1, F(1, 2), F(1, 4)])


if __name__ == "__main__":
    unittest.main()
