"""Systems whose realizations come from a model of inflow: costs by hand, names, and what is refused."""
import unittest
from decimal import Decimal as D

from model_support import Folder
from hydroplan import evaluate, train
from hydroplan.inflows import About, Autoregression, Independent, Lattice, Realization, ShockStage, StageRealizations
from hydroplan.plants import Bus, NotDescribed, PlantError, Random, Renewable, Reservoir, System, Thermal, UnknownName

ABOUT = About("by hand", "nowhere", "hm3", D(1), ("r", "unused"), "step")


def drawn(stage, *values, number=0):
    """Realizations of equal weight."""
    return StageRealizations(stage, stage, tuple(Realization(1, {"r": D(it), "unused": D(0)}, ()) for it in values), number)


def shock_stage(stage, lower, upper, *shocks):
    """A stage in which half of the inflow is carried on."""
    half, ends = {"r": D("0.5"), "unused": D("0.5")}, ({"r": D(lower), "unused": D(0)}, {"r": D(upper), "unused": D(9)})
    return ShockStage(drawn(stage, *shocks), half, *ends, {}, {})


def river(stages=2):
    """A demand of 10, a river of which each unit gives one, and coal at 5 for the rest."""
    system = System(stages)
    system.add(Bus("b", 10), Thermal("coal", "b", 5, 10), Reservoir("lake", 0, 0, 50, inflow=Random("r"), bus="b", turbine=20, productivity=1))
    return system


class Inflows(Folder):
    def cost(self, system):
        """The least expected cost, between the bound and what the whole policy costs."""
        compiled = system.compile()
        trained = train(compiled, self.journal, seed=1, iterations=20, progress=False)
        upper = evaluate(compiled, self.journal).upper
        self.assertAlmostEqual(trained.bound, upper, 5)
        return upper

    def test_years(self):
        # 10 - 4 and 10 - 8 in both stages: (6 + 2) / 2 at 5, two times
        system = river()
        system.inflows(Independent(ABOUT, (drawn(1, 4, 8), drawn(2, 4, 8))))
        self.assertAlmostEqual(self.cost(system), 40, 5)
        self.assertEqual([weight for weight, _ in system.outcomes_of(1)], [1, 1])

    def test_classes(self):
        # dry 2 and wet 8, so 40 and 10; dry at first with 1/4, then with 1/4 * 3/4 + 3/4 * 1/4: 17.5 + 21.25
        stages = tuple((drawn(at, 2), drawn(at, 8, number=1)) for at in (1, 2))
        system = river()
        system.inflows(Lattice(ABOUT, stages, (((3, 1), (1, 3)),), (1, 3)))
        self.assertAlmostEqual(self.cost(system), 38.75, 5)
        self.assertEqual(list(system.model().nodes), ["1 0", "1 1", "2 0", "2 1"])

    def test_an_autoregression(self):
        # inflow 0.5 x + shock from 10: 7 and 11, then 5.5, 9.5, 7.5 and 11.5; what is missing to 10 costs 5
        system = river()
        system.inflows(Autoregression(ABOUT, (shock_stage(1, 7, 11, 2, 6), shock_stage(2, "5.5", "11.5", 2, 6)), {"r": D(10), "unused": D(0)}))
        self.assertAlmostEqual(self.cost(system), 7.5 + 37.5 / 4, 5)
        self.assertEqual(system.carried(), {"r": 10})
        self.assertEqual(set(system.model().stages["1"].states), {"volume:lake", "inflow:r"})

    def test_a_factor_of_an_inflow_that_is_carried(self):
        # wind of twice the value, at most 20 of which 10 are asked for: 14 and 22 at first
        system = System(1)
        system.add(Bus("b", 18), Thermal("coal", "b", 5, 18), Renewable("w", "b", Random("r", 2)))
        system.inflows(Autoregression(ABOUT, (shock_stage(1, 7, 11, 2, 6),), {"r": D(10), "unused": D(0)}))
        self.assertAlmostEqual(self.cost(system), (18 - 14) * 5 / 2, 5)

    def test_outcomes_take_their_place_again(self):
        system = river(1)
        system.inflows(Independent(ABOUT, (drawn(1, 4, 8),)))
        system.outcomes([[(1, {"r": 9})]])
        self.assertAlmostEqual(self.cost(system), 5, 5)

    def test_refusals(self):
        system = river()
        with self.assertRaisesRegex(PlantError, r"the inflows \(.*test_plants_inflows\.py:\d+\) are of 1 stages, and there are 2"):
            system.inflows(Independent(ABOUT, (drawn(1, 4),)))
        system = System(1)
        system.add(Bus("b", 10), Thermal("coal", "b", 5, 10), Renewable("w", "b", Random("unusd")))
        system.inflows(Independent(ABOUT, (drawn(1, 4),)))
        with self.assertRaisesRegex(UnknownName, r'the inflows \(.*\) have no station "unusd": did you mean "unused"\?'):
            system.model()
        system = System(1)
        system.add(Bus("b", 10), Thermal("coal", "b", 5, 10), Renewable("w", "b", Random("r")))
        system.inflows(Autoregression(ABOUT, (shock_stage(1, -1, 11, 2, 6),), {"r": D(10), "unused": D(0)}))
        with self.assertRaisesRegex(PlantError, r'"available" of renewable "w" .* by the station "r", is -1 in stage 1: it is at least 0'):
            system.model()

    def test_a_description_has_no_words_for_a_memory(self):
        system = river(1)
        system.inflows(Autoregression(ABOUT, (shock_stage(1, 7, 11, 2, 6),), {"r": D(10), "unused": D(0)}))
        with self.assertRaisesRegex(NotDescribed, "inflows with classes or with a memory"):
            system.to_description()


if __name__ == "__main__":
    unittest.main()
