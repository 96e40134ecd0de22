"""Systems written as descriptions of hydro plants: the program's own reading of them has the same optimum, and the rest is refused."""
import json
import random
import unittest
from fractions import Fraction as F
from math import gcd

from extensive_plants import Extensive, needs_scipy
from model_support import TOP, Folder
from random_plants import Case
from hydroplan.core import find_program, run
from hydroplan.plants import (
    Battery, Bus, Export, Import, Line, NotDescribed, Pump, Random, Renewable, Reservoir, System, Thermal, Tiers, Way, flow,
)
from hydroplan.runs import train

ITERATIONS = 60


def drawn(seed) -> Case:
    """A case of what descriptions have words for."""
    draw = random.Random(seed)
    whole = draw.randint
    buses, names, stages = ["north", "south"][: whole(1, 2)], ["alp", "lake", "sea"][: whole(1, 3)], whole(2, 3)
    elements = [Bus(name, [whole(15, 40) for _ in range(stages)], 90) for name in buses]
    elements += [Thermal(f"t{at}", draw.choice(buses), whole(5, 15), whole(5, 40)) for at in range(whole(0, 3))]
    for at, name in enumerate(names):
        to = Way(names[at + 1], whole(0, 2)) if at + 1 < len(names) and draw.random() < 0.8 else None
        low = whole(0, 3)
        elements.append(Reservoir(
            name, whole(30, 40), whole(5, 30), 200, low, Random(name), draw.choice(buses), whole(4, 12), whole(1, 6), downstream=to,
            spill_penalty=draw.choice([0, whole(1, 9)]),
        ))
    if len(buses) == 2:
        elements.append(Line("tie", "north", "south", whole(0, 20), draw.choice([0, whole(1, 9)])))
    outcomes = [[(draw.choice([1, "0.5", "1/3"]), {name: whole(0, 20) for name in names}) for _ in range(whole(1, 3))] for _ in range(stages)]
    return Case(stages, {"all": 1}, elements, outcomes)


def problem_of(description: str) -> bytes:
    """The problem that the program makes of a description."""
    ended = run(find_program(), ["hydro"], description.encode())
    assert ended.status == 0, ended.errors
    return ended.output.encode()


class Described(Folder):
    def bound(self, problem, name):
        """The bound of a training over a problem, in its own units."""
        ended = run(find_program(), ["train", str(self.folder / name), "7", str(ITERATIONS)], problem)
        self.assertEqual(ended.status, 0, ended.errors)
        return F(int(next(it for it in ended.output.splitlines() if it.startswith("bound ")).split()[1]), 1 << 24)

    def both(self, case, name, **units):
        """The bounds of the description and of the model, in the user's money."""
        money = F(str(units.get("money", 1)))
        described = self.bound(problem_of(case.system().to_description(**units)), f"{name}.described") / money
        made = train(case.system().compile(), self.folder / name, seed=7, iterations=ITERATIONS, progress=False)
        return described, made.exact_bound

    def near(self, left, right):
        """Within a millionth part."""
        self.assertLessEqual(abs(left - right), F(1, 10**6) * max(1, abs(right)))

    def test_both_have_the_same_bound(self):
        for seed in range(12):
            with self.subTest(seed=seed):
                self.near(*self.both(drawn(seed), str(seed)))

    @needs_scipy
    def test_both_have_the_optimum_of_the_extensive_form(self):
        for seed in range(12):
            with self.subTest(seed=seed):
                described, made = self.both(drawn(seed), str(seed))
                optimum = F(Extensive(drawn(seed)).optimum())
                self.near(described, optimum)
                self.near(made, optimum)

    def test_units_that_make_numbers_whole(self):
        elements = [
            Bus("b", "12.5", 90), Thermal("t", "b", "7.5", 10),
            Reservoir("r", "20.5", 10, flow(1000), inflow=Random("r"), bus="b", turbine=flow(200), productivity=flow("0.9"), spill_penalty=5),
        ]
        case = Case(2, {"month": 10}, elements, [[(1, {"r": "0.5"}), (2, {"r": 3})]] * 2)
        described, made = self.both(case, "units", water=10, energy=2, money=4)
        self.near(described, made)
        said = json.loads(case.system().to_description(water=10, energy=2, money=4))
        # 7.2 hm3 go through the turbine in 10 hours at 200 m3/s, each giving 0.9 / 0.0036 MWh; 10 MW are 100 MWh
        self.assertEqual((said["reservoirs"]["r"]["turbine"], said["reservoirs"]["r"]["factor"]), (72, 50))
        self.assertEqual(said["reservoirs"]["r"]["spill_cost"], 2)
        self.assertEqual(said["thermals"]["t"], {"bus": "b", "high": 200, "cost": 15})
        self.assertEqual(said["buses"]["b"], {"deficit_cost": 180})
        self.assertEqual([it["weight"] for it in said["stages"][0]["inflows"]], [1, 2])

    def test_the_example_of_a_description(self):
        given = json.loads((TOP / "examples" / "cascade_plants.json").read_text(encoding="utf-8"))
        system = System(len(given["stages"]))
        for name, it in given["buses"].items():
            system.add(Bus(name, [stage["demand"][name] for stage in given["stages"]], it["deficit_cost"]))
        for name, it in given["reservoirs"].items():
            way = Way(it["downstream"], it["travel"]) if "downstream" in it else None
            system.add(Reservoir(
                name, it["high"], it["initial"], it["spill"], it["low"], Random(name), it["bus"], it["turbine"], it["factor"], downstream=way,
            ))
        for name, it in given["thermals"].items():
            system.add(Thermal(name, it["bus"], it["cost"], it["high"]))
        for name, it in given["lines"].items():
            system.add(Line(name, it["from"], it["to"], it["high"]))
        system.outcomes([[(it["weight"], it["inflow"]) for it in stage["inflows"]] for stage in given["stages"]])
        said = json.loads(system.to_description())
        for stage in given["stages"]:
            weights = [it["weight"] for it in stage["inflows"]]
            for it in stage["inflows"]:
                it["weight"] //= gcd(*weights)
        self.assertEqual(said, given)


class NotSaid(unittest.TestCase):
    def refused(self, words, *elements, blocks=None, outcomes=None, stages=1, **chosen):
        system = System(stages, blocks, **chosen)
        system.add(Bus("b", 5, 90), *elements)
        system.outcomes(outcomes or [[]] * stages)
        with self.assertRaisesRegex(NotDescribed, words):
            system.to_description()

    def test_what_has_no_words(self):
        self.refused('no renewable: renewable "w"', Renewable("w", "b", 4))
        self.refused('no import: import "i"', Import("i", "b", 4, 3))
        self.refused('no export: export "e"', Export("e", "b", 4, 3))
        self.refused('no battery: battery "c"', Battery("c", "b", 4, 3, 3))
        self.refused('no "alert": reservoir "r"', Reservoir("r", 9, 5, 9, bus="b", alert=3, alert_penalty=1))
        self.refused('no pump: pump "p"', Reservoir("r", 9, 5, 9, bus="b"), Pump("p", "b", "r", "r", 3, 1))
        self.refused("has load blocks", blocks={"peak": 1, "base": 2})
        self.refused("discounts costs", stages=2, yearly_rate="0.1")
        self.refused("different hours", stages=2, blocks={"month": [1, 2]})
        self.refused('no "minimum": thermal "t"', Thermal("t", "b", 3, 5, 1))
        self.refused('no tiers: "cost" of thermal "t"', Thermal("t", "b", Tiers((3, 5))))
        self.refused('same "cost" in all stages: thermal "t"', Thermal("t", "b", [3, 4], 5), stages=2)
        self.refused("a bus of reservoir", Reservoir("r", 9, 5, 9))
        self.refused("between minimum and maximum", Reservoir("r", 9, 10, 9, bus="b"))
        self.refused("at most 3 stages", Reservoir("r", 9, 5, 9, bus="b", downstream=Way("r", 4)))
        self.refused("all water of a description goes one way", Reservoir("r", 9, 5, 9, bus="b", spilled="r"))
        self.refused("1 to 16 letters", Thermal("a plant of this", "b", 3, 5))
        self.refused('"cost" of thermal "t" .* is 5/2 .* finer units', Thermal("t", "b", "2.5", 5))
        self.refused('not random: "demand" of bus "c"', Bus("c", Random("d"), 90), outcomes=[[(1, {"d": 3})]])

    def test_deficits_that_could_leave_by_a_line(self):
        self.refused('deficits of a description may leave .* bus "b" .*; bus "c"', Bus("c", 3, 50), Line("l", "b", "c", 5))


if __name__ == "__main__":
    unittest.main()
