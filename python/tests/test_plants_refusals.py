"""What is refused of a system of plants: unknown names with a suggestion, numbers out of range, costs that fall; each with its line."""
import unittest
from dataclasses import replace

from model_support import Folder
from hydroplan.errors import ModelError
from hydroplan.plants import (
    Battery, Bus, CostFalls, Import, Line, PlantError, Pump, Random, Renewable, Reservoir, System, Thermal, Tiers, UnknownName, Way, column, flow,
)

FILE = "test_plants_refusals.py"


class Refused(unittest.TestCase):
    def refused(self, words, make, kind=ModelError):
        with self.assertRaisesRegex(kind, words):
            make()

    def adding(self, words, element, kind=ModelError, stages=3, blocks=None):
        self.refused(words, lambda: System(stages, blocks).add(element), kind)

    def compiling(self, words, *elements, kind=PlantError, outcomes=None, stages=2):
        system = System(stages)
        system.add(Bus("north", 5, 90), *elements)
        if outcomes is not None:
            system.outcomes(outcomes)
        self.refused(words, system.model, kind)


class Names(Refused):
    def test_members(self):
        self.refused(
            rf'"maximun" is no member of thermal "coal" \(.*{FILE}:\d+\): did you mean "maximum"\?',
            lambda: Thermal("coal", bus="north", maximun=5, cost=3), UnknownName,
        )
        self.refused(r'"zzz" is no member of line "l" \(.*\): known are name, source, target', lambda: Line("l", zzz=3), UnknownName)
        self.refused(r'thermal "coal" \(.*\) needs "cost"', lambda: Thermal("coal", bus="north", maximum=5))
        self.refused("is no text, empty, or has a colon", lambda: Bus("a:b"))

    def test_elements(self):
        self.compiling(
            rf'"bus" of thermal "coal" \(.*{FILE}:\d+\): there is no bus "nort": did you mean "north"\?', Thermal("coal", "nort", 3, 5),
            kind=UnknownName,
        )
        self.compiling('there is no reservoir "alb": did you mean "alp"?', Reservoir("alp", 9, 5, 9, downstream="alb"), kind=UnknownName)
        self.compiling('"spilled" of reservoir "alp" .* no reservoir "x"', Reservoir("alp", 9, 5, 9, spilled="x"), kind=UnknownName)
        self.compiling(
            'there is no reservoir "sea": known are alp', Reservoir("alp", 9, 5, 9), Pump("p", "north", "sea", "alp", 3, 1), kind=UnknownName,
        )
        self.compiling("the name of a reservoir or a Way, not 5", Reservoir("alp", 9, 5, 9, downstream=5))

    def test_twice(self):
        system = System(1)
        self.refused('bus "b" .* has the name of another: bus "b"', lambda: system.add(Bus("b"), Bus("b")))
        self.refused("'b' is no element of a system", lambda: system.add("b"))

    def test_blocks(self):
        blocks = {"peak": 1, "base": 2}
        self.adding('no load block "paek": did you mean "peak"?', Bus("b", {"paek": 3, "base": 2}), UnknownName, blocks=blocks)
        self.adding('no number for the load block "base"', Bus("b", {"peak": 3}), blocks=blocks)
        self.adding("none for load blocks", Reservoir("r", {"peak": 3, "base": 3}, 1, 1), blocks=blocks)
        self.refused("load blocks whose names are texts", lambda: System(1, {"a:b": 1}))

    def test_stations(self):
        wind = Renewable("w", "north", Random("wind"))
        self.compiling('stage 1 has no outcomes, and the station "wind" is asked for', wind)
        self.compiling('no element asks for the station "wynd" of stage 2: did you mean "wind"?', wind, kind=UnknownName,
                       outcomes=[[(1, {"wind": 3})], [(1, {"wynd": 3})]])
        self.compiling('an outcome of stage 2 has no value of the station "wind"', wind, outcomes=[[(1, {"wind": 3})], [(1, {})]])
        self.compiling('"available" of renewable "w" .*, by the station "wind", is -3 in stage 2: it is at least 0', wind,
                       outcomes=[[(1, {"wind": 3})], [(1, {"wind": -3})]])
        self.compiling('station "a:b" has a colon', Renewable("w", "north", Random("a:b")), outcomes=[[(1, {"a:b": 3})]] * 2)
        self.refused(rf"the outcomes \(.*{FILE}:\d+\) are of 1 stages, and there are 2", lambda: System(2).outcomes([[]]))
        self.refused("outcome 1 of stage 1 of the outcomes .* is a weight and values", lambda: System(1).outcomes([[3]]))


class Values(Refused):
    def test_ranges(self):
        self.adding(rf'"maximum" of thermal "t" \(.*{FILE}:\d+\) is -1 in stage 2: it is at least 0', Thermal("t", "b", 3, [1, -1, 1]))
        self.adding('"availability" of thermal "t" .* is 2 in stage 1: it is at most 1', Thermal("t", "b", 3, 5, availability=2))
        self.adding('"discharging" of battery "c" .* is 0 in stage 1: it is above 0', Battery("c", "b", 1, 1, 1, discharging=0))
        self.refused("the hours of the system .* is 0 in stage 1: it is above 0", lambda: System(1, {"month": 0}))
        self.refused("one or more stages, not 0", lambda: System(0))
        self.refused("a yearly rate above -1", lambda: System(1, yearly_rate=-1))

    def test_forms(self):
        self.adding('"maximum" of thermal "t" .* has 2 numbers, and there are 3 stages', Thermal("t", "b", 3, [1, 2]))
        self.adding('"maximum" of thermal "t" .* has to be a number, and is \'x\'', Thermal("t", "b", 3, "x"))
        self.adding('stage 2 of "maximum" .* has to be a number, and is None', Thermal("t", "b", 3, [1, None, 3]))
        self.adding('"maximum" of line "l" .* has to be a number, and is None', Line("l", "b", "c", None))
        self.adding('"maximum" of thermal "t" .* cannot be random', Thermal("t", "b", 3, Random("w")))
        self.adding('"maximum" of thermal "t" .* is no water', Thermal("t", "b", 3, flow(3)))
        self.adding('"initial" of reservoir "r" .* has to be a number', Reservoir("r", 9, [1, 2, 3], 9))
        self.refused(rf"tiers are one or more pairs .* not \(5,\) \(.*{FILE}:\d+\)", lambda: Tiers(5))

    def test_costs_that_fall(self):
        self.adding(
            rf'"cost" of thermal "t" \(.*{FILE}:\d+\): tier 2 has 3 in stage 2 and block "all", less than tier 1 with 5',
            Thermal("t", "b", Tiers((1, 5), (2, [6, 3, 6]))), CostFalls,
        )
        self.adding('"deficit" of bus "b" .* tier 3 has 7 .* less than tier 2 with 8', Bus("b", 5, Tiers((0.1, 5), (0.1, 8), (0.1, 7))), CostFalls)
        self.adding('"end_value" of reservoir "r" .* tier 2 has 4 in stage 1, more than tier 1 with 3',
                    Reservoir("r", 9, 5, 9, end_value=Tiers((1, 3), (2, 4))), CostFalls)

    def test_members_that_do_not_fit_each_other(self):
        self.compiling('thermal "t" .* either a "maximum", or tiers', Thermal("t", "north", Tiers((1, 5)), 4))
        self.compiling('thermal "t" .* either a "maximum", or tiers', Thermal("t", "north", 4))
        self.compiling('"minimum" of thermal "t" .* above its maximum in stage 1', Thermal("t", "north", 4, 3, 5))
        self.compiling('"minimum" of import "i" .* above its maximum in stage 1', Import("i", "north", 3, 4, 5))
        self.compiling('"minimum" of reservoir "r" .* is 9 in stage 2, above its maximum 8', Reservoir("r", [9, 8], 5, 9, 9))
        self.compiling('reservoir "r" .* has a "productivity", and no "bus"', Reservoir("r", 9, 5, 9, productivity=1))
        self.compiling('shares of "deficit" of bus "b" .* more than 1 together in stage 2', Bus("b", 4, Tiers(([1, "0.9"], 5), ([0, "0.2"], 8))))
        self.compiling('nothing brings energy to bus "b" .* demand in stage 1', Bus("b", 4))
        self.compiling("a number of at least 0 for each of 2 stages of travel", Reservoir("r", 9, 5, 9, downstream=Way("r", 2, [3])))
        self.compiling("whole number of stages, not 0.5", Reservoir("r", 9, 5, 9, downstream=Way("r", 0.5)))


class Columns(Folder, Refused):
    def setUp(self):
        super().setUp()
        self.path = self.folder / "plants.csv"
        self.path.write_text("stage,coal,gas\n1,10,12.5\n2,20,x\n\n3,30\n", encoding="utf-8")

    def test_a_column(self):
        system = System(3)
        system.add(Bus("b"), Thermal("t", "b", column(self.path, "coal"), 5))
        stages = system.model().stages
        self.assertEqual([str(stages[name].objective) for name in stages], ["10 generation:t", "20 generation:t", "30 generation:t"])

    def test_columns_by_block(self):
        system = System(3, {"peak": 1, "base": 2})
        system.add(Bus("b", {"peak": column(self.path, "coal"), "base": 4}, 90))
        rows = [row.relation.lower for stage in system.model().stages.values() for row in stage.constraints]
        self.assertEqual(rows, [10, 8, 20, 8, 30, 8])

    def test_what_is_refused(self):
        self.adding('has no column "cole": did you mean "coal"?', Thermal("t", "b", 3, column(self.path, "cole")), UnknownName)
        self.adding(r'"maximum" of thermal "t" .* column "gas" of .*plants.csv:3 has to be a number', Thermal("t", "b", 3, column(self.path, "gas")))
        self.adding("has 3 numbers, and there are 4 stages", Thermal("t", "b", 3, column(self.path, "coal")), stages=4)
        self.adding("none.csv cannot be read", Thermal("t", "b", 3, column(self.folder / "none.csv", "coal")))
        self.path.write_text("coal,gas\n1,2\n3\n", encoding="utf-8")
        self.adding('column "gas" of .*plants.csv:3: the row has 1 fields', Thermal("t", "b", 3, column(self.path, "gas")))


class Lines(unittest.TestCase):
    def test_an_element_that_is_made_of_another(self):
        coal = Thermal("coal", "north", 3, 5)
        other = replace(coal, maximum=7)
        self.assertEqual((other.place.file, other.place.line, other.maximum), (__file__, coal.place.line + 1, 7))

    def test_parts_of_the_model_have_the_line_of_their_element(self):
        system = System(1)
        coal = Thermal("coal", "north", 3, 5)
        system.add(Bus("north", 3, 90), coal)
        stage = system.model().stages["1"]
        self.assertEqual(stage.all_variables["generation:coal"].place, coal.place)
        self.assertTrue(all(it.place.file == __file__ for it in [stage, stage.all_variables["deficit:north"], stage.constraints[0]]))


if __name__ == "__main__":
    unittest.main()
