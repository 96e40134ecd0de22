"""What the forms of numbers, the calendar and the tables of a study mean: numbers by hand."""
import datetime
import unittest
from fractions import Fraction as F

from model_support import needs_numpy
from study_support import StudyFolder
from extensive_plants import needs_scipy
from hydroplan.plants import As, Bus, Reservoir, Thermal
from hydroplan.study.study import Resolution

HEAD = """
[calendar]
start = {start}
stages = {stages}
{rest}
"""
TWELVE = list(range(1, 13))


class Forms(StudyFolder):
    def written(self, body, start="2026-01-01", stages=3, rest="", **files):
        """The study of a calendar and more."""
        self.write(HEAD.format(start=start, stages=stages, rest=rest) + body, **files)
        return self.study()

    def demand(self, given, **chosen):
        """The demand of a bus in each stage."""
        body = f"[profiles]\nload = {{ months = {TWELVE} }}\ntwice = {{ months = {TWELVE}, times = 2 }}\n[bus.b]\ndemand = {given}\n"
        study = self.written(body, **chosen)
        (_, numbers), = study.system.of_kind(Bus)
        return [float(numbers.at("demand", stage, "all")) for stage in range(1, study.calendar.stages + 1)]

    def test_forms(self):
        table = "coal, north \n1,2.5\n2,-0\n\n3,1e1\n"
        self.assertEqual(self.demand("2.5"), [2.5] * 3)
        self.assertEqual(self.demand('"1/4"'), [0.25] * 3)
        self.assertEqual(self.demand("[1, 2.5, 0]"), [1, 2.5, 0])
        self.assertEqual(self.demand('{ file = "t.csv", column = "north" }', t_csv=table), [2.5, 0, 10])
        self.assertEqual(self.demand('{ file = "t.csv", column = "coal", times = 0.5 }', t_csv=table), [0.5, 1, 1.5])
        self.assertEqual(self.demand(f"{{ months = {TWELVE} }}", start="2026-11-01"), [11, 12, 1])
        self.assertEqual(self.demand('{ profile = "load", times = 10 }', start="2026-12-01"), [120, 10, 20])
        self.assertEqual(self.demand('{ profile = "twice", times = 10 }'), [20, 40, 60])
        year = "load\n" + "".join(f"{it}\n" for it in TWELVE)
        self.assertEqual(self.demand('{ months = { file = "y.csv", column = "load" } }', start="2026-03-01", y_csv=year), [3, 4, 5])

    def test_weeks(self):
        weeks = list(range(1, 53))
        self.assertEqual(self.demand(f"{{ weeks = {weeks} }}", start="2026-12-17", rest='step = "week"'), [51, 52, 52])
        self.assertEqual(self.demand(f"{{ weeks = {weeks} }}", start="2027-01-01", rest='step = "week"'), [1, 2, 3])
        self.assertEqual(self.demand(f"{{ months = {TWELVE} }}", start="2026-01-25", rest='step = "week"'), [1, 2, 2])

    def test_numbers_of_blocks(self):
        body = """
[blocks]
peak = 0.25
night = { hours = [100, 72, 94] }
base = "rest"
[bus.b]
demand = { peak = 3, night = [1, 2, 3], base = { months = [1, 2, 3, 4, 5, 6, 7, 8, 9, 10, 11, 12] } }
[bus.c]
demand = [{ peak = 1, night = 2, base = 3 }, 4, { peak = 5, night = 6, base = 7 }]
"""
        study = self.written(body)
        self.assertEqual(
            [[float(it) for it in hours.values()] for hours in study.system.horizon.hours], [[186, 100, 458], [168, 72, 432], [186, 94, 464]],
        )
        (_, one), (_, other) = study.system.of_kind(Bus)
        blocks = ("peak", "night", "base")
        self.assertEqual([[one.at("demand", stage, it) for it in blocks] for stage in (1, 2, 3)], [[3, 1, 1], [3, 2, 2], [3, 3, 3]])
        self.assertEqual([[other.at("demand", stage, it) for it in blocks] for stage in (1, 2, 3)], [[1, 2, 3], [4, 4, 4], [5, 6, 7]])

    def test_flows_ways_tiers_and_stages_without_a_target(self):
        study = self.written("""
[reservoir.a]
maximum = 9
initial = 1
spill = { flow = [1, 2, 3] }
downstream = { to = "b", travel = 2, under_way = [4, 5] }
spilled = false
target = { at = { 3 = 2.5 } }
target_penalty = [{ size = 1, cost = 5 }, { size = 2, cost = [6, 7, 8] }]
end_value = 3
[reservoir.b]
maximum = 9
initial = 1
spill = 9
target = { file = "t.csv", column = "b" }
target_penalty = 4
""", t_csv="b,c\n1,\n,\n2,\n")
        (a, numbers), (_, other) = study.system.of_kind(Reservoir)
        self.assertEqual([float(numbers.tables["spill"].total(stage)) for stage in (1, 2, 3)], [2.6784, 4.8384, 8.0352])
        self.assertEqual((a.downstream.to, a.downstream.travel, list(a.downstream.under_way), a.spilled), ("b", 2, [4, 5], None))
        self.assertEqual([numbers.tables["target"].get(stage) for stage in (1, 2, 3)], [None, None, F(5, 2)])
        self.assertEqual([other.tables["target"].get(stage) for stage in (1, 2, 3)], [1, None, 2])
        self.assertEqual([(it.size.at(3), it.cost.at(3)) for it in numbers.tiers("target_penalty")], [(1, 5), (2, 8)])

    def test_tables_of_elements(self):
        table = "name,bus,maximum,cost.peak,cost.base,minimum,availability\n\"gas, old\",b,10,5,4,,0.5\noil,b,7.5,9,9,1,\n"
        ways = "name,maximum,initial,spill,downstream,spilled,turbine.flow\nup,9,1,9,down,false,10\ndown,9,1,9,,,\n"
        study = self.written(
            "[blocks]\npeak = 0.5\nbase = \"rest\"\n[bus.b]\n[tables]\nthermal = \"t.csv\"\nreservoir = \"r.csv\"\n"
            "[thermal.coal]\nbus = \"b\"\nmaximum = 1\ncost = 1\n",
            t_csv=table, r_csv=ways,
        )
        thermals = {it.name: numbers for it, numbers in study.system.of_kind(Thermal)}
        self.assertEqual(list(thermals), ["coal", "gas, old", "oil"])
        gas = thermals["gas, old"]
        self.assertEqual((gas.at("maximum", 1, "peak"), gas.at("availability", 2), gas.tiers("cost")[0].cost.at(1, "base")), (10, F(1, 2), 4))
        (up, numbers), (down, _) = study.system.of_kind(Reservoir)
        self.assertEqual((up.downstream, up.spilled, down.downstream, down.spilled), ("down", None, None, As.TURBINED))
        self.assertEqual(numbers.at("turbine", 1, "peak"), 10 * 372 * F(36, 10000))


class Times(StudyFolder):
    def calendar(self, text):
        self.write(f"[calendar]\n{text}\n[bus.b]\n")
        return self.study().calendar

    def test_months(self):
        found = self.calendar("start = 2027-12-01\nstages = 4")
        self.assertEqual([it.isoformat() for it in found.dates], ["2027-12-01", "2028-01-01", "2028-02-01", "2028-03-01"])
        self.assertEqual([int(it) for it in found.hours], [744, 744, 696, 744])
        self.assertEqual((found.name(3), found.steps_in_a_year), ("February 2028", 12))

    def test_weeks(self):
        found = self.calendar('start = 2026-12-28\nstages = 2\nstep = "week"')
        self.assertEqual((found.dates[1], found.hours, found.name(1)), (datetime.date(2027, 1, 4), (168, 168), "week of 28 December 2026"))

    def test_lengths_of_their_own(self):
        found = self.calendar("start = 2026-12-31\nstages = 3\nhours = [12, 36.5, 24]")
        self.assertEqual([it.isoformat() for it in found.dates], ["2026-12-31", "2026-12-31", "2027-01-02"])
        self.assertEqual((found.hours[1], found.name(2), found.steps_in_a_year), (F(73, 2), "31 December 2026, 36.5 h", None))

    def test_a_study_without_a_title_is_called_as_its_folder(self):
        self.write("[calendar]\nstart = 2026-01-01\nstages = 1\n[bus.b]\n")
        self.assertEqual((self.study().title, self.study().money), (self.folder.resolve().name, "money"))

    def test_resolutions(self):
        self.edited()
        found = Resolution("0.5", "0.25", 2, "0.001").of(self.study().model)
        self.assertEqual(found, {"volume:lake": "0.5", "turbined:lake": "0.5", "spilled:lake": "0.5", "generation:gas": "0.25", "cost": 2})
        self.edited(("[bus.city]", "[resolution]\nvolume = 0.5\n[bus.city]"))
        self.assertEqual(self.study().compiled.scales.states, {"volume:lake": 2})


@needs_numpy
@needs_scipy
class Records(StudyFolder):
    def study_of(self, inflow, start="2026-04-01", **files):
        lake = "[reservoir.lake]\nmaximum = 9\ninitial = 1\nspill = 9999\ninflow = { random = \"lake\" }\n"
        wind = "[bus.b]\n[renewable.ridge]\nbus = \"b\"\navailable = { random = \"wind\" }\n"
        self.write(f"[calendar]\nstart = {start}\nstages = 2\n[inflow]\n{inflow}\n{lake}{wind}", **files)
        return self.study()

    def test_records_side_by_side(self):
        first = "year,month,lake,unused\n" + "".join(f"{year},{month},{month},9\n" for year in (1990, 1991) for month in TWELVE)
        second = "year,month,wind\n" + "".join(f"{year},{month},{year - 1900 + month}\n" for year in (1991, 1992) for month in TWELVE)
        study = self.study_of(
            'records = [{ file = "a.csv", unit = "m3/s" }, { file = "b.csv", unit = "as it is" }]\nresolution = 0.0001', a_csv=first, b_csv=second,
        )
        # 4 and 5 m3/s over 30 and 31 days; the year 1991 alone is in both
        outcomes = [study.system.outcomes_of(stage) for stage in (1, 2)]
        self.assertEqual(outcomes, [[(1, {"lake": F("10.368"), "wind": 95})], [(1, {"lake": F("13.392"), "wind": 96})]])
        self.assertEqual(study.inflow.notes, ("of two records the years 1991 to 1991 are taken, which both have",))
        self.assertEqual([it.step for it in study.inflow.made.stages], [4, 5])

    def test_a_start_and_a_resolution(self):
        record = "year,step,lake,wind\n" + "".join(f"{1990 + at // 4},{at % 4 + 1},{at % 4 + 0.26},{at}\n" for at in range(12))
        study = self.study_of('record = "a.csv"\nstart = 4\nresolution = 0.5', a_csv=record)
        self.assertEqual([it.step for it in study.inflow.made.stages], [4, 1])
        self.assertEqual({float(values["lake"]) for _, values in study.system.outcomes_of(1)}, {3.0, 3.5})

    def test_outcomes_of_a_file(self):
        study = self.study_of('method = "listed"\nfile = "o.csv"', o_csv="stage,weight,wind,lake,more\n2,1,5,6,0\n1,1/3,1,2,0\n1,2,3,4.5,0\n")
        self.assertEqual(study.system.outcomes_of(1), [(F(1, 3), {"lake": 2, "wind": 1}), (2, {"lake": F(9, 2), "wind": 3})])
        self.assertEqual(study.system.outcomes_of(2), [(1, {"lake": 6, "wind": 5})])

    def test_partial_years(self):
        record = "year,month,lake,wind\n" + "".join(f"{1990 + at // 12},{at % 12 + 1},1,2\n" for at in range(30))
        study = self.study_of('record = "a.csv"\npartial_years = "leave out"', a_csv=record)
        self.assertEqual(len(study.system.outcomes_of(1)), 2)


if __name__ == "__main__":
    unittest.main()
