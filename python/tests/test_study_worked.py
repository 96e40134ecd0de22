"""Studies whose least cost is found by hand, or known from elsewhere, run whole."""
import unittest

from model_support import needs_numpy
from study_support import StudyFolder
from extensive_plants import needs_scipy



@needs_numpy
@needs_scipy
class Worked(StudyFolder):
    def cost(self, **chosen):
        """The least cost, between what is certified from both sides."""
        found = self.results()
        self.assertAlmostEqual(found["certified"]["bound"], found["upper"]["cost"], 4)
        return found["certified"]["bound"]

    def test_the_tutorial(self):
        # Dowson and Kapelevich (2021): 25000 / 3
        self.write()
        self.assertAlmostEqual(self.cost(), 25000 / 3, 4)
        self.assertEqual([row["iteration"] for row in self.rows("bounds.csv")], [str(at) for at in range(1, 21)])

    def test_a_discount(self):
        # no lake: 50, 100 and 150 a MWh for 150 MWh, at 1, 0.8 and 0.64
        self.edited(
            ("[reservoir.lake]", "[reservoir.lake]\nminimum = 0"), ("maximum = 200", "maximum = 0"), ("initial = 200", "initial = 0"),
            ("[bus.city]", "[discount]\nyearly_rate = 0.25\nstages_per_year = 1\n\n[bus.city]"), ("turbine = 150\n", ""),
        )
        self.assertAlmostEqual(self.cost(), 150 * (50 + 80 + 96), 3)
        prices = {row["stage"]: float(row["p50"]) for row in self.rows("price_quantiles.csv")}
        self.assertEqual({stage: round(price, 4) for stage, price in prices.items()}, {"1": 50, "2": 100, "3": 150})

    def test_water_values_and_prices(self):
        # in the last stage a unit of water saves a MWh of gas at 150 while less than 150 comes in and is stored
        self.write()
        self.results()
        last = {float(row["volume"]): float(row["value"]) for row in self.rows("water_values.csv") if row["stage"] == "3"}
        self.assertEqual((round(last[0.0], 4), round(last[200.0], 4)), (150, 0))
        prices = {float(row["greatest"]) for row in self.rows("price_quantiles.csv") if row["stage"] == "3"}
        self.assertEqual(max(prices), 150)

    def test_values_and_prices_are_not_discounted(self):
        # costs of the third stage count 0.64, and a unit of water saves a MWh of gas at 150 there all the same
        self.edited(("[bus.city]", "[discount]\nyearly_rate = 0.25\nstages_per_year = 1\n\n[bus.city]"))
        self.results()
        last = {float(row["volume"]): float(row["value"]) for row in self.rows("water_values.csv") if row["stage"] == "3"}
        self.assertAlmostEqual(last[0.0], 150, 3)
        self.assertEqual({round(float(row["greatest"])) for row in self.rows("price_quantiles.csv") if row["stage"] == "3"}, {150})

    def test_prices_over_a_line(self):
        # 9 MWh arrive of 10, which cost 5 each: 50 / 9 a MWh there
        self.write("""
[calendar]
start = 2026-01-05
stages = 2
step = "week"
[bus.a]
[bus.b]
demand = 9
[thermal.coal]
bus = "a"
maximum = 100
cost = 5
[line.l]
source = "a"
target = "b"
maximum = 20
arriving = 0.9
[stop]
iterations = 2
[simulation]
scenarios = 2
""")
        self.assertAlmostEqual(self.results()["certified"]["bound"], 2 * 168 * 50, 2)
        prices = {(row["bus"], row["stage"]): round(float(row["mean"]), 6) for row in self.rows("price_quantiles.csv")}
        self.assertEqual(prices, {("a", "1"): 5, ("a", "2"): 5, ("b", "1"): 5.555556, ("b", "2"): 5.555556})

    def test_months_blocks_and_an_inflow_in_flows(self):
        # January: 744 h, a quarter of it peak. 10 m3/s are 26.784 hm3 of 100 MWh: 2678.4 MWh less of 186 * 20 + 558 * 10 at 40 in the peak
        self.write("""
[calendar]
start = 2026-01-01
stages = 1
[blocks]
peak = 0.25
base = "rest"
[bus.b]
demand = { peak = 20, base = 10 }
[thermal.t]
bus = "b"
maximum = 30
cost = { peak = 40, base = 30 }
[reservoir.r]
bus = "b"
maximum = 0
initial = 0
spill = 99
inflow = { flow = 10 }
turbine = { flow = 100 }
productivity = { flow = 0.36 }
[stop]
iterations = 5
[simulation]
scenarios = 2
""")
        self.assertAlmostEqual(self.results()["certified"]["bound"], (186 * 20 - 2678.4) * 40 + 558 * 10 * 30, 3)
        values = {(row["block"], row["quantity"]): float(row["value"]) for row in self.rows("decisions.csv") if row["element"] == "r"}
        self.assertAlmostEqual(values["", "inflow"], 26.784)
        self.assertAlmostEqual(values["peak", "generation"], 2678.4)
        self.assertEqual(values["base", "turbined"], 0)

    def test_a_maximum_of_a_study_is_that_of_its_tables(self):
        # coal of 30 at 20 and gas of 90 at 70, of which half is looked after in the second stage: 30 are missing there at 500
        self.write(
            """
[calendar]
start = 2026-01-01
stages = 2
hours = [1, 2]
[tables]
thermal = "thermals.csv"
[bus.b]
demand = 105
deficit = 500
""", thermals_csv="name,bus,maximum,cost,availability.at.1\ncoal,b,30,20,1\n",
        )
        self.assertEqual(self.run_study()[0], 1)  # an availability for some stages alone is refused
        table = "name,bus,maximum,cost.1.size,cost.1.cost,cost.2.size,cost.2.cost\ncoal,b,,10,20,20,20\ngas,b,,50,70,40,70\n"
        (self.folder / "thermals.csv").write_text(table, encoding="utf-8")
        self.assertAlmostEqual(self.cost(), 3 * (30 * 20 + 75 * 70), 4)

    def test_a_drought_with_deficits(self):
        # 150 of demand, 100 of gas at 50, 100 and 150, 50 missing at 1000 but for what the empty lake brings; nothing comes
        self.edited(
            ("outcomes = [{ lake = 0 }, { lake = 50 }, { lake = 100 }]", "outcomes = [{ lake = 0 }]"), ("initial = 200", "initial = 0"),
            ("demand = 150", "demand = 150\ndeficit = [{ size = 0.1, cost = 1000 }, { size = 0.9, cost = 2000 }]"),
            ("maximum = 150", "maximum = 100"),
        )
        self.assertAlmostEqual(self.cost(), 100 * 300 + 3 * (15 * 1000 + 35 * 2000), 3)
        rows = self.rows("deficits.csv")
        self.assertEqual([(row["share_of_scenarios"], row["mean"], row["greatest"]) for row in rows], [("1", "50", "50")] * 3)

    def test_names_with_odd_characters(self):
        city, lake, gas = 'north, "old"', "50% of it: no", "line\nbreak ünï"
        self.edited(
            ("[bus.city]", f"[bus.{self.quoted(city)}]"), ("[thermal.gas]", f"[thermal.{self.quoted(gas)}]"),
            ("[reservoir.lake]", f"[reservoir.{self.quoted(lake.replace(':', ''))}]"), ('bus = "city"', f"bus = {self.quoted(city)}"),
            ('bus = "city"', f"bus = {self.quoted(city)}"),
        )
        self.assertAlmostEqual(self.cost(), 25000 / 3, 4)
        self.assertEqual({row["element"] for row in self.rows("decisions.csv")}, {lake.replace(":", ""), gas})
        self.assertEqual({row["bus"] for row in self.rows("price_quantiles.csv")}, {city})

    def quoted(self, name):
        """A name as TOML has it."""
        return '"' + name.replace("\\", "\\\\").replace('"', '\\"').replace("\n", "\\n") + '"'

    def test_costs_are_those_of_the_decisions(self):
        self.write()
        found = self.results()
        prices = {"1": 50, "2": 100, "3": 150}
        rows = [row for row in self.rows("decisions.csv") if row["element"] == "gas"]
        burnt = {(row["scenario"], row["stage"]): prices[row["stage"]] * float(row["value"]) for row in rows}
        costs = {(row["scenario"], row["stage"]): float(row["cost"]) for row in self.rows("costs.csv")}
        self.assertEqual(len(costs), 60)
        for key, cost in costs.items():
            self.assertAlmostEqual(cost, burnt[key], 3)
        self.assertAlmostEqual(found["estimated"]["mean"], sum(costs.values()) / 20, 3)
        self.assertEqual([row["missed"] for row in self.rows("residuals.csv")], ["0"] * 3)

    def test_decisions_of_some_scenarios_alone(self):
        self.edited(("scenarios = 20", "scenarios = 20\ndecisions = 3\nprices = 0"))
        self.results()
        self.assertEqual({row["scenario"] for row in self.rows("decisions.csv")}, {"1", "2", "3"})
        self.assertEqual(len(self.rows("costs.csv")), 60)
        self.assertEqual(self.rows("price_quantiles.csv"), [])

    def test_classes_and_an_autoregression(self):
        # the record swings between 40 and 60 without a chance: each river is 40, 60, 40 where the stages begin at its first step
        record = "year,step,lake\n" + "".join(f"{1990 + at // 2},{at % 2 + 1},{40 + 20 * (at % 2)}\n" for at in range(8))
        for method in ('method = "years"', 'method = "classes"\nclasses = 2', 'method = "autoregression"\nprevious = { lake = 60 }'):
            self.edited(
                ('method = "listed"\noutcomes = [{ lake = 0 }, { lake = 50 }, { lake = 100 }]', f'record = "record.csv"\n{method}'),
                ("initial = 200", "initial = 0"), record_csv=record,
            )
            # 140 come to 450 MWh; water is worth most in the last stage: 150 * (50 + 100 + 150) less 140 at 150
            self.assertAlmostEqual(self.results()["certified"]["bound"], 45000 - 140 * 150, 3)
            self.assertEqual([float(row["mean"]) for row in self.rows("storage_quantiles.csv")], [40, 100, 0])


if __name__ == "__main__":
    unittest.main()
