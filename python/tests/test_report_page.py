"""The page of a small study: each number is worked out by hand from the tables of report_support."""
import tempfile
import unittest
from pathlib import Path

from report_support import heights, needs_jinja2, needs_numpy, needs_pandas, points, small_page


@needs_jinja2
@needs_numpy
@needs_pandas
class SmallPage(unittest.TestCase):
    """The page with all files there; made once for each class."""

    @classmethod
    def setUpClass(cls):
        with tempfile.TemporaryDirectory() as folder:
            cls.made = small_page(Path(folder) / "results")

    def near(self, found, expected, within):
        self.assertEqual(len(found), len(expected), found)
        for one, other in zip(found, expected):
            self.assertAlmostEqual(one, other, delta=within)


class Cost(SmallPage):
    def test_bounds_are_rounded_to_the_side_on_which_they_hold(self):
        rows = self.made.table("Between what the expected cost lies")
        # 1000.2567 down and 1100.0012 up, to six figures
        self.assertEqual(rows["at least"][0], "1,000.25")
        self.assertEqual(rows["at most"][0], "1,100.01")
        self.assertEqual(rows["mean of the plan"][0], "1,050.00 ± 60.00")
        self.assertEqual(rows["mean less bound"][0], "49.74")
        self.assertIn("4.97 per cent", rows["mean less bound"][1])

    def test_the_top_says_it_in_words(self):
        words = self.made.top.all("section", "short")[0].text
        self.assertIn("This study plans 2 reservoirs, 1 thermal, 1 renewable, 1 export and 2 buses over 4 stages", words)
        self.assertIn("from summer 2026 to winter 2027.", words)
        self.assertIn("No plan has an expected cost below 1,000.25 EUR: that is certified.", words)
        self.assertIn("costs 1,050.00 ± 60.00 EUR on average, with 95 % confidence: that is estimated from 4 scenarios.", words)
        # 1050 + 60 - 1000.2567, and its share of 1000.2567
        self.assertIn("cheaper than this one by at most 109.7 EUR (10.97 per cent of the bound), with that confidence", words)

    def test_the_way_of_the_bound(self):
        drawing = self.made.drawing("How the bound rose while the study was trained", "All iterations")
        # a step to the right of each iteration, none behind the last
        self.near(heights(drawing, "certified-line"), [500, 500, 900, 900, 990, 990, 1000.25, 1000.25], 4)
        self.near(heights(drawing, "estimate-bar"), [1010, 1190], 4)
        self.near(heights(drawing, "estimate-bar", 1), [990, 1110], 4)
        self.near(sorted(set(round(it) for it in heights(drawing, "estimate-band"))), [990, 1110], 4)
        rows = self.made.rows("Iterations at which scenarios were simulated, and the last one")
        self.assertEqual(rows, [["2", "900.00", "1,100.00", "90.00", "200.00", "0.2"], ["4", "1,000.25", "1,050.00", "60.00", "49.75", "0.4"]])

    def test_costs_of_scenarios(self):
        # 1000 thrice and 1200: mean 1050, deviation 100; quantiles between the two last are 1000 + 200 (4 parts - 3 + ..)
        row = self.made.table("Costs of scenarios")["4"]
        self.assertEqual(row, ["1,000", "1,000", "1,000", "1,000", "1,050", "1,170", "1,200", "1,050", "100", "1,200"])
        bars = self.made.drawing("How the costs of scenarios lie").all("rect", "bar")
        self.assertEqual([it.text.partition(" ")[0] for it in bars], ["3", "1"])

    def test_costs_by_year(self):
        # 700, 300, 500, 100 and 300, 700, 500, 1100
        rows = self.made.table("Costs by year")
        self.assertEqual(rows["Mar 2026 to Feb 2027"], ["400", "130", "400", "670"])
        self.assertEqual(rows["Mar 2027 to Feb 2028"], ["650", "330", "600", "1,040"])


class Water(SmallPage):
    def test_all_reservoirs_together(self):
        # upper and 12: medians of 50 60 70 90, of 3 5 40 80, of 5 30 30 70, of 0 20 30 60
        drawing = self.made.drawing("Water in all reservoirs together")
        self.near(heights(drawing, "median"), [77, 34.5, 42, 37], 0.5)
        self.near(heights(drawing, "limit"), [10] * 4, 0.5)
        self.near(heights(drawing, "limit", 1), [120] * 4, 0.5)

    def test_fans_of_reservoirs_stand_at_the_ends_of_stages(self):
        drawing = self.made.drawing("Water by reservoir", "upper")
        self.near(heights(drawing, "median"), [65, 22, 30, 25], 0.5)
        self.near(heights(drawing, "extreme"), [50, 3, 5, 0], 0.5)
        self.near(heights(drawing, "extreme", 1), [90, 80, 70, 60], 0.5)
        self.near(heights(drawing, "band-1"), [87, 74, 64, 55, 3, 9, 3, 52], 0.5)
        self.near(heights(drawing, "band-2"), [84, 68, 58, 51, 6, 12, 4, 53], 0.5)
        self.near(heights(drawing, "band-3"), [75, 50, 40, 37, 15, 24, 4, 57], 0.5)
        xs = [x for x, _ in points(drawing.all(look="median")[0])]
        # of 731 days from 2026-03-01 to 2028-03-01 the stages end after 184, 365, 549 and 731
        self.near([(it - 58) / (xs[-1] - 58) for it in xs], [184 / 731, 365 / 731, 549 / 731, 1], 0.002)

    def test_near_empty(self):
        rows = self.made.table("When a reservoir comes near empty")
        self.assertEqual(rows["upper"], ["75 %", "winter 2026", "winter 2026", "winter 2026", "50 %"])
        self.assertEqual(rows["lower"], ["0 %", "–", "–", "–", "–"])
        by_date = self.made.table("Share of scenarios near empty, by date")
        self.assertEqual([by_date[it][0] for it in ("summer 2026", "winter 2026", "summer 2027", "winter 2027")], ["0 %", "50 %", "25 %", "25 %"])
        cells = self.made.drawing("How many of 100 scenarios are near empty at the end of each stage").all("rect")
        self.assertEqual([it.text for it in cells], ["0 %", "50 %", "25 %", "25 %", "0 %", "0 %", "0 %", "0 %"])
        answer = self.made.top.all("article")[1].text
        self.assertIn("When does the lake empty? End of winter 2026", answer)
        # 34.5 less 10 of a range of 110
        self.assertIn("(22 % of their range)", answer)
        self.assertIn("The largest one, upper, is near empty in at most 50 % of scenarios, at the end of winter 2026.", answer)

    def test_the_lowest_of_each_year(self):
        rows = self.made.table("When each reservoir is lowest")
        self.assertEqual(rows["upper"], ["winter 2026", "22.0", "22 %", "3.0", "winter 2027", "25.0", "25 %", "3.0"])
        self.assertEqual(rows["lower"], ["summer 2026", "12.0", "20 %", "12.0", "summer 2027", "12.0", "20 %", "12.0"])

    def test_what_water_is_worth_in_march(self):
        rows = self.made.table("What water is worth in March")
        self.assertEqual(rows["upper"], ["80.0", "40.0", "20.0", "81.0", "41.0", "21.0"])
        self.assertEqual(rows["lower"], ["7.0", "7.0", "3.0", "6.0", "6.0", "2.0"])
        answer = self.made.top.all("article")[2].text
        self.assertIn("What is water worth in March? 40.0 EUR/hm3", answer)
        self.assertIn("80.0 when it is low, 20.0 when it is high. Later 41.0 in summer 2027.", answer)
        self.assertEqual(self.made.table("What water of upper is worth, by date")["summer 2027"], ["10.0", "81.0", "50.0", "41.0", "90.0", "21.0"])

    def test_curves_of_water_values(self):
        drawing = self.made.drawing("What water is worth by how much there is", "upper")
        # the stages of the middle one of two years that the file has: summer 2027 alone
        self.near(heights(drawing, "line-1"), [91, 81, 41, 21, 11], 0.5)
        over_time = self.made.drawing("What water is worth over time", "upper")
        self.near([it for look in ("line-1", "line-2", "line-3") for it in heights(over_time, look)], [80, 81, 40, 41, 20, 21], 0.5)


class DryYears(SmallPage):
    def test_costs_of_dry_mean_and_wet_years(self):
        rows = self.made.table("What a dry year costs against a mean and a wet one")
        # of the first year the driest of four is scenario 1, with 10 + 20 + 2, and the wettest scenario 4, with 50 + 50 + 2
        self.assertEqual(rows["Mar 2026 to Feb 2027, dry"], ["1", "32.0", "700", "–", "300", "1,000", "-50"])
        self.assertEqual(rows["Mar 2026 to Feb 2027, mean"][:3], ["4", "62.0", "400"])
        self.assertEqual(rows["Mar 2026 to Feb 2027, wet"], ["1", "102.0", "100", "–", "-300", "1,200", "150"])
        # of the second year scenario 4 with 22 and scenario 1 with 72; nothing comes after
        self.assertEqual(rows["Mar 2027 to Feb 2028, dry"], ["1", "22.0", "1,100", "–", "450", "1,100", "450"])
        self.assertEqual(rows["Mar 2027 to Feb 2028, wet"], ["1", "72.0", "300", "–", "-350", "300", "-350"])
        # 700, 300, 500, 100: deviation 258.199, half of the interval 1.959964 · 258.199 / 2
        self.assertEqual(rows["Mar 2026 to Feb 2027, mean"][3], "253")

    def test_bars_from_dry_to_wet(self):
        drawing = self.made.drawing("Costs from a dry to a wet year", "Mar 2027 to Feb 2028")
        # scenarios 4, 2, 3, 1 in the order of their inflow
        self.near([heights(drawing, "whisker", it)[0] for it in range(4)], [1100, 700, 500, 300], 6)
        self.near(heights(drawing, "level"), [650, 650], 6)

    def test_energy_of_dry_years(self):
        rows = self.made.table("Where the energy comes from in a dry, a mean and a wet year")
        # dry: scenario 1 in the first year, 4 in the second; wet: 4 and 1
        self.assertEqual(rows["water (all turbines)"], ["300.0", "525.0", "600.0", "-225.0"])
        self.assertEqual(rows["coal"], ["800.0", "500.0", "400.0", "300.0"])
        # 40 in scenario 1 of the first year, half of it as the mean of two years; 10 over all scenarios
        self.assertEqual(rows["missing (deficit)"], ["20.0", "5.0", "0.0", "15.0"])
        self.assertEqual(rows["to cable"], ["0.0", "-2.5", "0.0", "2.5"])


class Energy(SmallPage):
    def test_the_stack_and_the_demand(self):
        drawing = self.made.drawing("Energy by source")
        # from below: ridge 80, water 225 225 300 300, coal 300 300 200 200, deficit 10 in the first stage
        tops = [80, 80, 80, 80, 80, 80, 80, 80, 305, 305, 305, 305, 380, 380, 380, 380, 605, 605, 605, 605, 580, 580, 580, 580]
        areas = [heights(drawing, "layer", it) for it in range(4)]
        self.near([it for area in areas[:3] for it in area[:8]], tops, 4)
        self.near(areas[3][:4], [615, 615, 605, 605], 4)
        self.near(heights(drawing, "demand"), [470.8, 470.8, 467.2, 467.2, 470.8, 470.8, 468.4, 468.4], 4)
        self.near(heights(drawing, "source-export-1")[4:6], [-5, -5], 4)

    def test_energy_by_year(self):
        rows = self.made.table("Energy by source and year, mean over scenarios")
        expected = {
            "ridge": [160, 160], "water (all turbines)": [450, 600], "coal": [600, 400], "missing (deficit)": [10, 0], "to cable": [0, -5],
            "demand": [938, 939.2],
        }
        self.assertEqual({name: [float(it) for it in row] for name, row in rows.items()}, expected)

    def test_buses(self):
        drawing = self.made.drawing("Energy by source at each bus", "south")
        self.near(heights(drawing, "source-renewable-1")[:2], [80, 80], 2)
        self.near(heights(drawing, "demand")[:2], [170.8, 170.8], 2)
        self.assertEqual(drawing.all(look="source-thermal-1"), [])

    def test_prices(self):
        drawing = self.made.drawing("Prices by bus", "north, peak")
        self.near(heights(drawing, "median"), [30] * 5, 1)
        rows = self.made.table("Prices by year")
        # (1000 · 50 + 1000 · 60 + 20 · 6760) / 8760 and (1000 · 70 + 1000 · 80 + 20 · 6784) / 8784
        self.assertEqual(rows["north, all blocks"], ["28", "100", "33", "100"])
        self.assertEqual(rows["north, peak"], ["55", "100", "75", "100"])
        self.assertEqual(rows["south, base"], ["10", "50", "10", "50"])

    def test_what_is_missing(self):
        rows = self.made.table("Energy that is missing, by year")
        self.assertEqual(rows["south"], ["10.0", "25 %", "0.0", "0 %"])
        self.assertEqual(rows["north"], ["0.0", "0 %", "0.0", "0 %"])
        self.assertEqual(self.made.rows("When energy is missing"), [["summer 2026", "south", "peak", "25 %", "10.00", "34.00", "40.00"]])
        # 2 hm3 in one of four scenarios
        self.assertEqual(self.made.rows("Needs that are missed"), [["upper", "outflow", "0.500", "25 %", "winter 2026"]])


class Rest(SmallPage):
    def test_the_system(self):
        rows = self.made.table("Elements")
        self.assertEqual(rows["coal"], ["thermal", "north", "0", "40.0 to 50.0", "MW"])
        self.assertEqual(rows["lower"], ["reservoir", "south", "10", "20", "hm3"])
        done = {tuple(it[:2]): it[3:] for it in self.made.rows("What each element does, by year")}
        self.assertEqual(done["upper", "inflow"], ["60.00", "40.00"])
        # the mean over the ends of stages: of 67.5 and 32, and of 33.75 and 27.5, whose half goes to the even digit
        self.assertEqual(done["upper", "volume"], ["49.75", "30.62"])
        self.assertEqual(done["coal", "generation"], ["600.0", "400.0"])

    def test_how_it_was_made(self):
        rows = self.made.table("The study")
        self.assertEqual(rows["calendar"], ["4 stages, 2026-03-01 to 2028-03-01"])
        self.assertEqual(rows["stopped because"], ["enough"])
        self.assertEqual(rows["simulated stages without an answer of the solver"], ["1"])
        self.assertEqual(rows["programs of prices without a solution"], ["2"])
        self.assertIn("Prices were looked for in 3 scenarios.", self.made.top.text)
        self.assertEqual(rows["digest of the data"], ["abc"])
        self.assertEqual(self.made.rows("Rows that simulated decisions miss"), [["winter 2026", "4", "1", "0.5"]])
        lines = [it.text for it in self.made.top.all("div", "listing")[0].all("li")]
        self.assertEqual(lines, ["inflow of upper: rounded by at most 0.05 hm3", "all prices: exact"])


if __name__ == "__main__":
    unittest.main()
