"""Parts of the report by themselves: numbers as they are written, ticks of axes, years of a calendar, sums over parts of a file."""
import unittest
from datetime import date, timedelta

from report_support import UPPER_VOLUME, ReportFolder, needs_numpy, needs_pandas

from hydroplan.report.drawing import date_ticks, round_ticks
from hydroplan.report.formats import decimals_for, energy_unit, money_unit, number, rounded_down, rounded_up, share
from hydroplan.report.folder import Stage, Units, years_of

EURO = Units("EUR", 1.0, "MWh", "hm3", "MW")


class Numbers(unittest.TestCase):
    def test_bounds_stay_bounds(self):
        self.assertEqual((rounded_down(1.239, 2), rounded_up(1.231, 2)), ("1.23", "1.24"))
        self.assertEqual((rounded_down(-1.231, 2), rounded_up(-1.239, 2)), ("-1.24", "-1.23"))

    def test_numbers(self):
        self.assertEqual((number(1234567.891, 1), number(None, 2), number(float("nan"), 2), number(-0.001, 2)), ("1,234,567.9", "–", "–", "0.00"))
        self.assertEqual([decimals_for(it) for it in ([], [0], [1234.5], [12.3, 1], [0.0123], [None, 99999])], [0, 0, 0, 2, 5, 0])

    def test_shares_do_not_hide_what_is_rare(self):
        self.assertEqual([share(it) for it in (0, 0.0004, 0.034, 0.25, 0.996, 1, None)], ["0 %", "<0.1 %", "3.4 %", "25 %", ">99 %", "100 %", "–"])

    def test_units(self):
        names = [money_unit(EURO, [it]).name for it in (9_999, 12_000, -34e6, 5e7, 2e10)]
        self.assertEqual(names, ["EUR", "thousand EUR", "million EUR", "million EUR", "billion EUR"])
        thousands = money_unit(Units("EUR", 1000.0, "MWh", "hm3", "MW"), [50_000])
        self.assertEqual((thousands.name, thousands.of(50_000)), ("million EUR", 50))
        self.assertEqual([energy_unit(EURO, [it]).name for it in (99_999, 120_000, 1.2e8)], ["MWh", "GWh", "TWh"])


class Axes(unittest.TestCase):
    def test_round_ticks(self):
        self.assertEqual(round_ticks(0, 97, 5), [0, 20, 40, 60, 80])
        self.assertEqual([round(it, 9) for it in round_ticks(-0.3, 0.3, 6)], [-0.3, -0.2, -0.1, 0, 0.1, 0.2, 0.3])

    def test_dates(self):
        months = date_ticks(date(2026, 10, 1), date(2027, 10, 1), 240)
        self.assertEqual([(above, below) for _, above, below in months], [("Oct", "2026"), ("Jan", "2027"), ("Apr", ""), ("Jul", ""), ("Oct", "")])
        days = date_ticks(date(2026, 1, 28), date(2026, 2, 4), 400)
        self.assertEqual(
            [(above, below) for _, above, below in days][:5], [("28", "Jan 2026"), ("29", ""), ("30", ""), ("31", ""), ("1", "Feb 2026")],
        )
        self.assertEqual([above for _, above, _ in date_ticks(date(2026, 1, 1), date(2046, 1, 1), 300)], ["2030", "2035", "2040", "2045"])

    def test_long_and_short_spans_have_ticks(self):
        for days in (1, 7, 45, 46, 200, 400, 1100, 4000, 30000):
            ticks = date_ticks(date(2026, 1, 1), date(2026, 1, 1) + timedelta(days=days), 300)
            self.assertTrue(1 <= len(ticks) <= 8, (days, len(ticks)))


class Years(unittest.TestCase):
    def months(self, first, count):
        starts = [date(2026 + (first - 1 + it) // 12, (first - 1 + it) % 12 + 1, 1) for it in range(count + 1)]
        return [Stage(place + 1, start, end, "", {}) for place, (start, end) in enumerate(zip(starts, starts[1:]))]

    def test_calendar_years(self):
        found = years_of(self.months(1, 30))
        expected = [("2026", 12, True), ("2027", 12, True), ("Jan 2028 to Jun 2028", 6, False)]
        self.assertEqual([(it.name, len(it.stages), it.is_whole) for it in found], expected)

    def test_water_years(self):
        self.assertEqual([it.name for it in years_of(self.months(10, 24))], ["Oct 2026 to Sep 2027", "Oct 2027 to Sep 2028"])

    def test_weeks_go_to_the_year_of_their_middle(self):
        starts = [date(2026, 1, 5) + timedelta(days=7 * it) for it in range(105)]
        found = years_of([Stage(place + 1, start, end, "", {}) for place, (start, end) in enumerate(zip(starts, starts[1:]))])
        # the week from 2027-01-04 to 2027-01-10 has its middle on the 7th, past the 5th
        self.assertEqual([len(it.stages) for it in found], [52, 52])


@needs_numpy
@needs_pandas
class Sums(ReportFolder):
    def sums_of(self, rows, turned):
        """The sums over parts of so many rows, perhaps the last part first, with room for three scenarios at first."""
        from hydroplan.report.shown_study import Sums as SumsOfDecisions
        from hydroplan.report.folder import Results

        results = Results(self.results)
        sums = SumsOfDecisions(results.summary, years_of(results.summary.stages))
        sums.room = 3
        sums.there, sums.inflow, sums.volume = sums.there[:3], sums.inflow[:3], sums.volume[:3]
        parts = list(results.parts("decisions", rows_at_once=rows))
        for part in reversed(parts) if turned else parts:
            sums.add(part)
        return sums

    def test_parts_of_any_length_and_order_give_the_same_sums(self):
        for rows, turned in ((1_000_000, False), (7, False), (31, True)):
            with self.subTest(rows=rows, turned=turned):
                sums = self.sums_of(rows, turned)
                there = sums.there
                self.assertEqual(list(there.nonzero()[0]), [1, 2, 3, 4])
                # by stage over all scenarios; by scenario and year; by scenario and stage with one hm3 of the lower lake
                self.assertEqual([round(it, 6) for it in sums.of_stage["coal", "generation"]], [1200, 1200, 800, 800])
                self.assertEqual(sums.of_year["coal", "generation"][there].tolist(), [[1200, 400], [400, 400], [400, 400], [400, 400]])
                self.assertEqual(sums.inflow[there].tolist(), [[11, 21, 31, 41], [41, 31, 21, 11], [21] * 4, [51, 51, 11, 11]])
                self.assertEqual(sums.volume[there].tolist(), [[it + 12 for it in line] for line in UPPER_VOLUME])
                self.assertEqual(sums.first_near_empty["upper"][there].tolist(), [1, 2, 1, 4])
                self.assertEqual(sums.near_empty["upper"].tolist(), [0, 2, 1, 1])
                self.assertEqual(sums.occurs["upper", "missing_outflow"][there].tolist(), [False, False, True, False])


if __name__ == "__main__":
    unittest.main()
