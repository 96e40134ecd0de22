"""Records of inflow from CSV: what is read, what is wrong by line and column, and units."""
import unittest
from fractions import Fraction as F

from inflow_support import Folder, record_of, two_stations
from hydroplan.errors import HydroplanError
from hydroplan.inflows import InflowError, RecordError, read_record


class Reading(Folder):
    def read(self, text, **chosen):
        return read_record(self.written(text), chosen.pop("unit", "hm3"), **chosen)

    def faults(self, text, **chosen):
        with self.assertRaises(RecordError) as caught:
            self.read(text, **chosen)
        return [str(it) for it in caught.exception.faults]

    def test_a_small_record(self):
        found = self.read("year,step,aure,bygd\n1981,1,1.5,2\n\n1982,2,-7e-1,8\n1981,2,3,4.25\n1982,1,5,6\n")
        self.assertEqual((found.stations, found.kind, found.years), (("aure", "bygd"), "step", (1981, 1982)))
        self.assertEqual((found.steps, found.unit), (2, "hm3"))
        self.assertEqual(found.values, (((F(3, 2), 2), (3, F(17, 4))), ((5, 6), (F(-7, 10), 8))))
        self.assertEqual(found.of_step(2), [(3, F(17, 4)), (F(-7, 10), 8)])
        self.assertEqual(found.pairs_of(2), [(0, (F(3, 2), 2), (3, F(17, 4))), (1, (5, 6), (F(-7, 10), 8))])
        self.assertEqual(found.pairs_of(1), [(1, (3, F(17, 4)), (5, 6))])
        self.assertEqual(found.mean(1, 0), F(13, 4))

    def test_ten_years_of_months(self):
        found = two_stations()
        self.assertEqual((found.kind, found.steps, found.years), ("month", 12, tuple(range(1981, 1991))))
        self.assertEqual((found.values[0][0], found.values[9][11]), ((F("65.39"), F("24.58")), (F("41.01"), F("15.09"))))

    def test_other_delimiters_and_a_mark_in_front(self):
        self.assertEqual(self.read("\ufeffYear;Step;a\n1;1;2\n", delimiter=";").values, (((2,),),))

    def test_values_double_rows_and_cells_by_line_and_column(self):
        self.assertEqual(self.faults("year,step,aure,bygd\n1981,1,1.5,2\n1981,2,x,3\n1981,2,4,\n1982,1,5\n19x2,0,NaN,1\n1982,2,1,1\n"), [
            "line 3, column 3: the value of aure is no number: 'x'",
            "line 4, column 1: year 1981, step 2 stands in line 3 already",
            "line 4, column 4: the value of bygd is missing",
            "line 5, column 4: the row has 3 values, and the header 4",
            "line 6, column 1: the year is no whole number: '19x2'",
            "line 6, column 3: the value of aure is no number: 'NaN'",
        ])
        self.assertEqual(self.faults("year,month,a\n1981,13,1\n"), [
            "line 1, column 1: there is no row", "line 2, column 2: the month 13 is not one of 1 to 12"])
        self.assertEqual(self.faults('year,step,a\n1981,1,"2\n'), ["line 3, column 1: no line of CSV: unexpected end of data"])

    def test_gaps_stand_at_the_row_in_front_of_them(self):
        self.assertEqual(self.faults("year,step,a\n1981,2,1\n1982,1,y\n1984,3,1\n"), [
            "line 2, column 2: year 1981, step 1 is missing in front of this row",
            "line 2, column 2: year 1981, step 3 is missing behind this row",
            "line 3, column 2: year 1982, step 2 to year 1984, step 2 are missing, 7 rows behind this row",
            "line 3, column 3: the value of a is no number: 'y'",
        ])
        self.assertEqual(self.faults("year,step,a\n1981,1,1\n", steps=3), [
            "line 2, column 2: year 1981, step 2 to year 1981, step 3 are missing, 2 rows behind this row"])

    def test_bytes_that_are_no_text(self):
        path = self.folder / "record.csv"
        path.write_bytes(b"year,step,a\n1981,1,\xff\n")
        with self.assertRaisesRegex(RecordError, "line 1, column 1: no line of CSV: 'utf-8' codec can't decode"):
            read_record(path, "hm3")

    def test_the_message_has_the_file_and_no_more_than_twenty_faults(self):
        with self.assertRaises(RecordError) as caught:
            self.read("year,step,a\n" + "".join(f"{year},1,x\n" for year in range(1900, 1930)))
        lines = str(caught.exception).splitlines()
        self.assertEqual((len(lines), lines[-1], len(caught.exception.faults)), (21, "and 10 more", 30))
        self.assertRegex(lines[0], r"record\.csv, line 2, column 3: ")

    def test_headers(self):
        for text, said in (
            ("jahr,monat,a,a\n1,1,1,1\n", [
                'line 1, column 1: the first column is "year", and not "jahr"',
                'line 1, column 2: the second column is "month", "week" or "step", and not "monat"',
                'line 1, column 4: the name "a" stands there twice',
            ]),
            ("year,month\n", ["line 1, column 3: there is no station"]),
            ("year,month,\n", ["line 1, column 3: the station has no name"]),
            ("", ["line 1, column 1: there is no row"]),
        ):
            self.assertEqual(self.faults(text), said)

    def test_partial_years(self):
        text = "year,step,a\n1981,2,1\n1982,1,2\n1982,2,3\n1983,1,4\n"
        found = self.read(text, partial_years="leave out")
        self.assertEqual((found.years, found.values), ((1982,), (((2,), (3,)),)))
        self.assertEqual(found.notes, (
            "left out: year 1981, which has steps 2 to 2 alone", "left out: year 1983, which has steps 1 to 1 alone"))
        self.assertEqual(len(self.faults(text)), 2)
        self.assertEqual(len(self.faults("year,step,a\n1981,1,1\n1981,3,1\n1982,1,1\n", partial_years="leave out")), 1)
        with self.assertRaisesRegex(InflowError, "has no whole year"):
            self.read("year,step,a\n1981,2,1\n", partial_years="leave out")

    def test_what_is_asked_for(self):
        with self.assertRaisesRegex(InflowError, 'the unit is "hm3" or "m3/s", and not \'cfs\''):
            self.read("", unit="cfs")
        with self.assertRaisesRegex(HydroplanError, 'partial_years is "refuse" or "leave out"'):
            self.read("", partial_years="yes")


class Units(Folder):
    def flows(self, kind, steps):
        rows = "".join(f"{year},{step},10\n" for year in (1983, 1984) for step in range(1, steps + 1))
        return read_record(self.written(f"year,{kind},a\n{rows}"), "m3/s")

    def test_months_by_the_calendar(self):
        # 10 m3/s over 31, 28 and 29 days of 86,400 s
        found = self.flows("month", 12).in_hm3()
        self.assertEqual(found.unit, "hm3")
        self.assertEqual([found.values[0][0][0], found.values[0][1][0], found.values[1][1][0]], [F("26.784"), F("24.192"), F("25.056")])

    def test_weeks_and_given_lengths(self):
        self.assertEqual(self.flows("week", 52).in_hm3().values[1][51], (F("6.048"),))
        self.assertEqual([it[0] for it in self.flows("step", 2).in_hm3(["182.5", 183]).values[0]], [F("157.68"), F("158.112")])
        self.assertEqual(self.flows("month", 12).in_hm3([30] * 12).values[1][1], (F("25.92"),))

    def test_volumes_stay(self):
        record = two_stations()
        self.assertIs(record.in_hm3(), record)

    def test_refusals(self):
        with self.assertRaisesRegex(InflowError, "numbered steps have no lengths"):
            self.flows("step", 2).in_hm3()
        for days in ([1], [1, 0]):
            with self.assertRaisesRegex(InflowError, "2 lengths in days are expected"):
                self.flows("step", 2).in_hm3(days)


class Stations(unittest.TestCase):
    def test_some_of_them(self):
        record = record_of([(1, 2, 3)], stations="abc")
        self.assertEqual((record.only(["c", "a"]).stations, record.only(["c", "a"]).values), (("c", "a"), (((3, 1),),)))
        for names, said in (
            (["d"], 'there is no station "d": the record has a, b, c'), (["a", "a"], "different stations"), ([], "at least one"),
        ):
            with self.assertRaisesRegex(InflowError, said):
                record.only(names)


if __name__ == "__main__":
    unittest.main()
