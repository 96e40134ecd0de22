"""Spellings of a study that mean the same, and some that mean two things and are refused."""
import unittest

from model_support import needs_numpy
from study_support import LAKE, StudyFolder
from extensive_plants import needs_scipy
from hydroplan.study import StudyError

LISTED = 'method = "listed"\noutcomes = [{ lake = 0 }, { lake = 50 }, { lake = 100 }]'
COST = "cost = [50, 100, 150]"
RECORD = "year,step,lake\n" + "".join(f"{year},{step},{step}\n" for year in (2001, 2002) for step in (1, 2, 3))


class Same(StudyFolder):
    def problem(self):
        """The compiled problem."""
        return self.study().compiled.problem

    def test_profiles_that_are_lists_and_numbers(self):
        self.write()
        first = self.problem()
        self.edited((COST, 'cost = { profile = "p" }\n\n[profiles]\np = [50, 100, "300/2"]'))
        self.assertEqual(self.problem(), first)
        self.edited((COST, 'cost = { profile = "p", times = 2 }\n\n[profiles]\np = { file = "p.csv", column = "x" }'), p_csv="x\n25\n50\n75\n")
        self.assertEqual(self.problem(), first)
        self.edited((COST, "cost = 70"))
        once = self.problem()
        self.edited((COST, 'cost = { profile = "p", times = "7/2" }\n\n[profiles]\np = 20'))
        self.assertEqual(self.problem(), once)

    def test_targets_of_some_stages(self):
        targets = (("spill = 300", "spill = 300\ntarget = { at = { 1 = 20 } }\ntarget_penalty = 9"),)
        self.edited(*targets)
        first = self.problem()
        start, table = LAKE.split("[reservoir.lake]\n")[0], LAKE.split("[stop]")[1]
        rows = "name,bus,maximum,initial,inflow.random,turbine,productivity,spill,target.at.1,target_penalty\nlake,city,200,200,lake,150,1,300,20,9\n"
        self.write(f'{start}[tables]\nreservoir = "reservoirs.csv"\n\n[stop]{table}', reservoirs_csv=rows)
        self.assertEqual(self.problem(), first)
        column = (("spill = 300", 'spill = 300\ntarget = { file = "targets.csv", column = "lake" }\ntarget_penalty = 9'),)
        for text in ("lake\n20\n\n\n", 'lake\n20\n""\n""\n', "lake,other\n20,\n,\n,\n,\n", "lake,other\n20,\n,\n,3\n"):
            with self.subTest(text=text):
                self.edited(*column, targets_csv=text)
                self.assertEqual(self.problem(), first)


class Refused(StudyFolder):
    def refusal(self, *edits, **files):
        """What a refused study says."""
        self.edited(*edits, **files)
        with self.assertRaises(StudyError) as refused:
            self.study().compiled  # pylint: disable=expression-not-assigned
        return str(refused.exception)

    def test_profiles(self):
        for profile, words in (
            ("[50, 100]", '"profiles.p" has 2 numbers, and there are 3 stages'), ('"x"', '"profiles.p" is a number, and not "x"'),
            ("[50, 100, { all = 3 }]", '"profiles.p.3" is one number, and none for load blocks'),
            ('{ profile = "p" }', '"profiles.p.profile" is not made of another profile'),
        ):
            with self.subTest(profile=profile):
                self.assertIn(f"study.toml:21: {words}", self.refusal((COST, f'cost = {{ profile = "p" }}\n\n[profiles]\np = {profile}')))

    def test_load_blocks_that_mean_something_else(self):
        for name in ("1", "size", "cost", "months"):
            with self.subTest(name=name):
                self.assertIn(
                    f'"blocks.{name}" is a word of numbers', self.refusal(("[bus.city]", f'[blocks]\n{name} = 0.5\nx = "rest"\n\n[bus.city]')),
                )

    def test_days_and_hours(self):
        for days, words in (
            ("7", '"inflow.days" has a number for each step of a year, and not 7'), ("[7, 7, true]", '"inflow.days.3" is a number, and not true'),
            ('["x", 7, 7]', '"inflow.days.1" is a number, and not "x"'),
        ):
            with self.subTest(days=days):
                said = self.refusal((LISTED, f'record = "record.csv"\nunit = "m3/s"\ndays = {days}'), record_csv=RECORD)
                self.assertIn(f"study.toml:11: {words}", said)
        self.assertIn('study.toml:6: "calendar.hours" is a number of hours, and not NaN', self.refusal(("hours = 1", "hours = nan")))

    def test_outcomes_twice(self):
        said = self.refusal((LISTED, f'{LISTED}\nfile = "o.csv"'), o_csv="stage,weight,lake\n1,1,1\n2,1,1\n3,1,1\n")
        self.assertIn('study.toml:10: "inflow.outcomes" are not given beside "file"', said)

    def test_a_thermal_with_the_name_of_a_reservoir(self):
        said = self.refusal(("[thermal.gas]", "[thermal.lake]"))
        self.assertIn('study.toml:15: thermal "lake" has the name of a reservoir', said)

    def test_water_that_goes_back_to_where_it_comes_from(self):
        for way in ('"lake"', '{ to = "lake", travel = 1 }'):
            with self.subTest(way=way):
                self.assertIn('water of reservoir "lake"', self.refusal(("spill = 300", f"spill = 300\ndownstream = {way}")))
        pump = '[pump.p]\nbus = "city"\nsource = "lake"\ntarget = "lake"\nmaximum = 1\nenergy = 1\n\n[stop]'
        self.assertIn('lifts water from "lake" to itself', self.refusal(("[stop]", pump)))

    def test_a_resolution_that_is_too_coarse(self):
        said = self.refusal(("[bus.city]", "[resolution]\nvolume = 7\n\n[bus.city]"))
        self.assertIn('200 would be 28.571428571429 and become 29: choose a greater scale, by a smaller "resolution.cost"', said)


if __name__ == "__main__":
    unittest.main()
