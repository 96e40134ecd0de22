"""What is refused of a study: each message names file, line and key."""
import unittest
from unittest import mock

from model_support import needs_numpy
from study_support import LAKE, StudyFolder
from hydroplan.study import StudyError
from hydroplan.study.document import lines_of

CITY, DEMAND, GAS, BLOCKS = "[bus.city]", "demand = 150", "[thermal.gas]", "[blocks]\npeak = 0.25\nbase = \"rest\"\n\n[bus.city]"
LISTED = 'method = "listed"\noutcomes = [{ lake = 0 }, { lake = 50 }, { lake = 100 }]'
COST = "cost = [50, 100, 150]"
MONTHS = ("hours = 1\n", "")
RECORD = "year,month,lake,wind\n" + "".join(f"{year},{month},{month},{year}\n" for year in (1990, 1991, 1992) for month in range(1, 13))

# the edits of the small study, what is refused, and the line on which the key stands, none where it is of another file
REFUSED = {
    "a key of a table": ([("stages = 3", "stages = 3\nstaes = 3")], '"calendar.staes" is not known: did you mean "stages"?', 6),
    "a table": ([(CITY, "[buss.city]")], '"buss" is not known: did you mean "bus"?', 12),
    "a member of an element": ([("turbine = 150", "turbin = 150")], '"reservoir.lake.turbin" is not known: did you mean "turbine"?', 25),
    "a table that is none": ([("[inflow]\n" + LISTED, "[inflow.listed]")], '"inflow.listed" is not known: known are', 8),
    "a table that is a number": ([(CITY + "\n" + DEMAND, "[bus]\ncity = 150")], '"bus.city" is a table, and not 150', 13),
    "what is needed": ([("start = 2026-01-01\n", "")], '"calendar.start" is needed', 3),
    "a text": ([('method = "listed"', "method = 3")], '"inflow.method" is a text, and not 3', 9),
    "one of some words": ([('"listed"', '"listd"')], '"inflow.method" is one of years, groups, classes, autoregression, listed, and not "listd"', 9),
    "a whole number": ([("stages = 3", "stages = 3.5")], '"calendar.stages" is a whole number from 1 to 1000, and not 3.5', 5),
    "a number": ([(DEMAND, 'demand = "much"')], '"bus.city.demand" is a number, and not "much"', 13),
    "a truth": ([(DEMAND, "demand = true")], '"bus.city.demand" is a number, and not true', 13),
    "a share": ([("[stop]", "[stop]\ngap = 1.5")], '"stop.gap" is above 0 and below 1, and not 1.5', 30),
    "a number above 0": ([("[stop]", "[stop]\nseconds = 0")], '"stop.seconds" is above 0, and not 0', 30),
    "a date": ([("2026-01-01", "2026")], '"calendar.start" is a date, as in 2026-01-01, and not 2026', 4),
    "no TOML": ([("stages = 3", "stages = ")], "no TOML: Invalid value", 5),
    "a seed of training": (
        [("scenarios = 20", "scenarios = 20\nseed = 5")], '"simulation.seed" has the seed 7 of training among its own, 5 to 24', 34,
    ),
    "a step beside hours": ([("hours = 1", 'hours = 1\nstep = "month"')], '"calendar.step" is not given beside "hours"', 7),
    "another day of a month": ([MONTHS, ("2026-01-01", "2026-01-02")], '"calendar.start" is the first day of a month where stages are months', 4),
    "hours of stages": ([("hours = 1", "hours = [1, 2]")], '"calendar.hours" has 2 numbers, and there are 3 stages', 6),
    "hours as a text": ([("hours = 1", 'hours = "1"')], '"calendar.hours" is a number of hours, and not "1"', 6),
    "no hours": ([("hours = 1", "hours = 0")], '"calendar.hours" is above 0, and not 0', 6),
    "two rests": ([(CITY, BLOCKS.replace("0.25", '"rest"'))], '"blocks.base" is the rest, as "peak" is', 14),
    "blocks that are too much": (
        [(CITY, BLOCKS.replace('"rest"', "0.9"))], '"blocks" have 23/20 hours of the 1 of stage 1: a block may be "rest"', 12,
    ),
    "blocks that are not all": ([(CITY, BLOCKS.replace('"rest"', "0.5"))], '"blocks" have 3/4 hours of the 1 of stage 1', 12),
    "hours of blocks": ([(CITY, BLOCKS.replace("0.25", "{ hours = [1] }"))], '"blocks.peak.hours" has 1 numbers, and there are 3 stages', 13),
    "a share of a block": ([(CITY, BLOCKS.replace("0.25", "1.5"))], '"blocks.peak" is a share of the stage above 0', 13),
    "a block like a form": ([(CITY, BLOCKS.replace("peak", "months"))], '"blocks.months" is a word of numbers, a whole number, or has a colon', 13),
    "blocks of a volume": ([("maximum = 200", "maximum = { all = 200 }")], '"reservoir.lake.maximum" has no numbers by load block', 22),
    "another block": (
        [(DEMAND, "demand = { pek = 3 }"), (CITY, BLOCKS)], '"bus.city.demand.pek" is no load block and no form of numbers: did you mean "peak"?', 17,
    ),
    "a block without a number": (
        [(DEMAND, "demand = { peak = 3 }"), (CITY, BLOCKS)], '"bus.city.demand" has no number for the load block "base"', 17,
    ),
    "a list that is too short": ([(COST, "cost = [50, 100]")], '"thermal.gas.cost" has 2 numbers, and there are 3 stages', 18),
    "an entry": ([(COST, 'cost = [50,\n 100, "much"]')], '"thermal.gas.cost.3" is a number, and not "much"', 19),
    "a tier": ([(COST, "cost = [{ size = 3, cost = 4 }, 7]")], '"thermal.gas.cost.2" is a tier, as in { size = 10, cost = 50 }, and not 7', 18),
    "a tier without a cost": ([(COST, "cost = [{ size = 3 }]")], '"thermal.gas.cost.1.cost" is needed', 18),
    "tiers that fall": ([(COST, "cost = [{ size = 9, cost = 4 }, { size = 9, cost = 2 }]")], 'thermal "gas": tier 2 has 2 in stage 1', 18),
    "no form": ([(DEMAND, "demand = { times = 3 }")], '"bus.city.demand" has one of "file" with "column", "months", "weeks", "profile" or "at"', 13),
    "two forms": ([(DEMAND, "demand = { months = [], profile = 3 }")], '"bus.city.demand" has one of "file"', 13),
    "a column of nothing": (
        [(DEMAND, 'demand = { months = [], column = "a" }')], '"bus.city.demand.column" goes with "file", and not with "months"', 13,
    ),
    "a profile of few": (
        [(DEMAND, "demand = { months = [1, 2] }")],
        '"bus.city.demand.months" has a number for each of the 12 months of a year, and not 2 numbers', 13,
    ),
    "a profile by weeks": (
        [MONTHS, (DEMAND, "demand = { weeks = [1, 2] }")], '"bus.city.demand.weeks" is a profile by weeks, and the stages are months', 12,
    ),
    "another profile": ([(DEMAND, 'demand = { profile = "load" }')], '"bus.city.demand.profile" is not there: "load", there are none', 13),
    "a profile of a profile": (
        [(DEMAND, 'demand = { profile = "a" }\n[profiles]\na = { profile = "b" }')], '"profiles.a.profile" is not made of another profile', 15,
    ),
    "some stages": ([(DEMAND, "demand = { at = { 1 = 3 } }")], '"bus.city.demand.at" has a number for each stage, and not for some of them', 13),
    "a stage that is none": (
        [("turbine = 150", "turbine = 150\ntarget = { at = { 4 = 3 } }")], '"reservoir.lake.target.at.4" is no stage: there are 1 to 3', 26,
    ),
    "a random volume": ([("maximum = 200", 'maximum = { random = "lake" }')], '"maximum" of reservoir "lake" cannot be random', 22),
    "a flow of energy": ([(DEMAND, "demand = { flow = 3 }")], '"demand" of bus "city" is no water, and cannot be a flow', 13),
    "a number out of range": ([("maximum = 200", "maximum = -1")], '"maximum" of reservoir "lake" is -1 in stage 1: it is at least 0', 22),
    "another bus": ([('bus = "city"', 'bus = "cty"')], '"bus" of thermal "gas" (', None),
    "a name with a colon": ([("[reservoir.lake]", '[reservoir."a:b"]')], 'reservoir "a:b" has a name that is no text, empty, or has a colon', 20),
    "a way": ([("turbine = 150", "turbine = 150\ndownstream = { travel = 1 }")], '"reservoir.lake.downstream.to" is needed', 26),
    "water under way": (
        [
            ("turbine = 150", 'turbine = 150\ndownstream = { to = "a", under_way = ["x"] }')
        ], '"reservoir.lake.downstream.under_way" has numbers, and not "x"', 26,
    ),
    "no inflow": ([("[inflow]\n" + LISTED, "")], '"inflow" is needed: an element asks for the station "lake"', 1),
    "an inflow for nothing": ([('{ random = "lake" }', "3")], '"inflow" is given, and no element asks for a station', 8),
    "outcomes": ([("outcomes = [{ lake = 0 }, { lake = 50 }, { lake = 100 }]", "outcomes = 3")], '"inflow.outcomes" is a list of tables', 10),
    "an outcome without a station": ([("{ lake = 50 }", "{ weight = 2 }")], '"inflow.outcomes.2.lake" is needed', 10),
    "an outcome of another station": ([("{ lake = 50 }", "{ lak = 2 }")], '"inflow.outcomes.2.lak" is not known: did you mean "lake"?', 10),
    "no record": ([(LISTED, 'record = "no.csv"')], "no.csv: No such file or directory", 9),
    "another station": (
        [(LISTED, 'record = "record.csv"'), ("random = \"lake\"", "random = \"lak\""), MONTHS],
        '"inflow" has no station "lak", which an element asks for: did you mean "lake"?', 7,
    ),
    "a record of months": (
        [(LISTED, 'record = "record.csv"'), ("hours = 1", 'step = "week"')],
        '"inflow" is of a record by months, and the stages are weeks: say at which month they "start"', 8,
    ),
    "a key of another method": ([(LISTED, 'record = "record.csv"\ngroups = 3')], '"inflow.groups" is not known: known are method, record', 10),
    "too many groups": (
        [(LISTED, 'record = "record.csv"\nmethod = "groups"\ngroups = 4')], '"inflow.groups" is a whole number from 1 to 3, and not 4', 11,
    ),
    "a class that is none": (
        [(LISTED, 'record = "record.csv"\nmethod = "classes"\nclasses = 2\nbefore = 2')], '"inflow" cannot be made: the class before is 0 to 1', 8,
    ),
    "a file of a record": ([(LISTED, 'record = "faulty.csv"')], '"inflow.record" cannot be read:\n', 9),
    "a record beside records": ([(LISTED, 'record = "record.csv"\nrecords = []')], '"inflow.record" is not given beside "records"', 9),
    "records": ([(LISTED, "records = []")], '"inflow.records" is a list of tables with a "file" and a "unit"', 9),
    "one station twice": (
        [
            (LISTED, 'records = [{ file = "record.csv" }, { file = "record.csv" }]')
        ], '"inflow.records.2" has the station "lake", as the record before has', 9,
    ),
    "records of other steps": (
        [
            (LISTED, 'records = [{ file = "record.csv" }, { file = "steps.csv" }]')
        ], '"inflow.records.2" is by 2 steps a year, and the record before by 12 months', 9,
    ),
    "records of other years": (
        [(LISTED, 'records = [{ file = "record.csv" }, { file = "later.csv" }]')], '"inflow.records.2" has no year of the record before', 9,
    ),
    "a rate of stages of their own": (
        [(CITY, "[discount]\nyearly_rate = 0.05\n" + CITY)], '"discount.stages_per_year" is needed where stages have lengths of their own', 12,
    ),
    "a rate": ([(CITY, "[discount]\nyearly_rate = -2\nstages_per_year = 1\n" + CITY)], "has a yearly rate above -1", None),
}

FILES = {
    "record_csv": RECORD, "faulty_csv": "year,month,lake\n1990,1,x\n", "steps_csv": "year,step,steps\n1990,1,1\n1990,2,2\n",
    "later_csv": RECORD.replace("199", "200").replace("lake", "later").replace("wind", "sun"),
}

# a column of a CSV file, or a table of elements, and what is refused, with the file and the line
CSV_REFUSED = {
    "no column": ("a\n1\n2\n3\n", 'study.toml:13: "bus.city.demand.column" is not there: ', 'has no column "load": known are a'),
    "too few rows": ("load\n1\n2\n", 'study.toml:13: "bus.city.demand.file" names a file of 2 rows, and there are 3 stages', ""),
    "no number": ("load\n1\nx\n3\n", 'demand.csv:3: the column "load" has "x", which is no number', ""),
    "no rows": ("", "demand.csv, which is empty", ""),
    "a name twice": ("load,load\n1,2\n", 'demand.csv:1: the column "load" stands there twice', ""),
    "a short row": ("load,a\n1,2\n3\n", "demand.csv:3: the row has 1 cells, and there are 2 columns", ""),
    "no CSV": ('load\n"1\n', "demand.csv, which is no CSV: unexpected end of data", ""),
}
TABLES_REFUSED = {
    "no names": ("bus,cost\ncity,3\n", 'names ', 'which has no column "name"'),
    "an element without a name": ("name,bus\n,city\n", "demand.csv:2: the thermal has no name", ""),
    "a member": ("name,bus,maximun\ncoal,city,3\n", 'demand.csv:2: "thermal.coal.maximun" is not known: did you mean "maximum"?', ""),
    "a member twice": (
        "name,cost,cost.peak\ncoal,3,4\n", 'demand.csv:2: the column "cost.peak" stands beside "cost", which has a value of its own', "",
    ),
    "a text for a number": ("name,bus,maximum,cost\ncoal,city,3,dear\n", 'demand.csv:2: "thermal.coal.cost" is a number, and not "dear"', ""),
    "a name that is there": ("name,bus,maximum,cost\ngas,city,3,4\n", 'demand.csv:2: thermal "gas" has the name of another', ""),
}
OUTCOMES_REFUSED = {
    "no weight": ("stage,lake\n1,2\n", 'which has no column "weight"'),
    "no number": ("stage,weight,lake\n1,1,x\n", 'outcomes.csv:2: the column "lake" has "x", which is no number'),
    "another stage": ("stage,weight,lake\n4,1,2\n", "outcomes.csv:2: the stage 4 is none of 1 to 3"),
    "an empty stage": ("stage,weight,lake\n1,1,2\n3,1,2\n", "which has no outcome of stage 2"),
}


@needs_numpy
class Refusals(StudyFolder):
    def refusal(self, *overrides):
        """The message of a study that is refused."""
        with self.assertRaises(StudyError) as caught:
            self.study(*overrides).compiled
        return str(caught.exception)

    def test_all(self):
        for name, (edits, words, line) in REFUSED.items():
            with self.subTest(name):
                self.edited(*edits, **FILES)
                said = self.refusal()
                self.assertIn(words, said)
                self.assertTrue(line is None or said.startswith(f"{self.folder / 'study.toml'}:{line}: "), said)

    def test_columns(self):
        for name, (content, *words) in CSV_REFUSED.items():
            with self.subTest(name):
                self.edited((DEMAND, 'demand = { file = "demand.csv", column = "load" }'), demand_csv=content)
                said = self.refusal()
                for part in words:
                    self.assertIn(part, said)

    def test_tables_of_elements(self):
        for name, (content, *words) in TABLES_REFUSED.items():
            with self.subTest(name):
                self.edited((CITY, '[tables]\nthermal = "demand.csv"\n' + CITY), demand_csv=content)
                said = self.refusal()
                for part in words:
                    self.assertIn(part, said)

    def test_files_of_outcomes(self):
        for name, (content, words) in OUTCOMES_REFUSED.items():
            with self.subTest(name):
                self.edited((LISTED, 'method = "listed"\nfile = "outcomes.csv"'), outcomes_csv=content)
                self.assertIn(words, self.refusal())

    def test_folders_and_files(self):
        status, _, errors = self.run_study()
        self.assertEqual((status, errors), (1, f"study: {self.folder / 'study.toml'}: No such file or directory\n"))
        (self.folder / "study.toml").write_bytes(b"title = \"\xff\"")
        self.assertIn("study.toml: no UTF-8: invalid start byte at byte 9", self.refusal())
        (self.folder / "study.toml").write_text(LAKE.replace("inflow = { random", 'inflow = { file = "', 1), encoding="utf-8")
        self.assertEqual(self.run_study()[0], 1)

    def test_overrides(self):
        self.write()
        self.assertEqual(self.study("stop.iterations=7").options.stop.iterations, 7)
        self.assertEqual(self.refusal("stop.gap=0.1", "stop.gapp=3"), '--set:2: "stop.gapp" is not known: did you mean "gap"?')
        self.assertTrue(self.refusal("stop.gap").startswith("--set:1:1: no TOML") or self.refusal("stop.gap").startswith("--set:1: no TOML"))

    def test_a_reader_of_toml_is_named(self):
        from hydroplan.study import document

        self.write()
        with mock.patch.object(document.importlib, "import_module", side_effect=ImportError):
            status, _, errors = self.run_study()
        self.assertEqual((status, errors), (1, "study: tomli is needed for studies by Python before 3.11: Debian has it as python3-tomli\n"))

    def test_a_stage_that_has_no_solution_is_told(self):
        self.edited(("maximum = 150", "maximum = 100"), ("initial = 200", "initial = 0"))
        status, _, errors = self.run_study()
        self.assertEqual(status, 1)
        self.assertRegex(errors, r'stage 2 .* has no solution, .*\n.* balance of energy of bus "city"\n')


class Lines(unittest.TestCase):
    def test_lines_of_keys(self):
        text = 'a = 1 # [x]\n"b c"."d#" = """\n[no]\n"""\n[t.\'u\']\nv = [\n 1, { w = "]" },\n\n [2, 3]]\n'
        text += "[[l]]\nk = {}\n[[l]]\nk.m = '#'\n[l.n]\no = 2026-01-01\n"
        found = lines_of(text)
        expected = {
            ("a",): 1, ("b c",): 2, ("b c", "d#"): 2, ("t",): 5, ("t", "u"): 5, ("t", "u", "v"): 6, ("t", "u", "v", 0): 7, ("t", "u", "v", 1): 7,
            ("t", "u", "v", 1, "w"): 7, ("t", "u", "v", 2): 9, ("t", "u", "v", 2, 0): 9, ("t", "u", "v", 2, 1): 9, ("l",): 10, ("l", 0): 10,
            ("l", 0, "k"): 11, ("l", 1): 12, ("l", 1, "k"): 13, ("l", 1, "k", "m"): 13, ("l", 1, "n"): 14, ("l", 1, "n", "o"): 15,
        }
        self.assertEqual(found, expected)


if __name__ == "__main__":
    unittest.main()
