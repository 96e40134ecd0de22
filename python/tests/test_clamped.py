"""Rows that are worth more than their multipliers hold, told from a journal, and to a planner."""
import random
from pathlib import Path

from model_support import needs_numpy, one_reservoir
from extensive_plants import Extensive, needs_scipy
from random_studies import StudyDraw, write_study
from study_readings import read_case
from study_support import StudyFolder
from hydroplan.clamped import clamped_rows
from hydroplan.runs import train

# water makes 1000 MWh of an hm3, each of which saves 900 million: 9e11 for an hm3, where 2^39 is about 5.5e11
DEAR = """\
[calendar]
start = 2026-01-01
stages = 2
hours = 1

[bus.town]
demand = 5000
deficit = [400000000, 900000000]

[reservoir.lake]
bus = "town"
maximum = 10
initial = 3
turbine = 5
productivity = 1000
spill = 50

[stop]
iterations = 5

[simulation]
scenarios = 3
prices = 0
"""


@needs_numpy
class Clamped(StudyFolder):
    def test_a_study_warns_of_a_row(self):
        self.write(DEAR)
        status, output, errors = self.run_study()
        self.assertEqual(status, 0)
        warned = [line for line in errors.splitlines() if "warning" in line]
        self.assertEqual(warned, [
            "study: warning: one unit of the row 'water:lake' of stage '2' is worth more money than 64 bits hold, so the bound may stay far below "
            "the least cost; a coarser resolution.cost ends this (docs/use/GUIDE.md, section 6)"
        ])
        # the least cost is 3.8e12: 5000 MWh are missing at 4e8, and 2000 at 9e8, for which the water is kept
        self.assertIn("no policy costs less than 3,099,511,627,769.44 money", output)

    def test_coarser_money_ends_it(self):
        self.write(DEAR)
        status, output, errors = self.run_study("--set", "resolution.cost=1000")
        self.assertEqual((status, "warning" in errors), (0, False))
        self.assertIn("no policy costs less than 3,799,999,999,988.55 money", output)

    @needs_scipy
    def test_weights_of_successors_may_be_too_much(self):
        # the same drawn study with cuts rounded 256 times finer: far below the optimum, and no solve is without an answer
        write_study(self.folder, StudyDraw(random.Random(650)).draw())
        study, found = self.study(), {}
        optimum = Extensive(read_case(self.folder)).optimum()
        for total in (1, 256):
            compiled = study.model.compile(study.resolution.of(study.model) or None, successor_total=total)
            journal = self.folder / f"{total}.journal"
            trained = train(compiled, journal, seed=7, iterations=40, batch=2, progress=False)
            self.assertEqual(trained.unanswered, 0)
            found[total] = (round(1 - trained.bound / optimum, 3), sorted({row for _, row in clamped_rows(compiled, journal)}))
        self.assertEqual(found, {1: (0.0, []), 256: (0.05, ["turbined_limit:lower-lake", "turbined_limit:r3"])})


class Journals(StudyFolder):
    def test_numbers_by_hand(self):
        # a record of docs/use/FORMAT.md: one step at node 0, two realizations with two rows each; 2^63 - 1 and -2^63 in the place of -5 and 5
        compiled, journal = one_reservoir().compile(), Path(self.folder) / "a.journal"
        train(compiled, journal, seed=7, iterations=1, progress=False)
        self.assertEqual(clamped_rows(compiled, journal), [])
        self.assertEqual(clamped_rows(compiled, self.folder / "none.journal"), [])
        whole = journal.read_bytes()
        for place, number, rows in ((68, (1 << 63) - 1, ["water"]), (92, -(1 << 63), ["energy"]), (92, (1 << 63) - 2, [])):
            journal.write_bytes(whole[:place] + number.to_bytes(8, "big", signed=True) + whole[place + 8:])
            self.assertEqual(clamped_rows(compiled, journal), [("n", row) for row in rows])
        # the same eight bytes across two multipliers are none
        journal.write_bytes(whole[:71] + ((1 << 63) - 1).to_bytes(8, "big") + whole[79:])
        self.assertEqual(clamped_rows(compiled, journal), [])
