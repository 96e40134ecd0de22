"""Studies in which a stage has no solution: what a planner reads, and that what it says to do helps."""
import unittest

from model_support import needs_numpy
from study_support import StudyFolder

TARGET = ("spill = 300", "spill = 300\ntarget = { at = { 3 = 200 } }")
TOGETHER = "study: what cannot be met together there: "


@needs_numpy
class DeadEnds(StudyFolder):
    def said(self, *edits):
        """What a study says that has no solution."""
        self.edited(*edits)
        status, out, errors = self.run_study("--set", "simulation.prices=0", "--set", "stop.iterations=3")
        self.assertEqual((status, out), (1, ""), errors)
        return errors.replace(str(self.folder), "F").splitlines()[1:]

    def helps(self, *edits):
        """A study that has a solution."""
        self.edited(*edits)
        status, _, errors = self.run_study("--set", "simulation.prices=0", "--set", "stop.iterations=3", "--set", "simulation.scenarios=3")
        self.assertEqual(status, 0, errors)

    def test_an_earlier_stage_runs_into_a_need_without_a_cost(self):
        said = self.said(TARGET)
        self.assertRegex(
            said[0], r'study: stage 3 \(1 January 2026, 1 h\) has no solution, with volume of reservoir "lake" \d+ coming in at lake \d+$',
        )
        self.assertEqual(said[1:], [
            TOGETHER + 'target of reservoir "lake"; balance of water of reservoir "lake"',
            "study: a stage sees what a later one needs by its cost alone: a need without a cost is not seen before",
            'study: what to do: give reservoir "lake" (F/study.toml:20) a "target_penalty", the cost of what is missing to its "target"',
        ])
        self.helps((TARGET[0], TARGET[1] + "\ntarget_penalty = 500"))

    def test_the_first_stage_asks_too_much(self):
        said = self.said(("spill = 300", "spill = 300\nevaporation = [290, 0, 0]"))
        self.assertRegex(said[0], r'study: stage 1 \(1 January 2026, 1 h\) has no solution, with volume of reservoir "lake" 200 coming in at lake 0$')
        advice = 'give reservoir "lake" (F/study.toml:20) a "evaporation_penalty", the cost of what is missing to its "evaporation"'
        self.assertEqual(len(said), 3)
        self.assertIn('balance of water of reservoir "lake"', said[1])
        self.assertIn(advice, said[2])

    def test_energy_that_is_missing_and_energy_that_is_forced(self):
        said = self.said(("demand = 150", "demand = 350"))
        self.assertIn('give bus "city" (F/study.toml:12) a "deficit", the cost of energy that is missing', said[-1])
        self.helps(("demand = 150", "demand = 350\ndeficit = 900"))
        said = self.said(("demand = 150", "demand = 50\ndeficit = 900"), ("maximum = 150\n", "maximum = 150\nminimum = 60\n"))
        self.assertEqual(said[-1], 'study: what to do: let the "minimum" of thermal "gas" (F/study.toml:16) be lower')

    def test_tiers_that_are_forced(self):
        tiers = "cost = [{ size = 100, cost = 50 }, { size = 50, cost = 70 }]\nminimum = 60"
        said = self.said(("demand = 150", "demand = 50\ndeficit = 900"), ("maximum = 150\ncost = [50, 100, 150]", tiers))
        self.assertIn('minimum of thermal "gas"', said[1])
        self.assertEqual(said[-1], 'study: what to do: let the "minimum" of thermal "gas" (F/study.toml:16) be lower')

    def test_too_much_water(self):
        said = self.said(("spill = 300", "spill = 0"), ("turbine = 150", "turbine = 10"))
        self.assertEqual(said[-1], "study: what to do: let more be spilled, or let the least numbers of decisions be lower")
        self.helps(("turbine = 150", "turbine = 10"))

    def test_a_least_volume(self):
        said = self.said(("maximum = 200\n", "maximum = 200\nminimum = [0, 0, 180]\n"))
        self.assertIn('give reservoir "lake" (F/study.toml:20) an "alert" with an "alert_penalty" in place of its "minimum"', said[-1])
        self.helps(("maximum = 200\n", "maximum = 200\nalert = [0, 0, 180]\nalert_penalty = 500\n"))


if __name__ == "__main__":
    unittest.main()
