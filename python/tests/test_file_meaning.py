"""Problem files by their own meaning, beside optima that are known from elsewhere."""
import json
import subprocess
import unittest

from file_meaning import function_said, least_cost, sides_said, tree_said
from model_support import TOP, needs


def example(name):
    """A problem of examples/."""
    return json.loads((TOP / "examples" / name).read_text(encoding="utf-8"))


def made(name):
    """The problem that the program makes of a description of examples/."""
    with open(TOP / "examples" / name, "rb") as description:
        run = subprocess.run([str(TOP / "hydroplan"), "hydro"], stdin=description, stdout=subprocess.PIPE, check=True)
    return json.loads(run.stdout)


class Said(unittest.TestCase):
    def test_terms_of_one_name_count_together(self):
        terms = [{"variable": "q", "coefficient": 1}, {"variable": "q", "coefficient": 2}]
        said = function_said({"type": "ScalarAffineFunction", "terms": terms, "constant": 7})
        self.assertEqual((said.terms, said.constant), ({"q": 3}, 7))

    def test_name_goes_before_variable(self):
        said = function_said({"type": "Variable", "name": "a", "variable": "b"})
        self.assertEqual(said.terms, {"a": 1})

    def test_sides_of_each_set(self):
        sets = [
            {"type": "EqualTo", "value": 3}, {"type": "GreaterThan", "lower": 3}, {"type": "LessThan", "upper": 3},
            {"type": "Interval", "lower": 1, "upper": 3},
        ]
        self.assertEqual([sides_said(it) for it in sets], [(3, 3), (3, None), (None, 3), (1, 3)])

    def test_branches_of_a_tree_with_a_stop_weight(self):
        branches = tree_said(example("two_reservoirs.json"))
        self.assertEqual(len(branches), 14)
        first = sum(it.chance for it in branches if it.before is None)
        self.assertAlmostEqual(first, 1.0)


@needs("scipy")
class Optima(unittest.TestCase):
    """The extensive form of each example whose tree is small enough: examples/README.md says where each optimum comes from."""

    def test_one_reservoir(self):
        self.assertAlmostEqual(least_cost(example("one_reservoir.json")), 15.0, places=6)

    def test_two_reservoirs(self):
        self.assertAlmostEqual(least_cost(example("two_reservoirs.json")), 74.75, places=6)

    def test_three_stages(self):
        self.assertAlmostEqual(least_cost(example("three_stages.json")), 25000 / 3, places=5)

    def test_farmer(self):
        file = example("farmer.json")
        self.assertAlmostEqual(least_cost(file), -108390.0, places=3)

    def test_five_reservoirs(self):
        self.assertAlmostEqual(least_cost(example("five_reservoirs.json")), 1363.851074, places=4)

    def test_cascade_as_hydro_writes_it(self):
        self.assertAlmostEqual(least_cost(made("cascade_plants.json")), 3508777067 / 1310720, places=4)
