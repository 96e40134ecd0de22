"""Rows whose coefficients stand far apart, alternatives of a node, and finer weights. Expected numbers are worked out by hand."""
import json
import unittest
from fractions import Fraction as F

from tool_support import cursor
from hydroplan.tools.converting import Bounds, Options, compile_model, ledger_lines
from hydroplan.tools.located_json import Refused
from hydroplan.tools.scales import Scales, SubproblemScales
from hydroplan.tools.stochopt import read_model
from hydroplan.tools.decimals import finer


def file_of(coefficient, upper, probabilities=("1",), alternatives=(), other=7):
    """One stage with the row `coefficient` x + y >= 5, x up to `upper` and y up to `other`."""
    def bound(name, most):
        return {"function": {"type": "Variable", "name": name}, "set": {"type": "Interval", "lower": 0, "upper": most}}

    terms = [{"coefficient": coefficient, "variable": "x"}, {"coefficient": 1, "variable": "y"}]
    row = {"function": {"type": "ScalarAffineFunction", "terms": terms}, "set": {"type": "GreaterThan", "lower": 5}}
    cost = {"type": "ScalarAffineFunction", "terms": [{"coefficient": 1, "variable": "x"}], "constant": 0}
    realizations = [{"probability": float(it), "support": {}} for it in probabilities]
    return json.dumps({
        "version": {"major": 1, "minor": 0}, "root": {"state_variables": {}, "successors": {"n": 1}},
        "nodes": {"n": {"subproblem": "p", "realizations": realizations, "alternatives": alternatives}},
        "subproblems": {"p": {"subproblem": {
            "variables": [{"name": "x"}, {"name": "y"}], "objective": {"sense": "min", "function": cost},
            "constraints": [row, bound("x", upper), bound("y", other)],
        }}},
    })


def compiled(text, chosen=None, options=Options()):
    """The problem, the scales of its variables, and the ledger's lines."""
    found = compile_model(read_model(cursor(text)), chosen or Scales(), Bounds({}, {}), options)
    return found.problem, found.scales.subproblems["p"].variables, ledger_lines(found.ledger)


class Ranges(unittest.TestCase):
    def coefficients(self, problem):
        row = problem["subproblems"]["p"]["subproblem"]["constraints"][0]
        return [it["coefficient"] for it in row["function"]["terms"]]

    def test_a_scale_is_raised_where_there_is_room(self):
        problem, scales, ledger = compiled(file_of(10**7, 1))
        self.assertEqual((self.coefficients(problem), scales), ([10**5, 1], {"x": F(100), "y": F(1)}))
        self.assertEqual(ledger, ["0 numbers were rounded"])

    def test_a_scale_is_lowered_where_numbers_stay_whole(self):
        # y has no room above; a bound of 10^9 is whole in tens, and 0.000001 of x is 0.00001 of ten x
        problem, scales, _ = compiled(file_of(0.000001, 10**9, other=10**9 - 1))
        self.assertEqual((self.coefficients(problem), scales), ([1, 10**5], {"x": F(1, 10), "y": F(1)}))

    def test_rows_within_range_are_left_alone(self):
        problem, scales, _ = compiled(file_of(10**5, 1))
        self.assertEqual((self.coefficients(problem), scales), ([10**5, 1], {"x": F(1), "y": F(1)}))

    def test_a_row_that_stays_wide_is_named(self):
        _, scales, ledger = compiled(file_of(10**7, 10**9))
        self.assertEqual(scales, {"x": F(1), "y": F(1)})
        self.assertIn("range: $.subproblems.p.subproblem.constraints[0]", ledger[0])
        self.assertIn("coefficients are 1 to 10000000, more than 10^5 apart", ledger[0])

    def test_a_chosen_scale_is_left_alone(self):
        chosen = Scales(subproblems={"p": SubproblemScales({"x": F(1)})})
        _, scales, ledger = compiled(file_of(10**7, 1), chosen)
        self.assertEqual((scales["x"], len(ledger)), (1, 2))


class Alternatives(unittest.TestCase):
    def test_they_become_weights(self):
        problem, _, _ = compiled(file_of(1, 1, ("0.5", "0.5"), [[0.25, 0.75], [1, 0.0]][:1]))
        self.assertEqual(problem["nodes"]["n"]["alternatives"], [[1, 3]])

    def test_one_of_an_outcome_of_probability_0_goes_with_it(self):
        problem, _, _ = compiled(file_of(1, 1, ("0.5", "0", "0.5"), [[0.25, 0, 0.75]]))
        self.assertEqual(problem["nodes"]["n"]["alternatives"], [[1, 3]])

    def test_refusals(self):
        for alternative, said in (([0.5], "1 probabilities for 2 realizations"), ([0, 1], "an alternative has probability 0")):
            with self.assertRaisesRegex(Refused, said):
                compiled(file_of(1, 1, ("0.5", "0.5"), [alternative]))


class Finer(unittest.TestCase):
    def test_totals(self):
        self.assertEqual(finer((3, 1, 0), 1), (3, 1, 0))
        self.assertEqual(finer((3, 1, 0), 256), (192, 64, 0))
        self.assertEqual(finer((1, 2), 256), (86, 172))
        self.assertEqual(finer((60_000, 5_000), 10**6), (60_000, 5_000))


if __name__ == "__main__":
    unittest.main()
