"""The examples made by the package: the problem is that of the file, and its bound is near the optimum that is known from outside."""
import json
import unittest
from fractions import Fraction as F

from example_models import NAMES, example, initial_value, model_of
from model_support import Folder
from page_blocks import optima
from hydroplan.runs import train

# iterations of seed 7, and within which part of the optimum their bound is, by examples/README.md
TRAINED = {
    "one_reservoir": (2, F(0)), "two_reservoirs": (20, F(1, 10**6)), "three_stages": (20, F(1, 10**9)), "farmer": (30, F(4, 10**8)),
    "markov_year": (100, F(4, 1000)), "five_reservoirs": (70, F(9, 1000)),
}


def shares(weights):
    """Weights as parts of their total."""
    total = sum(weights.values())
    return {name: F(weight, total) for name, weight in weights.items()}


def node_said(problem, node):
    """What a problem says of a node: realizations, successors and stop as shares, and its subproblem's functions."""
    realizations = node.get("realizations") or [{"probability": 1, "support": {}}]
    total = sum(it["probability"] for it in realizations)
    return (
        [(F(it["probability"], total), it.get("support", {})) for it in realizations],
        shares({**node["successors"], "stop of it": node.get("stop", 0)}) if node.get("successors") else {},
        subproblem_said(problem["subproblems"][node["subproblem"]]),
    )


def subproblem_said(subproblem):
    """Rows, bounds of decisions and costs, without their order."""
    program = subproblem["subproblem"]
    incoming = {it["in"] for it in subproblem["state_variables"].values()}
    functions = [(it["function"], it["set"]) for it in program["constraints"] if it["function"].get("name") not in incoming]
    bounds = {it["name"]: sides for it, sides in functions if it["type"] == "Variable"}
    rows = sorted(json.dumps([terms(it), sides], sort_keys=True) for it, sides in functions if it["type"] != "Variable")
    objective = program["objective"]["function"]
    return rows, bounds, terms(objective), objective["constant"], subproblem["state_variables"], set(subproblem["random_variables"])


def terms(function):
    """The coefficient of each variable, without those that are 0."""
    return {it["variable"]: it["coefficient"] for it in function["terms"] if it["coefficient"]}


class Examples(Folder):
    def test_the_problems_are_those_of_the_files(self):
        for name in NAMES:
            given = example(name)
            made = json.loads(model_of(given).compile().problem)
            with self.subTest(name=name):
                states = {state: initial_value(it) for state, it in given["root"]["state_variables"].items()}
                self.assertEqual((made["root"]["state_variables"], shares(made["root"]["successors"])), (states, shares(given["root"]["successors"])))
                self.assertEqual(set(made["nodes"]), set(given["nodes"]))
                for node in given["nodes"]:
                    self.assertEqual(node_said(made, made["nodes"][node]), node_said(given, given["nodes"][node]))

    def test_stages_that_are_alike_are_one_subproblem(self):
        made = json.loads(model_of(example("farmer")).compile().problem)
        self.assertEqual(len(made["subproblems"]), 4)
        given = example("farmer")
        for name in ("poor", "good"):
            given["subproblems"][name] = given["subproblems"]["fair"]
        made = json.loads(model_of(given).compile().problem)
        self.assertEqual(sorted(made["subproblems"]), ["fair", "plant"])
        self.assertEqual({made["nodes"][name]["subproblem"] for name in ("poor", "fair", "good")}, {"fair"})

    def test_bounds_and_optima(self):
        for name, (iterations, part) in TRAINED.items():
            optimum = optima()[name]
            compiled = model_of(example(name)).compile(successor_total=256)
            with self.subTest(name=name):
                found = train(compiled, self.folder / name, seed=7, iterations=iterations, progress=False)
                self.assertEqual(found.unanswered, 0)
                self.assertLessEqual(found.exact_bound, optimum + F(1, 10**6))
                self.assertLessEqual(optimum - found.exact_bound, part * abs(optimum) + F(1, 10**6))


if __name__ == "__main__":
    unittest.main()
