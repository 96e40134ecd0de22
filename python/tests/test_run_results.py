"""Results of check, simulate, validate, evaluate and robust, in the user's units. Expected values are worked out by hand or from outside."""
import builtins
import math
import unittest
from fractions import Fraction as F
from unittest import mock

from model_support import Folder, needs_numpy, needs_pandas, newsvendor, one_reservoir, three_stages
from hydroplan.tools.back import Back, split_name
from hydroplan.errors import MissingPackage, ModelError
from hydroplan.exact import exact
from hydroplan.model import Model
from hydroplan.core import find_program, run
from hydroplan.reading import report_of, simulation_of
from hydroplan.results import half_width
from hydroplan.runs import check, evaluate, robust, simulate, train, validate


class Trained(Folder):
    """A journal of a trained model."""

    def trained(self, model, iterations=20, seed=7):
        compiled = model.compile()
        train(compiled, self.journal, seed=seed, iterations=iterations, progress=False)
        return compiled


class Checks(Trained):
    def test_cuts_and_water_values(self):
        # by seed 3, as in docs/use/GUIDE.md: with 200 in store before the first stage a unit more saves 50, and a unit less costs 61.11
        compiled = self.trained(three_stages(), seed=3)
        found = check(compiled, self.journal)
        self.assertAlmostEqual(found.water_values("1", {"volume": 200})["volume"], 50, places=3)
        self.assertAlmostEqual(found.value("1", {"volume": "200"}), 25000 / 3, places=3)
        self.assertEqual((found.iterations, found.unanswered, found.rest, found.maximizes), (20, 0, 0, False))
        self.assertLessEqual(found.exact_bound, F(25000, 3))
        active = found.active("1", {"volume": 200})
        self.assertAlmostEqual(active.intercept + 200 * active.slopes["volume"], found.value("1", {"volume": 200}))
        with self.assertRaisesRegex(ModelError, 'no node is named "4": the nodes are 1, 2, 3'):
            found.value("4", {"volume": 200})
        with self.assertRaisesRegex(ModelError, "the states are volume: give each of them, and no other"):
            found.value("1", {})

    def test_where_the_model_maximizes(self):
        found = check(self.trained(newsvendor()), self.journal)
        # up to 10 papers each one is sold for certain, at 1.5; what is there before papers are bought is of no use
        self.assertAlmostEqual(found.water_values("sell", {"x": 8})["x"], 1.5, places=4)
        self.assertEqual(found.water_values("buy", {"x": 0})["x"], 0)
        self.assertAlmostEqual(found.value("sell", {"x": 10}), 15, places=4)
        self.assertGreaterEqual(found.exact_bound, F(5, 2))

    @needs_pandas
    def test_the_table(self):
        table = check(self.trained(three_stages(), 2), self.journal).table()
        self.assertEqual(list(table.columns), ["node", "place", "intercept", "volume"])
        self.assertEqual(set(table["node"]), {"1", "2", "3"})


def turned_back(compiled, output):
    """The scenarios of a report as `convert back` writes them: the number, the stages with all numbers by their words, and the cost."""
    found = []
    for line in Back(compiled.scales, None).lines(output.rstrip("\n").split("\n")):
        word, _, rest = line.partition(" ")
        if word == "scenario":
            found.append([int(rest), [], None])
        elif word == "stage":
            number, _, node, kind = rest.split()
            place = (int(number) + 1, compiled.node_names[int(node)], kind)
            found[-1][1].append({"stage": place, "in": {}, "random": {}, "value": {}, "row": []})
        elif word in ("in", "random", "value"):
            name, number = split_name(rest)
            found[-1][1][-1][word][name] = float(F(number))
        elif word == "row":
            found[-1][1][-1]["row"].append(float(F(rest.split()[2])))
        elif word == "cost":
            found[-1][1][-1]["cost"] = float(F(rest))
        elif word == "end":
            found[-1][2] = float(F(rest))
    return found


def numbers_of(scenario):
    """A scenario in the same form."""
    return [scenario.number, [{
        "stage": (it.stage, it.node, it.kind), "in": it.incoming, "random": it.randoms, "value": it.values,
        "row": list(it.residuals.values()), "cost": it.cost,
    } for it in scenario.stages], scenario.cost]


class Simulations(Trained):
    def test_scenarios(self):
        found = simulate(self.trained(three_stages()), self.journal, seed=1, scenarios=50)
        self.assertEqual((len(found.scenarios), found.scenarios[0].number, len(found.scenarios[0].stages)), (50, 0, 3))
        for scenario in found.scenarios:
            for number, stage in enumerate(scenario.stages, 1):
                values = stage.values
                self.assertEqual((stage.stage, stage.node, set(stage.residuals)), (number, str(number), {"water", "energy"}))
                self.assertAlmostEqual(values["hydro"] + values["thermal"], 150)
                self.assertAlmostEqual(values["volume_out"] + values["hydro"] + values["spill"], stage.incoming["volume"] + stage.randoms["inflow"])
                self.assertAlmostEqual(stage.cost, 50 * number * values["thermal"])
            self.assertAlmostEqual(scenario.cost, sum(it.cost for it in scenario.stages))
        self.assertAlmostEqual(found.mean, sum(found.costs) / 50)
        self.assertAlmostEqual(found.gap, found.mean - found.bound)
        with self.assertRaisesRegex(ValueError, "the number of scenarios is a whole number from 0 to 1000, not 1001"):
            simulate(three_stages().compile(), self.journal, seed=1, scenarios=1001)

    def test_no_scenarios(self):
        found = simulate(self.trained(three_stages()), self.journal, seed=1, scenarios=0)
        self.assertTrue(math.isnan(found.mean))
        self.assertEqual(found.half_width(), math.inf)

    def test_half_width(self):
        # the mean of 1, 2, 3 has the standard error 1 / sqrt 3; 95 per cent of a normal distribution are within 1.959964
        self.assertAlmostEqual(half_width([1, 2, 3], 0.95), 1.959964 / math.sqrt(3), places=6)

    def test_revenues(self):
        found = simulate(self.trained(newsvendor()), self.journal, seed=1, scenarios=20)
        self.assertEqual({round(it, 3) for it in found.costs}, {2.5})
        self.assertAlmostEqual(found.scenarios[0].stages[0].values["x_out"], 10, places=3)
        self.assertAlmostEqual(found.gap, found.bound - found.mean)

    def test_a_report_is_read_as_the_tools_read_it(self):
        for model in (three_stages("1/3", "0.7"), newsvendor()):
            self.journal = self.folder / f"{len(model.nodes)}.journal"
            compiled = self.trained(model)
            output = run(find_program(), ["simulate", str(self.journal), "5", "20"], compiled.problem).output
            found, report = simulation_of(compiled, output), report_of(compiled, output)
            self.assertEqual([numbers_of(it) for it in found.scenarios], turned_back(compiled, output))
            self.assertEqual([it.cost for it in found.scenarios], [float(it.total) for it in report.scenarios])
            stages = [(it.incoming, max(map(abs, it.residuals.values()), default=0)) for one in found.scenarios for it in one.stages]
            theirs = [(it.incoming, it.residual) for one in report.scenarios for it in one.stages]
            floats = [({name: float(report.value(it)) for name, it in table.items()}, float(report.value(most))) for table, most in theirs]
            self.assertEqual(stages, floats)
            self.assertEqual(found.exact_bound, report.bound)

    def test_names_of_all_kinds(self):
        model = Model({'a "quoted"\n\x1f\\ \u00fc\u2028 state': 1})
        stage = model.stage("s")
        state, x = stage.state('a "quoted"\n\x1f\\ \u00fc\u2028 state', 0, 2), stage.variable("x y\x7f", 0, 1)
        stage.add(state.incoming == state.outgoing + x, name="the row")
        model.node("n 1", stage)
        outcome = simulate(self.trained(model, 1), self.journal, seed=1, scenarios=1).scenarios[0].stages[0]
        self.assertEqual((outcome.incoming, outcome.residuals), ({state.name: 1}, {"the row": 0}))
        self.assertEqual(set(outcome.values), {state.outgoing.name, x.name})

    def test_stored_scenarios(self):
        model = newsvendor()
        model.scenario([("buy", {}), ("sell", {"d": 8})])
        found = validate(self.trained(model), self.journal)
        # 10 are bought, and 8 sold: -12.5 + 12 - 0.2
        self.assertAlmostEqual(found.scenarios[0].cost, -0.7, places=3)
        self.assertEqual(found.scenarios[0].stages[1].randoms, {"d": 8})

    @needs_pandas
    def test_the_table(self):
        table = simulate(self.trained(three_stages()), self.journal, seed=1, scenarios=2).table()
        self.assertEqual((table.index.names, len(table)), (["scenario", "stage"], 6))
        self.assertEqual(list(table.columns), ["node", "volume", "inflow", "volume_out", "hydro", "thermal", "spill", "cost", "residual"])

    @needs_numpy
    def test_an_array(self):
        array = simulate(self.trained(newsvendor()), self.journal, seed=1, scenarios=4).array("u")
        self.assertEqual(array.shape, (4, 2))
        self.assertEqual([math.isnan(it) for it in array[0]], [True, False])


class Evaluations(Trained):
    def test_the_cost_of_a_policy(self):
        found = evaluate(self.trained(three_stages()), self.journal)
        self.assertLessEqual(found.exact_bound, F(25000, 3))
        self.assertGreaterEqual(found.exact_upper, F(25000, 3))
        self.assertLess(found.gap, 0.001)
        self.assertGreaterEqual(F(found.upper), found.exact_upper)
        self.assertIsNone(found.missed)

    def test_revenues(self):
        found = evaluate(self.trained(newsvendor()), self.journal)
        self.assertLessEqual(found.exact_upper, F(5, 2))
        self.assertGreaterEqual(found.exact_bound, F(5, 2))
        self.assertLess(found.gap, 0.001)

    def test_a_missed_row(self):
        # decisions are multiples of 2^-24, so 3 u = 1 is missed
        model = Model()
        stage = model.stage("s")
        u = stage.variable("u", 0, 1)
        stage.add(3 * u == 1, name="third")
        model.node("n", stage, [(1, {}), (1, {})])
        found = evaluate(self.trained(model, 1), self.journal)
        self.assertEqual((found.upper, found.gap, found.missed.branch, found.missed.row), (None, None, (("n", 0),), "third"))
        self.assertTrue(0 < found.missed.residual < 1e-6)

    def test_the_worst_weights(self):
        compiled = self.trained(one_reservoir(), 2)
        # the costs are 20 and 10: 15 in the mean, 17.5 where the first is three times as likely
        self.assertLessEqual(robust(compiled, self.journal).exact_worst, F("17.5"))
        self.assertGreater(robust(compiled, self.journal).exact_worst, F("17.49"))
        self.assertAlmostEqual(check(compiled, self.journal).bound, 15, places=3)
        self.assertEqual({it.node for it in robust(compiled, self.journal).planes}, {"n"})


class Units(Trained):
    """The three stages in other units: what is known of them is known in these too."""

    def test_all_results_are_in_the_users_units(self):
        for unit, price in (("0.37", "0.013"), ("1/3", 250), (1000, "1e-3"), (0.1, "1/7")):
            with self.subTest(unit=unit, price=price):
                self.units(exact(unit), exact(price), three_stages(unit, price))

    def units(self, unit, price, model):
        self.journal = self.folder / f"{unit.numerator}-{unit.denominator}-{price.numerator}.journal"
        compiled, optimum = self.trained(model), float(F(25000, 3) * unit * price)
        self.assertEqual(compiled.warnings, ())
        checked, policy = check(compiled, self.journal), evaluate(compiled, self.journal)
        self.assertAlmostEqual(checked.bound / optimum, 1, places=6)
        self.assertLessEqual(checked.exact_bound, F(25000, 3) * unit * price)
        self.assertAlmostEqual(policy.upper / optimum, 1, places=6)
        # docs/use/GUIDE.md: 11,388.89 at 150 units, 8,333.33 at 200; the cost is convex, and a unit saves at least the least price of fuel
        worth = checked.water_values("1", {"volume": 200 * unit})["volume"] / float(price)
        self.assertTrue(50 - 1e-4 < worth < (11388.89 - 8333.33) / 50 + 1e-4, worth)
        for scenario in simulate(compiled, self.journal, seed=3, scenarios=3).scenarios:
            for number, stage in enumerate(scenario.stages, 1):
                self.assertAlmostEqual((stage.values["hydro"] + stage.values["thermal"]) / float(150 * unit), 1, places=6)
                self.assertAlmostEqual(stage.cost, float(50 * number * price) * stage.values["thermal"], places=4)
                self.assertIn(round(stage.randoms["inflow"] / float(unit), 6), (0, 50, 100))


class Missing(Trained):
    """What is said where pandas or numpy is not there."""

    def test_packages(self):
        compiled = self.trained(three_stages(), 2)
        simulation = simulate(compiled, self.journal, seed=1, scenarios=1)
        for package, asked in (("pandas", simulation.table), ("numpy", lambda: simulation.array("hydro"))):
            with mock.patch.dict("sys.modules", {package: None}), self.assertRaises(MissingPackage) as caught:
                asked()
            self.assertIn(f"{package} is needed for this: Debian has it as python3-{package}", str(caught.exception))

    def test_the_standard_library_is_enough(self):
        allowed, before = builtins.__import__, {"numpy", "pandas"}

        def only(name, *others):
            if name.partition(".")[0] in before:
                raise AssertionError(f"{name} was imported")
            return allowed(name, *others)

        with mock.patch.object(builtins, "__import__", only):
            self.assertEqual(check(self.trained(three_stages(), 2), self.journal).iterations, 2)


if __name__ == "__main__":
    unittest.main()
