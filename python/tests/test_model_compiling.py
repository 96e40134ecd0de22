"""Models to problems in whole numbers, by the steps of convert. Expected numbers are worked out by hand."""
import contextlib
import functools
import io
import json
import unittest
from fractions import Fraction as F
from unittest import mock

from model_support import Folder, newsvendor, one_reservoir, three_stages
from random_models import Draw
from hydroplan.errors import ModelError, ModelRefused, Unbounded
from hydroplan.model import Model, read_stochopt
from hydroplan.tools.converting import problem_text
from hydroplan.tools.convert_command import main as convert
from hydroplan.tools.scales import write_scales


class Compiling(unittest.TestCase):
    def test_three_stages(self):
        compiled = three_stages().compile()
        problem = json.loads(compiled.problem)
        self.assertEqual(problem["root"], {"state_variables": {"volume": 200}, "successors": {"1": 1}})
        self.assertEqual([it["probability"] for it in problem["nodes"]["1"]["realizations"]], [1, 1, 1])
        program = problem["subproblems"]["3"]["subproblem"]
        self.assertEqual(program["objective"]["function"]["terms"], [{"coefficient": 150, "variable": "thermal"}])
        self.assertEqual(program["constraints"][1]["set"], {"type": "EqualTo", "value": 150})
        self.assertEqual((compiled.ledger, compiled.warnings, compiled.maximizes), (("0 numbers were rounded",), (), False))
        self.assertEqual((compiled.node_names, compiled.state_names, compiled.row_names("1")), (["1", "2", "3"], ["volume"], ["water", "energy"]))

    def test_decimals_and_sense_max(self):
        compiled = newsvendor().compile()
        problem = json.loads(compiled.problem)
        # costs: 1.25, 1.5 / 4 and 0.1 are whole at 40; u has the bound 20.25, and 14.5 is asked for
        self.assertEqual((compiled.scales.cost, compiled.scales.subproblems["sell"].variables), (40, {"d": F(2), "u": F(4)}))
        self.assertEqual([it["probability"] for it in problem["nodes"]["sell"]["realizations"]], [2, 3])
        self.assertEqual(problem["subproblems"]["buy"]["subproblem"]["objective"]["function"]["terms"], [{"coefficient": 50, "variable": "x_out"}])
        self.assertTrue(compiled.maximizes)
        self.assertIn("all costs are negated", compiled.ledger[0])

    def test_alternatives_and_shares(self):
        problem = json.loads(one_reservoir().compile().problem)
        self.assertEqual(problem["nodes"]["n"]["alternatives"], [[3, 1], [1, 3]])

    def test_successors_and_stop(self):
        model = Model()
        stage = model.stage("s")
        stage.minimize(stage.variable("x", 0, 1))
        model.node("a", stage, successors={"b": "0.57", "c": 0.38}, stop="1/20")
        model.node("b", stage)
        model.node("c", stage)
        node = json.loads(model.compile().problem)["nodes"]["a"]
        self.assertEqual((node["successors"], node["stop"]), ({"b": 57, "c": 38}, 5))
        node = json.loads(model.compile(successor_total=256).problem)["nodes"]["a"]
        self.assertEqual((node["successors"], node["stop"]), ({"b": 171, "c": 114}, 15))

    def test_floats_as_weights(self):
        model = Model()
        stage = model.stage("s")
        stage.minimize(stage.variable("x", 0, 1))
        model.node("n", stage, [(1 / 6, {}), (1 / 3, {}), (0.5, {})])
        self.assertEqual([it["probability"] for it in json.loads(model.compile().problem)["nodes"]["n"]["realizations"]], [1, 2, 3])

    def test_a_stage_without_a_node_is_left_out(self):
        model = one_reservoir()
        model.stage("idle").state("v", 0, 1)
        compiled = model.compile()
        self.assertEqual(compiled.problem, one_reservoir().compile().problem)
        self.assertRegex(compiled.ledger[0], r'left out: stage "idle" \(.*test_model_compiling\.py:\d+\): no node has it')

    def test_resolution(self):
        model = newsvendor()
        compiled = model.compile(resolution={"x": 0.5, "u": "0.1", "cost": "0.0001"}, tolerance="0.01")
        self.assertEqual((compiled.scales.states["x"], compiled.scales.subproblems["sell"].variables["u"], compiled.scales.cost), (2, 10, 10000))
        self.assertIn('rounded: the bound of "u" of stage "sell"', "\n".join(compiled.ledger))
        self.assertEqual(model.compile(resolution="0.01").scales.states["x"], 100)
        for wrong, said in (({"y": 1}, '"y" is not known'), ({"x": 0}, 'the resolution of "x" is above 0'), (-1, "the resolution is above 0")):
            with self.assertRaisesRegex(ModelError, said):
                model.compile(resolution=wrong)
        with self.assertRaisesRegex(
            ModelRefused, r'RoundedTooFar at the bound of "u" of stage "sell" \(.*model_support\.py:\d+\): 20.25 would be 2.025',
        ):
            model.compile(resolution={"u": 10})

    def test_a_problem_that_is_too_long(self):
        with mock.patch("hydroplan.programs.problem_text", functools.partial(problem_text, most=100)):
            with self.assertRaisesRegex(ModelError, "the problem would have more than 100 bytes"):
                three_stages().compile()

    def test_a_row_that_is_wide(self):
        model = Model()
        stage = model.stage("s")
        x, y = stage.variable("x", 0, 10**9), stage.variable("y", 0, 7)
        stage.add(10**7 * x + y >= 5, name="wide")
        model.node("n", stage)
        warning, = model.compile().warnings
        self.assertRegex(warning, r'range: constraint "wide" of stage "s" \(.*test_model_compiling\.py:\d+\): its coefficients are 1 to 10000000')


class Files(Folder):
    def convert(self, text, status=0):
        """The problem's bytes and the text of its scales, as the command makes them of a file of StochOptFormat."""
        source, problem, scales, ledger = (self.folder / it for it in ("in.json", "out.json", "scales.json", "ledger.txt"))
        source.write_text(text, encoding="utf-8")
        words = ["problem", source, "--output", problem, "--write-scales", scales, "--negate-max", "--ledger", ledger]
        with contextlib.redirect_stderr(io.StringIO()) as said:
            self.assertEqual(convert([str(it) for it in words]), status, said.getvalue())
        if status:
            return said.getvalue()
        return problem.read_bytes(), scales.read_text(encoding="utf-8")

    def test_convert_makes_the_same_of_random_models(self):
        done, seed = 0, 0
        while done < 50:
            model, seed = Draw(seed).model(), seed + 1
            try:
                compiled = model.compile()
            except ModelRefused as refused:  # a number that would be rounded too far: convert refuses it too
                self.assertEqual(refused.kind, "RoundedTooFar")
                self.assertIn("RoundedTooFar", self.convert(model.to_stochopt(), status=1))
                continue
            problem, scales = self.convert(model.to_stochopt())
            self.assertEqual((problem, scales), (compiled.problem, write_scales(compiled.scales)), f"seed {seed - 1}")
            done += 1
        self.assertLess(seed, 80)

    def test_convert_makes_the_same_of_the_examples(self):
        for model in (three_stages(), one_reservoir(), newsvendor()):
            self.assertEqual(self.convert(model.to_stochopt())[0], model.compile().problem)

    def test_rows_keep_their_names_where_constraints_are_left_out(self):
        model = json.loads(newsvendor().to_stochopt())
        program = model["subproblems"]["sell"]["subproblem"]
        fixed = {"name": "fixed", "function": {"type": "Variable", "name": "d"}, "set": {"type": "EqualTo", "value": 1}}
        unnamed = {"function": program["constraints"][0]["function"], "set": {"type": "LessThan", "upper": 9}}
        program["constraints"] = [fixed, program["constraints"][0], unnamed, *program["constraints"][1:]]
        path = self.folder / "model.sof.json"
        path.write_text(json.dumps(model), encoding="utf-8")
        self.assertEqual(read_stochopt(path).compile().row_names("sell"), ["papers", "#1", "demand"])

    def test_a_file_of_stochoptformat(self):
        path = self.folder / "model.sof.json"
        path.write_text(newsvendor().to_stochopt(), encoding="utf-8")
        self.assertEqual(read_stochopt(path).compile().problem, newsvendor().compile().problem)
        self.assertEqual(read_stochopt(path).to_stochopt(), newsvendor().to_stochopt())

    def test_bounds_for_a_file(self):
        from model_support import TOP

        program = read_stochopt(TOP / "python" / "tests" / "data" / "newsvendor.sof.json")
        with self.assertRaisesRegex(ModelRefused, "Unbounded"):
            program.compile()
        compiled = program.compile(bounds={"u": (None, "20.25"), "x_out": (None, 20)})
        self.assertEqual(compiled.scales.cost, 40)

    def test_files_that_are_refused(self):
        path = self.folder / "model.sof.json"
        for text, said in (
            ("{", r"NotJson at .*\(line 1, column 2\)"), ('{"version": {"major": 3}}', r"Version at .*\(line 1, column 23\): version 3"),
        ):
            path.write_text(text, encoding="utf-8")
            with self.assertRaisesRegex(ModelRefused, said):
                read_stochopt(path)

    def test_written_files(self):
        problem, scales = self.folder / "problem.json", self.folder / "scales.json"
        compiled = newsvendor().compile()
        compiled.write(problem, scales)
        self.assertEqual(problem.read_bytes(), compiled.problem)
        self.assertEqual(json.loads(scales.read_text(encoding="utf-8"))["cost"], "40")


class Refusals(unittest.TestCase):
    def refused(self, model, said, kind=ModelError):
        with self.assertRaisesRegex(kind, said) as caught:
            model.compile()
        self.assertIn(".py:", str(caught.exception))

    def one(self, **states):
        """A model of one stage and one node."""
        model = Model(states)
        self.stage = model.stage("s")
        self.x = self.stage.variable("x", 0, 1)
        return model

    def test_unbounded_decisions_are_named_all_at_once(self):
        model = self.one(v=1)
        self.stage.state("v", 0)
        self.stage.variable("y", upper=3)
        model.node("n", self.stage)
        self.refused(
            model, r'"v_out" \(.*test_model_compiling.py:\d+\) of stage "s" has no upper bound; "y" \(.*:\d+\) of stage "s" has no lower bound',
            Unbounded,
        )

    def test_states(self):
        model = self.one(v=1)
        model.node("n", self.stage)
        self.refused(model, r'stage "s" \(.*\) lacks the state "v", which the model has \(.*\)')
        model = self.one()
        self.stage.state("v", 0, 1)
        model.node("n", self.stage)
        self.refused(model, r'the state "v" \(.*\) has no initial value in the model \(.*\)')

    def test_nodes(self):
        self.refused(Model(), "the model has no nodes")
        model = self.one()
        model.node("n", self.stage, successors={"mm": 1})
        self.refused(model, r'node "n" \(.*\) leads to a node that is not there: "mm" is not known')
        model.node("mm", self.stage, successors={"n": 1})
        self.refused(model, r'nodes lead back to themselves: n -> mm -> n; node "n"')
        model = self.one()
        model.node("n", self.stage)
        model.node("m", self.stage)
        self.refused(model, "several nodes may be the first, n, m: say by Model.root")
        model.root({"n": 0})
        self.refused(model, r"no weight is above 0: the root \(.*\)")
        model = self.one()
        model.node("n", self.stage, [(0, {})])
        self.refused(model, r'no weight is above 0: node "n"')

    def test_realizations(self):
        model = self.one()
        wet = self.stage.random("wet")
        for values, said in (({}, 'the random variable "wet" .* has no value in node "n"'),
                             ({"dry": 1}, '"dry" has a value in node "n" .*and is no random'),
                             ({wet: "much"}, 'the value of "wet" in node "n" .* has to be a number')):
            with self.assertRaisesRegex(ModelError, said):
                model.node("n", self.stage, [(1, values)])
        for wrong in ({wet: 1}, (1, 2), (1, {wet: 1}, 3), 5):
            with self.assertRaisesRegex(ModelError, r'a realization of node "n" \(.*\) is a weight and values by name, as in \(1, {..}\), not '):
                model.node("n", self.stage, [wrong])
        with self.assertRaisesRegex(ModelError, r'the successors of node "n" \(.*\) are weights by name, as in {"next": 1}, not \[\'m\'\]'):
            model.node("n", self.stage, [(1, {wet: 1})], ["m"])
        with self.assertRaisesRegex(ModelError, 'the weight of a realization of node "n" .* is below 0: -1'):
            model.node("n", self.stage, [(-1, {wet: 1})])
        with self.assertRaisesRegex(ModelError, 'an alternative of node "n" .* has 2 weights for 1 realizations'):
            model.node("n", self.stage, [(1, {wet: 1})], alternatives=[[1, 1]])
        model.node("n", self.stage)
        self.refused(model, 'node "n" .* has no realizations, and its stage the random variable "wet"')

    def test_names_that_come_twice(self):
        model = self.one()
        model.node("n", self.stage)
        with self.assertRaisesRegex(ModelError, 'the node "n" .* is there already: node "n"'):
            model.node("n", self.stage)
        with self.assertRaisesRegex(ModelError, 'the stage "s" is there already'):
            model.stage("s")
        with self.assertRaisesRegex(ModelError, 'the stage "s" of node "m" .* belongs to another model'):
            Model().node("m", self.stage)
        with self.assertRaisesRegex(ModelError, 'no node is named "m": a scenario steps there'):
            model.scenario([("m", {})])

    def test_what_the_whole_numbers_refuse_has_the_line(self):
        model = self.one()
        self.stage.add(self.x >= 10**20, name="great")
        model.node("n", self.stage)
        self.refused(model, r'TooLarge at the side of constraint "great" of stage "s" \(.*\): 1000.* above 2\^40', ModelRefused)
        model = self.one()
        model.node("n" * 200, self.stage)
        with self.assertRaisesRegex(ModelRefused, "has more than 128 bytes"):
            model.compile()

    def test_senses(self):
        model = self.one()
        self.stage.minimize(self.x)
        other = model.stage("t")
        other.maximize(other.variable("x", 0, 1))
        model.node("a", self.stage, successors={"b": 1})
        model.node("b", other)
        self.refused(model, "some subproblems minimise and others maximise", ModelRefused)


if __name__ == "__main__":
    unittest.main()
