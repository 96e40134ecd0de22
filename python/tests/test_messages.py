"""Messages of the package that no other test reads, each as a user gets it."""
import contextlib
import io
import unittest
from unittest import mock

from inflow_support import needs_numpy, record_of
from model_support import Folder, one_reservoir
import hydroplan
from hydroplan.__main__ import main
from hydroplan.errors import ModelError, NoStageSolution, NotLinear
from hydroplan.model import Model, PolicyGraph
from hydroplan.plants import Bus, NotDescribed, Random, Reservoir, System, column
from hydroplan.runs import train

HERE = r"\(.*test_messages\.py:\d+\)"


class Messages(Folder):
    def refused(self, words, make, kind=ModelError):
        with self.assertRaisesRegex(kind, words):
            make()


class OfThePackage(Messages):
    def test_a_name_that_it_has_not(self):
        self.refused("module 'hydroplan' has no attribute 'nothing'", lambda: hydroplan.nothing, AttributeError)
        self.assertIn("train", dir(hydroplan))

    def test_a_command_that_it_has_not(self):
        errors = io.StringIO()
        with contextlib.redirect_stderr(errors):
            self.assertEqual((main(["nothing"]), main([])), (2, 2))
        hint = "./hydroplan help lists the commands, and ./hydroplan help COMMAND says what one takes and prints\n"
        self.assertEqual(errors.getvalue(), f"hydroplan: there is no command `nothing`\n{hint}hydroplan: a command is missing\n{hint}")


class OfModels(Messages):
    def stage(self, model=None):
        return (model or Model({"v": 1})).stage("p")

    def test_expressions_that_are_not_linear(self):
        stage = self.stage()
        x, w = stage.variable("x", 0, 1), stage.random("w")
        hint = "; random values stand by themselves, and a random factor is stated by nodes with stages of their own"
        self.refused(rf'\Athe product of "x" {HERE} and "w" {HERE} is not linear {HERE}{hint}\Z', lambda: x * w, NotLinear)
        self.refused(rf'\Aa power of "x" {HERE} is not linear {HERE}\Z', lambda: x ** 2, NotLinear)
        self.refused(rf'\Aa number divided by "x" {HERE} is not linear {HERE}\Z', lambda: 2 / x, NotLinear)

    def test_variables_of_another_stage(self):
        model = Model({})
        x, other = model.stage("p").variable("x", 0, 1), model.stage("q")
        self.refused(rf'\Aconstraint "c" of stage "q" {HERE} has the variable "x" {HERE} of stage "p"\Z', lambda: other.add(x <= 1, name="c"))
        self.refused(rf'\Athe objective of stage "q" {HERE} has the variable "x" {HERE} of stage "p"\Z', lambda: other.minimize(x))

    def test_numbers_that_are_none(self):
        stage = self.stage()
        w = stage.random("w")
        model = Model({})
        node = model.node("n", model.stage("p"))
        self.assertEqual(node.name, "n")
        self.refused(rf"\Athe discount {HERE} has to be a number, and is 'x'\Z", lambda: PolicyGraph.linear(2, discount="x"))
        self.refused(
            r'\Athe weight of the successor "m" of node "o" .* has to be a number, and is ',
            lambda: model.node("o", model.stage("o"), successors={"m": "a"}),
        )
        self.refused(
            rf'\A"y" has a value in a step to "n" {HERE}, and is no random variable of stage "p"\Z', lambda: model.scenario([("n", {"y": 1})]),
        )
        self.refused(r"\Athe tolerance has to be a number, and is 'x'\Z", lambda: one_reservoir().compile(tolerance="x"))
        self.assertEqual(w.kind, "random")

    def test_resolutions(self):
        self.refused(r'\Athe resolution of "v" is above 0, not 0\Z', lambda: one_reservoir().compile({"v": 0}))
        self.refused(r"\Athe resolution is above 0, not -1\Z", lambda: one_reservoir().compile(-1))
        self.refused(
            r'\Aa resolution is given, and "u" is not known; known are cost, g, q, v, v_in, v_out, w\Z', lambda: one_reservoir().compile({"u": 1}),
        )

    def test_numbers_that_become_too_large(self):
        model = Model({"v": 1})
        stage = model.stage("p")
        v = stage.state("v", 0, 1)
        stage.add(v.outgoing == v.incoming)
        stage.minimize(v.outgoing + 2**50)
        model.node("n", stage)
        self.refused(
            r'TooLarge at the constant of the objective of stage "p" .*: \d+ becomes \d+, above 2\^40: choose a smaller scale', model.compile,
        )

    def test_a_node_without_decisions_and_random_values(self):
        model = Model({"v": 1})
        stage = model.stage("p")
        v = stage.state("v", 0, 9)
        stage.add(v.outgoing == v.incoming)
        stage.add(v.outgoing >= 2, name="need")
        model.node("n", stage)
        compiled = model.compile()
        words = r'\Ano stage solution: node "n" has no decisions at its realization with v = 1 coming in; its rows .*need ask too much together'
        self.refused(words, lambda: train(compiled, self.folder / "J", seed=1, iterations=1, progress=False), NoStageSolution)


class OfPlants(Messages):
    def test_numbers_of_a_system(self):
        self.refused(rf"\Athe yearly rate of the system {HERE} has to be a number, and is 'x'", lambda: System(1, yearly_rate="x"))
        self.refused(rf"\Athe resolution of discounts of the system {HERE} has to be a number", lambda: System(1, discount_resolution="x"))

    def test_numbers_of_a_file(self):
        path = self.folder / "demand.csv"
        path.write_text("demand\n4\nmuch\n", encoding="utf-8")
        words = rf'\A"demand" of bus "b" {HERE}, column "demand" of .*demand\.csv:3 has to be a number, and is \'much\'\Z'
        self.refused(words, lambda: System(2).add(Bus("b", column(path, "demand"))))

    def test_inflows_of_a_description(self):
        system = System(1)
        system.add(Bus("b", 5, 90), Reservoir("r", bus="b", maximum=9, initial=1, turbine=3, productivity=1, spill=9, inflow=Random("s")))
        system.outcomes([[(1, {"s": "0.5"})]])
        words = r'\A"inflow" of reservoir "r" .* in stage 1 is 1/2 in the units of the description, and not whole: choose finer units\Z'
        self.refused(words, system.to_description, NotDescribed)
        blocks = System(1, {"day": 12, "night": 12})
        blocks.add(Bus("b", 5, 90))
        self.refused(rf"\Athe system {HERE} has load blocks, and a description has none\Z", blocks.to_description, NotDescribed)


class OfInflows(Messages):
    @needs_numpy
    def test_lengths_of_steps(self):
        from hydroplan.inflows.records import _lengths

        self.refused(r"\Aa length in days has to be a number, and is 'x'\Z", lambda: _lengths(["x"], 1))

    @needs_numpy
    def test_groups_that_stay_empty(self):
        from hydroplan.inflows import Horizon, InflowError, grouped_years

        def fails(*given, **chosen):
            raise clusters.ClusterError

        clusters = mock.Mock(ClusterError=type("ClusterError", (Exception,), {}), kmeans2=fails)
        words = r"\A\d+ attempts left some of 2 groups empty: take fewer groups or another seed\Z"
        with mock.patch("hydroplan.inflows.resampling._clusters", return_value=clusters):
            self.refused(words, lambda: grouped_years(record_of((1, 2), (3, 2), (5, 2)), Horizon(2), 2, seed=7), InflowError)


if __name__ == "__main__":
    unittest.main()
