"""Policy graphs: linear, Markov and lattice."""
import unittest
from fractions import Fraction as F

import model_support  # noqa: F401
from hydroplan.errors import ModelError
from hydroplan.model import Model, PolicyGraph


class Graphs(unittest.TestCase):
    def test_linear(self):
        graph = PolicyGraph.linear(12, discount="0.95")
        self.assertEqual([it.name for it in graph.nodes][:2], ["01", "02"])
        self.assertEqual((dict(graph.nodes[0].successors), graph.nodes[0].stop), ({"02": F(19, 20)}, F(1, 20)))
        self.assertEqual((graph.nodes[11].stage, dict(graph.nodes[11].successors), graph.nodes[11].stop), (12, {}, 0))
        self.assertEqual(dict(graph.root), {"01": 1})

    def test_markov(self):
        graph = PolicyGraph.markov(2, [[3, 1], ["1/3", "2/3"]], [1, 4], ["dry", "wet"])
        self.assertEqual([(it.name, it.stage, it.state, it.label) for it in graph.nodes], [
            ("1 dry", 1, 0, "dry"), ("1 wet", 1, 1, "wet"), ("2 dry", 2, 0, "dry"), ("2 wet", 2, 1, "wet")])
        self.assertEqual(dict(graph.nodes[0].successors), {"2 dry": 3, "2 wet": 1})
        self.assertEqual(dict(graph.nodes[1].successors), {"2 dry": F(1, 3), "2 wet": F(2, 3)})
        self.assertEqual(dict(graph.root), {"1 dry": 1, "1 wet": 4})
        self.assertEqual([it.name for it in PolicyGraph.markov(1, [], [1, 1]).nodes], ["1 0", "1 1"])

    def test_lattice(self):
        graph = PolicyGraph.lattice([[10], [5, 20], [7]], [[[1, 2]], [[1], [1]]], discount=0.5)
        self.assertEqual([(it.name, it.value) for it in graph.nodes], [("1 0", 10), ("2 0", 5), ("2 1", 20), ("3 0", 7)])
        self.assertEqual((dict(graph.nodes[0].successors), graph.nodes[0].stop), ({"2 0": F(1, 2), "2 1": 1}, F(3, 2)))

    def test_a_model_over_a_graph(self):
        def build(stage, node):
            stage.minimize(stage.variable("x", 1, 2))

        model = Model.build(PolicyGraph.markov(2, [[1, 1], [1, 0]], [1, 1]), build)
        self.assertEqual(list(model.nodes), ["1 0", "1 1", "2 0", "2 1"])
        self.assertIn("left out", " ".join(model.compile().ledger))

    def test_refusals(self):
        for made, said in (
            (lambda: PolicyGraph.linear(0), "at least one stage"),
            (lambda: PolicyGraph.linear(2, discount=1.5), "a discount is above 0 and at most 1, not 1.5"),
            (lambda: PolicyGraph.markov(2, [[1, 1]], [1, 1]), r"transitions\[0\] has 1 entries, and there are 2 nodes of the stage"),
            (lambda: PolicyGraph.markov(2, [[1], [1]], [1, 1]), r"transitions\[0\]\[0\] has 1 entries, and there are 2 nodes of the next stage"),
            (lambda: PolicyGraph.lattice([[1], [2]], []), "transitions has 0 entries, and there are 1 steps from stage to stage"),
            (lambda: PolicyGraph.lattice([[1]], [], initial=[1, 1]), "initial has 2 entries"),
            (lambda: PolicyGraph.markov(1, [], [1, 1], ["dry", "dry"]), "2 different labels are expected"),
        ):
            with self.assertRaisesRegex(ModelError, said + r".*test_model_graphs\.py:\d+\)"):
                made()

    def test_a_weight_below_0(self):
        with self.assertRaisesRegex(ModelError, r"a weight of a transition \(.*test_model_graphs\.py:\d+\) is below 0: -1"):
            PolicyGraph.markov(2, [[-1]], [1])


if __name__ == "__main__":
    unittest.main()
