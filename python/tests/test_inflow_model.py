"""Inflows in models: two reservoirs in a row are built, compiled and trained on, and bounds compared with linear programs from outside."""
import json
import unittest
from fractions import Fraction as F

from inflow_support import Folder, needs_numpy, needs_scipy, record_of, two_stations
from hydroplan.inflows import (
    Autoregression, Horizon, Lattice, grouped_years, independent_years, markov_classes, model_with_inflows, periodic_autoregression,
    policy_graph,
)
from hydroplan.runs import train

DEMAND = [70, 66, 60, 52, 46, 42, 40, 42, 48, 56, 64, 70]
COSTS = {"coal": 8, "gas": 20, "deficit": 200}
MOST = {"coal": 25, "gas": 20, "deficit": 100}
BOX = {
    "upper": (50, 1800), "lower": (20, 250), "turbine_upper": (0, 400), "turbine_lower": (0, 500), "spill_upper": (0, 20000),
    "spill_lower": (0, 20000),
}
FIRST = {"upper": 100, "lower": 30}
FACTORS = {"turbine_upper": F("0.1"), "turbine_lower": F("0.06")}


def cascade(stage, node, inflow):
    """The upper reservoir's water runs into the lower one; both meet a demand beside coal and gas."""
    upper, lower = (stage.state(name, *BOX[name]) for name in ("upper", "lower"))
    turbine_upper, turbine_lower, spill_upper, spill_lower = (stage.variable(name, *BOX[name]) for name in list(BOX)[2:])
    plants = {name: stage.variable(name, 0, MOST[name]) for name in COSTS}
    stage.add(upper.outgoing + turbine_upper + spill_upper == upper.incoming + inflow["aure"], name="water_upper")
    stage.add(
        lower.outgoing + turbine_lower + spill_lower == lower.incoming + turbine_upper + spill_upper + inflow["bygd"], name="water_lower")
    energy = FACTORS["turbine_upper"] * turbine_upper + FACTORS["turbine_lower"] * turbine_lower
    stage.add(energy + sum(plants.values()) == DEMAND[(node.stage - 1) % 12], name="energy")
    stage.minimize(sum(COSTS[name] * plant for name, plant in plants.items()))


def built(inflows):
    return model_with_inflows(inflows, cascade, FIRST)


def branches(inflows):
    """All that can come: for each node of the tree its parent, stage from 0, probability and inflow."""
    found, ends = [], [(None, F(1), None, None)]
    for at, layer in enumerate(inflows.stages):
        following = []
        for parent, probability, number, inflow in ends:
            for share, to, own in _next(inflows, at, layer, number):
                for it in own.realizations:
                    values = {name: F(value) for name, value in it.values.items()}
                    if isinstance(inflows, Autoregression):
                        before = inflow or {name: F(value) for name, value in inflows.previous.items()}
                        values = {name: F(layer.coefficients[name]) * before[name] + shock for name, shock in values.items()}
                    found.append((parent, at, probability * share * F(it.weight, own.weight), values))
                    following.append((len(found) - 1, found[-1][2], to, values))
        ends = following
    return found


def _next(inflows, at, layer, number):
    if not isinstance(inflows, Lattice):
        return [(F(1), 0, layer.shocks if isinstance(inflows, Autoregression) else layer)]
    weights = inflows.initial if number is None else inflows.transitions[at - 1][number]
    return [(F(weight, sum(weights)), to, layer[to]) for to, weight in enumerate(weights) if weight]


def optimum(inflows):
    """The least expected cost of the cascade, by the linear program over the whole tree (HiGHS, by scipy)."""
    import numpy
    from scipy.optimize import linprog
    from scipy.sparse import lil_matrix

    tree, names = branches(inflows), [*BOX, *COSTS]
    width = len(names)
    rows, sides = lil_matrix((3 * len(tree), width * len(tree))), numpy.zeros(3 * len(tree))
    costs, bounds = numpy.zeros(width * len(tree)), []
    for node, (parent, at, probability, inflow) in enumerate(tree):
        place = {name: node * width + it for it, name in enumerate(names)}
        for row, (own, minus) in enumerate((
            (("upper", "turbine_upper", "spill_upper"), ()), (("lower", "turbine_lower", "spill_lower"), ("turbine_upper", "spill_upper")),
        )):
            reservoir, station = (("upper", "aure"), ("lower", "bygd"))[row]
            for name, sign in (*((name, 1) for name in own), *((name, -1) for name in minus)):
                rows[3 * node + row, place[name]] = sign
            sides[3 * node + row] = inflow[station] + (FIRST[reservoir] if parent is None else 0)
            if parent is not None:
                rows[3 * node + row, parent * width + names.index(reservoir)] = -1
        for name, factor in (*FACTORS.items(), *((name, 1) for name in COSTS)):
            rows[3 * node + 2, place[name]] = float(factor)
        sides[3 * node + 2] = DEMAND[at % 12]
        for name, cost in COSTS.items():
            costs[place[name]] = cost * probability
        bounds += [*BOX.values(), *((0, MOST[name]) for name in COSTS)]
    return linprog(costs, A_eq=rows.tocsr(), b_eq=sides, bounds=bounds, method="highs").fun


@needs_numpy
class Models(Folder):
    def trained(self, inflows, iterations):
        compiled = built(inflows).compile(successor_total=256)
        self.assertEqual(compiled.ledger[-1], "0 numbers were rounded")
        journal = self.folder / "plan.journal"
        journal.unlink(missing_ok=True)
        return train(compiled, journal, seed=7, iterations=iterations, progress=False)

    def all_kinds(self, record, horizon, groups=4):
        return [
            independent_years(record, horizon), grouped_years(record, horizon, groups, seed=1), markov_classes(record, horizon, 2),
            periodic_autoregression(record, horizon),
        ]

    @needs_scipy
    def test_twelve_months(self):
        for inflows in self.all_kinds(two_stations(), Horizon(12)):
            found = self.trained(inflows, 10)
            self.assertEqual((found.iterations, found.bounds[-1] >= found.bounds[0] > 0), (10, True))

    @needs_scipy
    def test_bounds_are_near_the_optimum_from_outside(self):
        wet = two_stations()
        record = record_of(*([row for row in year] for year in wet.values[:4]), stations=("aure", "bygd"))
        for inflows in self.all_kinds(record, Horizon(3, start=10), groups=2):
            found, least = self.trained(inflows, 60), optimum(inflows)
            self.assertLessEqual(found.bound, least * (1 + 1e-9))
            self.assertLess(least - found.bound, 1e-4 * least, inflows.about.method)

    def test_the_nodes_of_a_lattice(self):
        inflows = markov_classes(two_stations(), Horizon(3, start=11), 2)
        problem = json.loads(built(inflows).compile().problem)
        self.assertEqual(list(problem["nodes"]), ["1 0", "1 1", "2 0", "2 1", "3 0", "3 1"])
        counts = inflows.transitions[1]
        for number in (0, 1):
            wanted = {f"3 {to}": count for to, count in enumerate(counts[number]) if count}
            found = problem["nodes"][f"2 {number}"]["successors"]
            self.assertEqual({it: F(weight, sum(found.values())) for it, weight in found.items()}, {
                it: F(count, sum(wanted.values())) for it, count in wanted.items()})
        self.assertEqual(len(built(inflows).compile().ledger), 1)
        states = []
        model_with_inflows(inflows, lambda stage, node, inflow: states.append((node.stage, node.state, sorted(inflow))))
        self.assertEqual(states, [(stage, number, ["aure", "bygd"]) for stage in (1, 2, 3) for number in (0, 1)])

    def test_parts_that_the_package_makes_stand_at_the_user_s_line(self):
        def fill(stage, node, inflow):
            for name, variable in inflow.items():
                stage.add(variable >= 0, name=f"at least {name}")

        model = model_with_inflows(periodic_autoregression(two_stations(), Horizon(2)), fill)
        for stage in model.stages.values():
            self.assertEqual({it.place.file for it in (stage, *stage.constraints)}, {__file__})

    def test_the_states_of_an_autoregression(self):
        inflows = periodic_autoregression(two_stations(), Horizon(2))
        model = built(inflows)
        self.assertEqual(model.initial["inflow_aure"], F(inflows.previous["aure"]))
        stage, own = model.stages["2"], inflows.stages[1]
        row = next(it for it in stage.constraints if it.name == "inflow_bygd").relation
        self.assertEqual({it.name: value for it, value in row.terms.terms.items()}, {
            "inflow_bygd_out": 1, "inflow_bygd_in": -F(own.coefficients["bygd"]), "shock_bygd": -1})
        self.assertEqual((row.set_type, row.lower), ("EqualTo", 0))
        bounds = stage.all_variables["inflow_bygd_out"]
        self.assertEqual((bounds.lower, bounds.upper), (F(own.lower["bygd"]), F(own.upper["bygd"])))
        found = [values["shock_bygd"] for _, values in model.nodes["2"].realizations]
        self.assertEqual(found, [F(it.values["bygd"]) for it in own.shocks.realizations])

    def test_a_graph_with_a_discount(self):
        graph = policy_graph(independent_years(two_stations(), Horizon(2)), discount="0.9")
        self.assertEqual((dict(graph.nodes[0].successors), graph.nodes[0].stop), ({"2": F(9, 10)}, F(1, 10)))
        self.assertEqual(graph.nodes[1].value.step, 2)


if __name__ == "__main__":
    unittest.main()
