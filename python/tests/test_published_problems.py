"""Published optima, from models of at most twelve lines: beside the certified bound, and beside the whole tree as HiGHS solves it.

Each row has the optimum as it is published with its tolerance, the model, the iterations of seed 7, and the tree as a program written
apart. Where the policy can be evaluated, what it costs is on the other side of the optimum.
"""
import ast
import unittest
from importlib.util import find_spec
from pathlib import Path
from typing import Callable, Dict, NamedTuple, Optional

import published_models as models
import published_trees as trees
from model_support import Folder
from hydroplan.runs import evaluate, train


class Published(NamedTuple):
    """An optimum as it is published, and the two ways to it."""

    optimum: float
    tolerance: float
    model: Callable
    tree: Optional[Callable]
    iterations: int = 60
    is_evaluated: bool = True
    resolution: Optional[Dict[str, str]] = None


ROWS = {
    "hydro-thermal, inflows": Published(25000 / 3, 1e-4, models.hydro_thermal_with_inflow, lambda: trees.hydro_thermal(trees.same_prices)),
    "hydro-thermal, prices": Published(10625, 1e-4, models.hydro_thermal_with_prices, lambda: trees.hydro_thermal(trees.dear_when_dry)),
    "hydro-thermal, climate": Published(8072.917, 1e-3, models.hydro_thermal_with_climate, lambda: trees.hydro_thermal(trees.two_climates)),
    "FAST, hydro-thermal": Published(-10, 1e-6, models.fast_hydro_thermal, trees.fast_hydro_thermal),
    "FAST, production": Published(-23.96, 1e-2, models.fast_production, trees.fast_production),
    "FAST, quickstart": Published(-2, 1e-6, models.fast_quickstart, trees.fast_quickstart),
    "expansion, 2 stages": Published(340315.52, 0.1, lambda: models.power_expansion(2), lambda: trees.power_expansion(2)),
    "expansion, 3 stages": Published(406712.49, 0.2, lambda: models.power_expansion(3), lambda: trees.power_expansion(3)),
    "hydro valley": Published(835, 1e-3, lambda: models.hydro_valley(models.RAIN[:1], models.ONE_PRICE), lambda: trees.hydro_valley(False, False)),
    "hydro valley, rain": Published(
        838.33, 1e-2, lambda: models.hydro_valley(models.RAIN, models.ONE_PRICE), lambda: trees.hydro_valley(True, False),
    ),
    "hydro valley, prices": Published(
        851.8, 1e-2, lambda: models.hydro_valley(models.RAIN[:1], models.TWO_PRICES), lambda: trees.hydro_valley(False, True),
    ),
    "hydro valley, both": Published(855, 1e-2, lambda: models.hydro_valley(models.RAIN, models.TWO_PRICES), lambda: trees.hydro_valley(True, True)),
    "asset management": Published(1.514, 1e-4, models.asset_management, trees.asset_management, is_evaluated=False, resolution={"cost": "0.001"}),
    "electricity planning": Published(381.853, 1e-3, models.electricity_planning, trees.electricity_planning),
    # its tree has 100,000 paths: HiGHS gives -1.471075, tried by hand
    "one stock": Published(-1.471, 1e-3, models.one_stock, None, is_evaluated=False),
    # the optima of these three were found by others' linear programs (examples/README.md)
    "one reservoir": Published(15, 1e-6, models.one_reservoir, None),
    "two reservoirs": Published(74.75, 1e-6, models.two_reservoirs, None),
    "five reservoirs": Published(1363.851074, 2, models.five_reservoirs, None, iterations=300, is_evaluated=False),
    "three stocks": Published(-4.349, 1e-2, models.three_stocks, trees.three_stocks, iterations=300, is_evaluated=False),
}
needs_scipy = unittest.skipUnless(find_spec("scipy"), "scipy is not there (Debian: python3-scipy)")


class Lines(unittest.TestCase):
    def test_each_model_has_at_most_twelve(self):
        functions = [it for it in ast.parse(Path(models.__file__).read_text(encoding="utf-8")).body if isinstance(it, ast.FunctionDef)]
        for it in functions:
            documented = isinstance(it.body[0], ast.Expr)
            with self.subTest(it.name):
                self.assertLessEqual(it.end_lineno - it.body[documented].lineno + 1, 12)


class PublishedOptima(Folder):
    def test_the_certified_bound_is_near(self):
        for name, row in ROWS.items():
            with self.subTest(name):
                compiled = row.model().compile(row.resolution, successor_total=256)
                trained = train(compiled, self.folder / name, seed=7, iterations=row.iterations, progress=False)
                self.assertEqual(trained.unanswered, 0)
                self.assertAlmostEqual(trained.bound, row.optimum, delta=row.tolerance)
                if row.is_evaluated:
                    self.assert_between(compiled, name, row)

    def assert_between(self, compiled, name, row):
        """The published optimum is between what is certified, as far as its digits go."""
        policy = evaluate(compiled, self.folder / name)
        low, high = sorted([policy.bound, policy.upper])
        self.assertLessEqual(low, row.optimum + row.tolerance)
        self.assertGreaterEqual(high, row.optimum - row.tolerance)
        self.assertLess(high - low, 2 * row.tolerance)

    @needs_scipy
    def test_the_whole_tree_gives_the_same(self):
        for name, row in ROWS.items():
            if row.tree is not None:
                with self.subTest(name):
                    self.assertAlmostEqual(row.tree(), row.optimum, delta=row.tolerance)

    @needs_scipy
    def test_no_bound_is_past_the_optimum_of_the_tree(self):
        for name in ("hydro-thermal, climate", "expansion, 3 stages", "hydro valley, both", "asset management", "electricity planning"):
            row = ROWS[name]
            with self.subTest(name):
                compiled = row.model().compile(row.resolution, successor_total=256)
                bound = train(compiled, self.folder / name, seed=7, iterations=row.iterations, progress=False).bound
                sign = -1 if compiled.maximizes else 1
                self.assertLessEqual(sign * bound, sign * row.tree() + 1e-7 * abs(row.optimum))


if __name__ == "__main__":
    unittest.main()
