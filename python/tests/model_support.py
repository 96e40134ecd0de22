"""What the tests of the package share: where it is, small models, and programs of a few lines in place of hydroplan."""
from __future__ import annotations

import stat
import sys
import tempfile
import unittest
from importlib.util import find_spec
from pathlib import Path
from typing import Callable

TOP = Path(__file__).resolve().parents[2]
if str(TOP / "python") not in sys.path:
    sys.path.insert(0, str(TOP / "python"))

from hydroplan.exact import exact  # noqa: E402
from hydroplan.model import Model, PolicyGraph, equally  # noqa: E402

HERE = Path(__file__).name


def three_stages(unit: object = 1, price: object = 1) -> Model:
    """The tutorial of SDDP.jl: the least expected cost is 25000/3 times the size of its unit of water and that of its prices."""
    size = exact(unit)

    def build(stage, node):
        volume, inflow = stage.state("volume", 0, 200 * size), stage.random("inflow")
        hydro, thermal = stage.variable("hydro", 0, 150 * size), stage.variable("thermal", 0, 150 * size)
        spill = stage.variable("spill", 0, 300 * size)
        stage.add(volume.outgoing + hydro + spill == volume.incoming + inflow, name="water")
        stage.add(hydro + thermal == 150 * size, name="energy")
        stage.minimize(price * (50 * node.stage * thermal))
        return equally([{inflow: 0}, {inflow: 50 * size}, {inflow: 100 * size}])

    return Model.build(PolicyGraph.linear(3), build, initial={"volume": 200 * size})


def one_reservoir() -> Model:
    """A store of 4, and 1 or 3 that come in; 9 units of energy, of which each that is burnt costs 5: 20 or 10, and 15 in the mean."""
    model = Model({"v": 4})
    stage = model.stage("p")
    v, w = stage.state("v", 0, 10), stage.random("w")
    q, g = stage.variable("q", 0, 8), stage.variable("g", 0, 20)
    stage.add(v.outgoing + q == v.incoming + w, name="water")
    stage.add(q + g == 9, name="energy")
    stage.minimize(5 * g)
    model.node("n", stage, equally([{w: 1}, {w: 3}]), alternatives=[[3, 1], [1, 3]])
    return model


def newsvendor() -> Model:
    """Papers at 1.25, sold at 1.5 where asked for, and 0.1 for each that is left.

    10 are asked for with probability 0.4, 14.5 else. With 10 papers 2.5 is earned for certain; each one more earns 0.6 · 1.5 - 0.4 · 0.1 -
    1.25, which is below 0.
    """
    model = Model({"x": 0})
    buy = model.stage("buy")
    x = buy.state("x", 0, 20)
    buy.maximize("-1.25" * x.outgoing)
    model.node("buy", buy, successors={"sell": 1})
    sell = model.stage("sell")
    left, asked, sold = sell.state("x", 0, 20), sell.random("d"), sell.variable("u", 0, "20.25")
    sell.add(left.incoming - sold == left.outgoing, name="papers")
    sell.add(sold <= asked, name="demand")
    sell.maximize(1.5 * sold - 0.1 * left.outgoing)
    model.node("sell", sell, [(0.4, {asked: 10}), (0.6, {asked: 14.5})])
    return model


class Folder(unittest.TestCase):
    """A folder for the files of a test."""

    def setUp(self):
        made = tempfile.TemporaryDirectory()
        self.addCleanup(made.cleanup)
        self.folder = Path(made.name)
        self.journal = self.folder / "plan.journal"

    def program(self, text):
        """A program of a few lines of Python, which has read its standard input."""
        path = self.folder / "program"
        path.write_text(f"#!{sys.executable}\nimport sys\nsys.stdin.buffer.read()\n{text}\n", encoding="utf-8")
        path.chmod(path.stat().st_mode | stat.S_IXUSR)
        return path


def needs(package: str) -> Callable:
    """Skips a test where a package is not there, and says so in a line."""
    there = find_spec(package) is not None
    reason = f"{package} is not there (Debian: python3-{package})"
    if not there:
        print(f"{reason}: tests that need it are skipped", file=sys.stderr)
    return unittest.skipUnless(there, reason)


needs_pandas, needs_numpy = needs("pandas"), needs("numpy")
