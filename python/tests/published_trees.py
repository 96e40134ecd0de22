"""The problems of `published_models` once more, each written over its whole scenario tree as one linear program for HiGHS.

Nothing here uses the package: the numbers stand here again, and rows and columns are written for each node of the tree.
"""
from __future__ import annotations

from math import inf, sin
from typing import Callable, Dict, List, Sequence, Tuple


class TreeProgram:
    """A linear program of least cost that grows by columns and rows."""

    def __init__(self) -> None:
        self.costs: List[float] = []
        self.bounds: List[Tuple[float, float]] = []
        self.rows: List[Tuple[Dict[int, float], float, float]] = []

    def column(self, cost: float = 0, low: float = 0, high: float = inf) -> int:
        """A variable; its number."""
        self.costs.append(cost)
        self.bounds.append((low, high))
        return len(self.costs) - 1

    def columns(self, count: int, cost: float = 0, high: float = inf) -> List[int]:
        """Several variables that are alike."""
        return [self.column(cost, 0, high) for _ in range(count)]

    def row(self, terms: Dict[int, float], low: float = -inf, high: float = inf) -> None:
        """A constraint: the sum of the terms is between low and high."""
        self.rows.append((terms, low, high))

    def least(self) -> float:
        """The least cost, by HiGHS."""
        from scipy.optimize import Bounds, LinearConstraint, milp
        from scipy.sparse import coo_matrix

        entries = [(row, at, value) for row, (terms, _, _) in enumerate(self.rows) for at, value in terms.items()]
        row, at, value = zip(*entries)
        matrix = coo_matrix((value, (row, at)), shape=(len(self.rows), len(self.costs))).tocsr()
        sides = LinearConstraint(matrix, [it[1] for it in self.rows], [it[2] for it in self.rows])
        lows, highs = zip(*self.bounds)
        found = milp(self.costs, constraints=sides, bounds=Bounds(lows, highs))
        assert found.success, found.message
        return float(found.fun)


# what follows a stage of the hydro-thermal problem: share, inflow, multiplier of the price of fuel, and the climate then
Following = Callable[[int, int], Sequence[Tuple[float, float, float, int]]]


def hydro_thermal(following: Following) -> float:
    """Three stages; the climate is a number that `following` gives a meaning."""
    tree = TreeProgram()

    def grow(stage: int, chance: float, before: int, climate: int) -> None:
        for share, inflow, multiplier, then in following(stage, climate):
            volume, hydro, spill = tree.column(high=200), tree.column(), tree.column()
            thermal = tree.column(chance * share * multiplier * 50 * stage)
            tree.row({volume: 1, hydro: 1, spill: 1, before: -1}, inflow, inflow)
            tree.row({hydro: 1, thermal: 1}, 150, 150)
            if stage < 3:
                grow(stage + 1, chance * share, volume, then)

    grow(1, 1, tree.column(low=200, high=200), 0)
    return tree.least()


def same_prices(stage: int, climate: int) -> Sequence[Tuple[float, float, float, int]]:
    """0, 50 or 100 come in."""
    return [(1 / 3, inflow, 1, 0) for inflow in (0, 50, 100)]


def dear_when_dry(stage: int, climate: int) -> Sequence[Tuple[float, float, float, int]]:
    """Fuel costs 1.5 times as much where nothing comes in, and 0.75 times as much where 100 do."""
    return [(1 / 3, 0, 1.5, 0), (1 / 3, 50, 1, 0), (1 / 3, 100, 0.75, 0)]


def two_climates(stage: int, climate: int) -> Sequence[Tuple[float, float, float, int]]:
    """Climate 0 is wet and 1 dry; each stays with 3/4, and the first stage is wet."""
    wet, dry = ([(1 / 6, 0, 1.5), (1 / 3, 50, 1), (1 / 2, 100, 0.75)], [(1 / 2, 0, 1.5), (1 / 3, 50, 1), (1 / 6, 100, 0.75)])
    if stage == 1:
        return [(*it, 0) for it in wet]
    stay = [0.75, 0.25] if climate == 0 else [0.25, 0.75]
    return [(stay[then] * share, inflow, price, then) for then, outcomes in enumerate((wet, dry)) for share, inflow, price in outcomes]


def fast_hydro_thermal() -> float:
    """FAST's two stages: what 5 p costs, less than 0 as a revenue."""
    tree = TreeProgram()
    start = tree.column(high=0)

    def stage(chance: float, rain: float, before: int) -> int:
        left, used, burnt = tree.column(high=8), tree.column(), tree.column(5 * chance)
        tree.row({burnt: 1, used: 1}, low=6)
        tree.row({left: 1, before: -1, used: 1}, high=rain)
        return left

    first = stage(1, 6, start)
    stage(0.5, 2, first)
    stage(0.5, 10, first)
    return -tree.least()


def fast_production() -> float:
    """FAST's two products over three stages."""
    tree = TreeProgram()

    def grow(left: int, chance: float, before: List[int], demand: float) -> None:
        made = [tree.column(chance * price) for price in (0.2, 0.7)]
        sold = [tree.column(-chance * price) for price in (2.33, 2.54)]
        for now, at in zip(sold, before):
            tree.row({now: 1, at: -1}, high=0)
        tree.row({sold[0]: 1, sold[1]: 1}, high=demand)
        for following in (2, 10) if left else ():
            grow(left - 1, chance / 2, made, following)

    grow(2, 1, tree.columns(2, high=0), 0)
    return tree.least()


def fast_quickstart() -> float:
    """FAST's smallest."""
    tree = TreeProgram()
    bought = tree.column(1)
    for most in (2, 3):
        tree.row({tree.column(-1, high=most): 1, bought: -1}, high=0)
    return tree.least()


def power_expansion(stages: int) -> float:
    """Problem 5.2 of StructDualDynProg.jl."""
    tree = TreeProgram()

    def serve(chance: float, plants: List[int], demand: Sequence[float]) -> None:
        missing = tree.column(chance * 1e6)
        power = [[tree.column(chance * price * hours / 8760) for hours in (8760, 7000, 1500)] for price in (25, 80, 6.5, 160)]
        for at, row in zip(plants, power):
            tree.row({at: -1, **{it: 1 for it in row}}, high=0)
        for block, needed in enumerate(demand):
            tree.row({missing: 1, **{row[block]: 1 for row in power}}, low=needed)

    def grow(stage: int, chance: float, plants: List[int]) -> None:
        after = plants
        if stage < stages:
            after = [tree.column() for _ in plants]
            for before, now, price in zip(plants, after, (16, 5, 32, 2)):
                tree.row({now: 1, before: -1, tree.column(chance * price): -1}, 0, 0)
        for share, demand in ((0.9, (3919, 3410, 2986)), (0.1, (7086, 1918, 2165))) if stage < stages else ():
            serve(chance * share, after, demand)
            grow(stage + 1, chance * share, after)

    grow(1, 1, tree.columns(4, high=0))
    return tree.least()


def hydro_valley(rain: bool, markov: bool) -> float:
    """The revenue of two reservoirs in a row over three stages, with inflows or without, at one price or two."""
    tree = TreeProgram()

    def step(chance: float, price: float, before: List[int], water: Sequence[float]) -> List[int]:
        level, spill = tree.columns(2, high=200), tree.columns(2, 1000 * chance)
        used = [[tree.column(-chance * price * power, 0, 1) for power in (55, 65, 70)] for _ in (0, 1)]
        out = [{**dict(zip(row, (50, 60, 70))), lost: 1} for row, lost in zip(used, spill)]
        tree.row({level[0]: 1, before[0]: -1, **out[0]}, high=water[0])
        tree.row({level[1]: 1, before[1]: -1, **out[1], **{at: -it for at, it in out[0].items()}}, high=water[1])
        for row in used:
            tree.row({it: 1 for it in row}, high=1)
        return level

    def grow(stage: int, chance: float, state: int, before: List[int]) -> None:
        price = [[1], [2, 1], [3, 4]][stage - 1][state]
        inflows = [(0, 0), (20, 0), (50, 20)] if rain and stage > 1 else [(0, 0)]
        following = [[[0.6, 0.4]], [[0.6, 0.4], [0.3, 0.7]], [[], []]][stage - 1][state] if markov else [1.0] * (stage < 3)
        for water in inflows:
            level = step(chance / len(inflows), price, before, water)
            for then, share in enumerate(following):
                grow(stage + 1, chance * share / len(inflows), then, level)

    grow(1, 1, 0, [tree.column(low=200, high=200), tree.column(low=200, high=200)])
    return -tree.least()


def asset_management() -> float:
    """Birge and Louveaux's three periods of two kinds."""
    tree = TreeProgram()

    def grow(periods: int, chance: float, stocks: int, bonds: int) -> None:
        for good, safe in ((1.25, 1.14), (1.06, 1.12)):
            if periods == 1:
                tree.row({stocks: good, bonds: safe, tree.column(-chance / 2): -1, tree.column(4 * chance / 2): 1}, 80, 80)
            else:
                left, right = tree.columns(2)
                tree.row({stocks: good, bonds: safe, left: -1, right: -1}, 0, 0)
                grow(periods - 1, chance / 2, left, right)

    first = tree.columns(2)
    tree.row({first[0]: 1, first[1]: 1}, 55, 55)
    grow(3, 1, *first)
    return tree.least()


def electricity_planning() -> float:
    """Louveaux and Smeers: capacities, and three demands in the first of three modes."""
    tree = TreeProgram()
    prices = (10, 7, 16, 6)
    built = [tree.column(price) for price in prices]
    tree.row({it: 1 for it in built}, low=12)
    tree.row(dict(zip(built, prices)), high=120)
    for share, demand in ((0.3, 3), (0.4, 5), (0.3, 7)):
        power = [[tree.column(share * unit * mode) for mode in (10, 6, 1)] for unit in (4, 4.5, 3.2, 5.5)]
        for at, row in zip(built, power):
            tree.row({at: -1, **{it: 1 for it in row}}, high=0)
        for mode, needed in enumerate((demand, 3, 2)):
            tree.row({row[mode]: 1 for row in power}, low=needed)
    return tree.least()


def stock(inflows: Sequence[float], sign: int) -> float:
    """One stock over five stages: a control empties it (sign 1) or fills it (sign -1), and the inflow or the demand goes the other way."""
    tree = TreeProgram()

    def grow(stage: int, chance: float, before: int) -> None:
        for inflow in inflows:
            control, left = tree.column(chance / len(inflows) * (sin(3 * stage) - 1), 0, 0.5), tree.column(0, 0, 1)
            tree.row({left: 1, before: -1, control: sign}, sign * inflow, sign * inflow)
            if stage < 5:
                grow(stage + 1, chance / len(inflows), left)

    grow(1, 1, tree.column(low=0.5, high=0.5))
    return tree.least()


def three_stocks() -> float:
    """Three stocks that nothing joins, since their controls may all be greatest at once: three times the cost of one."""
    return 3 * stock((0, 0.15, 0.3), -1)
