"""Problems of other packages and books whose optima are published, as models of at most twelve lines each, below their names.

The data are those of the examples of SDDP.jl (Dowson and Kapelevich 2021), which took several from FAST, StructDualDynProg.jl and
StochDynamicProgramming.jl; Louveaux and Smeers (1988); Birge and Louveaux (2011). Variables without an upper bound there get one that
no plan of least cost reaches.
"""
from __future__ import annotations

from fractions import Fraction as F
from itertools import product
from math import sin

import model_support  # noqa: F401
from hydroplan.model import Model, PolicyGraph, dot, equally, total

FUEL = [(0, "1.5"), (50, 1), (100, "0.75")]
CLIMATES = [[1, 2, 3], [3, 2, 1]]


def hydro_thermal(graph):
    """A reservoir and a thermal plant; a node's value is what comes in and what multiplies the price of fuel."""
    def build(stage, node):
        inflow, multiplier = node.value
        volume = stage.state("volume", 0, 200)
        hydro, thermal, spill = (stage.variable(name, 0, 300) for name in ("hydro", "thermal", "spill"))
        stage.add(volume.outgoing + hydro + spill == volume.incoming + inflow, name="water")
        stage.add(hydro + thermal == 150, name="demand")
        stage.minimize(50 * node.stage * F(multiplier) * thermal)
    return Model.build(graph, build, {"volume": 200})


def hydro_thermal_with_inflow():
    """SDDP.jl's first tutorial: 0, 50 or 100 come in."""
    return hydro_thermal(PolicyGraph.lattice([[(0, 1), (50, 1), (100, 1)]] * 3, [[[1] * 3] * 3] * 2))


def hydro_thermal_with_prices():
    """Its third: the price of fuel is high where little comes in."""
    return hydro_thermal(PolicyGraph.lattice([FUEL] * 3, [[[1] * 3] * 3] * 2))


def hydro_thermal_with_climate():
    """Its fourth: a wet and a dry climate, which stay with probability 3/4; the first stage is wet."""
    stay = [[3 * (a == b) + (a != b) for b in (0, 1)] for a in (0, 1)]
    row = [[stay[a][b] * weight for b in (0, 1) for weight in CLIMATES[b]] for a in (0, 1)]
    steps = [[row[0]] * 3, [row[0]] * 3 + [row[1]] * 3]
    return hydro_thermal(PolicyGraph.lattice([FUEL, FUEL * 2, FUEL * 2], steps, CLIMATES[0]))


def fast_hydro_thermal():
    """FAST: two stages, the second with 2 or 10 of rain."""
    def build(stage, node):
        x, rain = stage.state("x", 0, 8), stage.random("rain")
        y, p = stage.variable("y", 0, 18), stage.variable("p", 0, 6)
        stage.add(p + y >= 6)
        stage.add(x.outgoing <= x.incoming - y + rain)
        stage.maximize(-5 * p)
        return equally([{rain: it} for it in ([6] if node.stage == 1 else [2, 10])])
    return Model.build(PolicyGraph.linear(2), build, {"x": 0})


def fast_production():
    """FAST: two products are made one stage before they are sold."""
    def build(stage, node):
        made = [stage.state(f"made{i}", 0, 20) for i in (1, 2)]
        sold, demand = [stage.variable(f"sold{i}", 0, 20) for i in (1, 2)], stage.random("demand")
        for now, it in zip(sold, made):
            stage.add(now <= it.incoming)
        stage.add(total(sold) <= demand)
        stage.minimize("0.2" * made[0].outgoing + "0.7" * made[1].outgoing - "2.33" * sold[0] - "2.54" * sold[1])
        return equally([{demand: it} for it in ([0] if node.stage == 1 else [2, 10])])
    return Model.build(PolicyGraph.linear(3), build, {"made1": 0, "made2": 0})


def fast_quickstart():
    """FAST: 1 is paid for a unit, of which 2 or 3 are sold at 2 each."""
    def build(stage, node):
        x = stage.state("x", 0, 5)
        if node.stage == 1:
            return stage.minimize(x.outgoing)
        sold, most = stage.variable("sold", 0, 3), stage.random("most")
        stage.add(sold <= x.incoming)
        stage.add(sold <= most)
        stage.minimize(-2 * sold)
        return equally([{most: 2}, {most: 3}])
    return Model.build(PolicyGraph.linear(2), build, {"x": 0})


DEMANDS = [(3919, 3410, 2986), (7086, 1918, 2165)]
HOURS = [F(1), F(7000, 8760), F(1500, 8760)]


def power_expansion(stages):
    """StructDualDynProg.jl, problem 5.2: four kinds of plant are built a stage before they serve three blocks of demand."""
    def build(stage, node):
        plants = [stage.state(f"x{i}", 0, 20000) for i in range(4)]
        new, missing = [stage.variable(f"v{i}", 0, 20000 if node.stage < stages else 0) for i in range(4)], stage.variable("missing", 0, 20000)
        power, demand = [[stage.variable(f"y{i}{j}", 0, 20000) for j in range(3)] for i in range(4)], [stage.random(f"d{j}") for j in range(3)]
        stage.add_all(plants[i].outgoing == plants[i].incoming + new[i] for i in range(4))
        stage.add_all(total(power[i]) <= plants[i].incoming for i in range(4))
        stage.add_all(total(it[j] for it in power) + missing >= demand[j] for j in range(3))
        fuel = total(dot([F(price) * it for it in HOURS], own) for price, own in zip(("25", "80", "6.5", "160"), power))
        stage.minimize(dot((16, 5, 32, 2), new) + fuel + 10**6 * missing)
        return [(weight, dict(zip(demand, it))) for weight, it in zip((9, 1), DEMANDS)] if node.stage > 1 else equally([dict.fromkeys(demand, 0)])
    return Model.build(PolicyGraph.linear(stages), build, {f"x{i}": 0 for i in range(4)})


def hydro_valley(inflows, graph):
    """SDDP.jl: two reservoirs in a row with three points of each turbine; a node's value is the price."""
    def build(stage, node):
        level = [stage.state(f"level{r}", 0, 200) for r in (0, 1)]
        used = [[stage.variable(f"use{r}{k}", 0, 1) for k in range(3)] for r in (0, 1)]
        spill, water = [stage.variable(f"spill{r}", 0, 500) for r in (0, 1)], [stage.random(f"water{r}") for r in (0, 1)]
        out = [dot((50, 60, 70), it) for it in used]
        stage.add(level[0].outgoing <= level[0].incoming + water[0] - out[0] - spill[0])
        stage.add(level[1].outgoing <= level[1].incoming + water[1] - out[1] - spill[1] + out[0] + spill[0])
        stage.add_all(total(it) <= 1 for it in used)
        stage.maximize(node.value * total(dot((55, 65, 70), it) for it in used) - 1000 * total(spill))
        return equally([dict(zip(water, it)) for it in (inflows if node.stage > 1 else inflows[:1])])
    return Model.build(graph, build, {"level0": 200, "level1": 200})


RAIN = [(0, 0), (20, 0), (50, 20)]
ONE_PRICE = PolicyGraph.lattice([[1], [2], [3]], [[[1]]] * 2)
TWO_PRICES = PolicyGraph.lattice([[1], [2, 1], [3, 4]], [[[6, 4]], [[6, 4], [3, 7]]])


def asset_management():
    """Birge and Louveaux: 55 grow in stocks and bonds for three periods to reach 80."""
    def build(stage, node):
        stocks, bonds = stage.state("stocks", 0, 500), stage.state("bonds", 0, 500)
        grown = 55 if node.stage == 1 else F(node.value[0]) * stocks.incoming + F(node.value[1]) * bonds.incoming
        if node.stage < 4:
            stage.add(stocks.outgoing + bonds.outgoing == grown)
            return stage.minimize(0)
        over, short = stage.variable("over", 0, 500), stage.variable("short", 0, 500)
        stage.add(grown - over + short == 80)
        return stage.minimize(4 * short - over)
    rates = [("1.25", "1.14"), ("1.06", "1.12")]
    return Model.build(PolicyGraph.lattice([[None], rates, rates, rates], [[[1, 1]], [[1, 1]] * 2, [[1, 1]] * 2]), build, {"stocks": 0, "bonds": 0})


def electricity_planning():
    """Louveaux and Smeers: capacity of four kinds of plant before one of three demands is known."""
    def build(stage, node):
        x = [stage.state(f"x{i}", 0, 20) for i in range(4)]
        if node.stage == 1:
            spent = dot((10, 7, 16, 6), (it.outgoing for it in x))
            stage.add_all([total(it.outgoing for it in x) >= 12, spent <= 120])
            return stage.minimize(spent)
        y, demand = [[stage.variable(f"y{i}{j}", 0, 20) for j in range(3)] for i in range(4)], stage.random("demand")
        stage.add_all(total(y[i]) <= x[i].incoming for i in range(4))
        stage.add_all(total(it[j] for it in y) >= needed for j, needed in enumerate((demand, 3, 2)))
        stage.minimize(total(F(unit) * dot((10, 6, 1), own) for unit, own in zip(("4", "4.5", "3.2", "5.5"), y)))
        return [(3, {demand: 3}), (4, {demand: 5}), (3, {demand: 7})]
    return Model.build(PolicyGraph.linear(2), build, {f"x{i}": 0 for i in range(4)})


def one_stock():
    """StochDynamicProgramming.jl: a stock that one of ten inflows fills and a control empties at changing prices."""
    def build(stage, node):
        stock, inflow = stage.state("stock", 0, 1), stage.random("inflow")
        control = stage.variable("control", 0, "0.5")
        stage.add(stock.outgoing == stock.incoming - control + inflow)
        stage.minimize((sin(3 * node.stage) - 1) * control)
        return equally([{inflow: F(it, 30)} for it in range(10)])
    return Model.build(PolicyGraph.linear(5), build, {"stock": "0.5"})


def three_stocks():
    """StochDynamicProgramming.jl: three stocks, each emptied by one of three demands and filled by a control."""
    def build(stage, node):
        stocks, demand = [stage.state(f"stock{i}", 0, 1) for i in range(3)], [stage.random(f"demand{i}") for i in range(3)]
        control = [stage.variable(f"control{i}", 0, "0.5") for i in range(3)]
        for i in range(3):
            stage.add(stocks[i].outgoing == stocks[i].incoming + control[i] - demand[i])
        stage.minimize((sin(3 * node.stage) - 1) * total(control))
        return equally([dict(zip(demand, it)) for it in product((0, "0.15", "0.3"), repeat=3)])
    return Model.build(PolicyGraph.linear(5), build, {f"stock{i}": "0.5" for i in range(3)})


def one_reservoir():
    """examples/one_reservoir.json: a store of 4, and 1 or 3 that come in."""
    model = Model({"volume": 4})
    stage = model.stage("stage")
    volume, inflow = stage.state("volume", 0, 10), stage.random("inflow")
    turbine, thermal = stage.variable("turbine", 0, 8), stage.variable("thermal", 0, 20)
    stage.add(volume.outgoing + turbine == volume.incoming + inflow)
    stage.add(turbine + thermal == 9)
    stage.minimize(5 * thermal)
    model.node("now", stage, equally([{inflow: 1}, {inflow: 3}]))
    return model


def two_reservoirs():
    """examples/two_reservoirs.json: two in a row, in three seasons, of which the last may not come."""
    model = Model({"upper": 50, "lower": 30})
    stage = model.stage("season")
    upper, lower, rain, demand = stage.state("upper", 10, 80), stage.state("lower", 5, 60), stage.random("rain"), stage.random("demand")
    high, low, spill, coal = (stage.variable(it, *box) for it, box in zip(("high", "low", "spill", "coal"), ((0, 30), (0, 25), (0, 100), (2, 60))))
    balances = [upper.outgoing + high == upper.incoming + rain, lower.outgoing + low + spill == lower.incoming + high]
    stage.add_all([*balances, high + low + coal >= demand])
    stage.minimize(7 * coal + spill + 12)
    model.node("spring", stage, [(1, {rain: 10, demand: 40}), (2, {rain: 25, demand: 40})], {"summer dry": 1, "summer wet": 3})
    model.node("summer dry", stage, [(1, {rain: 0, demand: 30})], {"autumn": 1}, stop=1)
    model.node("summer wet", stage, [(1, {rain: 15, demand: 30})], {"autumn": 1})
    model.node("autumn", stage, equally([{rain: 20, demand: 50}, {rain: 40, demand: 50}]))
    return model


LAKES = ("alp", "birch", "cliff", "dale", "elm")
ABOVE = ((), (0,), (1, 3), (), ())
SEASONS = [
    [(1, 1, 1, 1, 1, 310), (3, 2, 2, 3, 2, 300), (5, 3, 3, 5, 3, 295)], [(9, 2, 2, 6, 3, 270), (18, 5, 4, 12, 6, 260), (31, 8, 7, 21, 10, 255)],
    [(11, 2, 1, 4, 2, 230), (22, 4, 3, 8, 5, 220), (38, 7, 5, 14, 8, 215)], [(4, 1, 1, 2, 2, 270), (8, 3, 3, 5, 4, 260), (14, 5, 5, 8, 7, 255)],
    [(2, 1, 1, 1, 1, 320), (4, 2, 2, 3, 2, 310), (7, 3, 3, 5, 3, 305)],
]


def five_reservoirs():
    """examples/five_reservoirs.json: two cascades that meet and a lake apart, with targets at the end of the year."""
    def build(stage, node):
        lakes = [stage.state(name, 0, most) for name, most in zip(LAKES, (100, 30, 40, 80, 60))]
        used = [stage.variable(f"{name}_turbine", 0, most) for name, most in zip(LAKES, (25, 35, 60, 20, 15))]
        out = [turbine + stage.variable(f"{name}_spill", 0, 500) for name, turbine in zip(LAKES, used)]
        missing = [stage.variable(f"{name}_missing", 0, most if node.stage == 5 else 0) for name, most in zip(LAKES, (30, 10, 10, 25, 20))]
        burnt = [stage.variable(name, least, most) for name, least, most in (("coal", 10, 60), ("gas", 0, 60), ("oil", 0, 50), ("deficit", 0, 400))]
        random = [stage.random(name) for name in (*(f"{it}_inflow" for it in LAKES), "demand")]
        stage.add_all(it.outgoing + out[at] == it.incoming + random[at] + total(out[above] for above in ABOVE[at]) for at, it in enumerate(lakes))
        stage.add_all([dot((4, 2, 1, 3, 2), used) + total(burnt) == random[5], *(it.outgoing + gap >= gap.upper for it, gap in zip(lakes, missing))])
        stage.minimize(dot((3, 7, 15, 60), burnt) + dot((28, 14, 6, 18, 12), missing))
        return [(weight, dict(zip(random, it))) for weight, it in zip((1, 2, 1), SEASONS[node.stage - 1])]
    return Model.build(PolicyGraph.linear(5), build, dict(zip(LAKES, (60, 15, 20, 40, 30))))
