"""The extensive form of a case of plants: one linear program over its scenario tree, read from the members of the elements anew.

Nothing here goes through `hydroplan.Model` or the tables of `hydroplan.plants`: it is a second reading, with plain dictionaries, of
docs/use/PLANTS.md. HiGHS solves it (Huangfu and Hall 2018, by scipy.optimize.linprog).
"""
from __future__ import annotations

from model_support import needs
from scenario_trees import added, as_way, matrix, number, pick, scaled, tree
from hydroplan.plants import As, Flow, Random, Tiers

needs_scipy = needs("scipy")


class Extensive:
    """The linear program: columns by key, rows as dictionaries of columns. It is over the whole tree, or over the `nodes` that are given."""

    def __init__(self, case, nodes=None) -> None:
        self.case = case
        self.columns, self.costs, self.bounds = {}, [], []
        self.equal, self.most = [], []
        for node in tree(case) if nodes is None else nodes:
            self.write(node)

    def of(self, *kinds):
        """The elements of some kinds."""
        return [it for it in self.case.elements if it.KIND in kinds]

    def hours(self, node, block):
        """The hours of a block."""
        return pick(self.case.blocks[block], node.stage, block)

    def discount(self, node):
        """What the costs of a stage count."""
        years = (node.stage - 1) / self.case.stages_per_year
        step = number(self.case.discount_resolution)
        return round((1 + number(self.case.yearly_rate)) ** -years / step) * step

    def column(self, node, key, most, cost=0.0, least=0.0):
        """A decision of a node."""
        key = (id(node), *key)
        assert key not in self.columns, key
        self.columns[key] = len(self.costs)
        self.costs.append(node.chance * self.discount(node) * cost)
        self.bounds.append((least, most))
        return {self.columns[key]: 1.0}

    def at(self, node, *key):
        """A decision that is there already."""
        return {self.columns[(id(node), *key)]: 1.0}

    def power(self, given, node, block):
        """MWh of a power in MW, perhaps random."""
        if isinstance(given, Random):
            return pick(given.factor, node.stage, block) * node.values[given.station] * self.hours(node, block)
        return pick(given, node.stage, block) * self.hours(node, block)

    def water_of_block(self, given, node, block):
        """hm3 of a flow in a block."""
        inner = given.values
        factor, station = (inner.factor, node.values[inner.station]) if isinstance(inner, Random) else (inner, 1.0)
        return pick(factor, node.stage, block) * station * self.hours(node, block) * 0.0036

    def water(self, given, node):
        """hm3 of a stage."""
        if given is None:
            return 0.0
        if isinstance(given, Flow):
            return sum(self.water_of_block(given, node, block) for block in self.case.blocks)
        if isinstance(given, Random):
            return pick(given.factor, node.stage, None) * node.values[given.station]
        return pick(given, node.stage, None)

    def tiers(self, given, node, block, whole):
        """Sizes and costs."""
        if isinstance(given, Tiers):
            return [(pick(size, node.stage, block), pick(cost, node.stage, block)) for size, cost in given.tiers]
        return [] if given is None else [(whole, pick(given, node.stage, block))]

    def write(self, node):
        """The decisions and rows of a node."""
        for it in self.of("reservoir", "battery"):
            getattr(self, it.KIND)(node, it)
        for it in self.of("pump"):
            self.pump(node, it)
        for it in self.of("thermal", "line", "renewable", "import", "export"):
            for block in self.case.blocks:
                getattr(self, "write_" + it.KIND)(node, it, block)
        for it in self.of("reservoir"):
            self.balance(node, it)
        for it in self.of("bus"):
            for block in self.case.blocks:
                self.bus(node, it, block)

    def limited(self, node, it, given, word):
        """Water by block, within the limits of blocks or of the stage."""
        found = []
        for block in self.case.blocks:
            most = self.water_of_block(given, node, block) if isinstance(given, Flow) else self.water(given, node)
            found.append(self.column(node, (word, it.name, block), most))
        self.most.append((added(*found), self.water(given, node)))

    def reservoir(self, node, it):
        """Decisions of water, and what may go short."""
        volume = self.column(node, ("volume", it.name), pick(it.maximum, node.stage, None), 0, pick(it.minimum, node.stage, None))
        self.limited(node, it, it.turbine, "turbined")
        spilled = self.column(node, ("spilled", it.name), self.water(it.spill, node), pick(it.spill_penalty, node.stage, None))
        outflow = added(spilled, *(self.at(node, "turbined", it.name, block) for block in self.case.blocks))
        self.short(node, it, "outflow", self.water(it.minimum_outflow, node), it.outflow_penalty, outflow)
        self.short(node, it, "evaporation", self.water(it.evaporation, node), it.evaporation_penalty, None)
        self.short(node, it, "irrigation", self.water(it.irrigation, node), it.irrigation_penalty, None)
        self.short(node, it, "target", pick(it.target, node.stage, None), it.target_penalty, volume)
        self.short(node, it, "alert", pick(it.alert, node.stage, None), it.alert_penalty, volume)
        if node.stage == self.case.stages and it.end_value is not None:
            most = pick(it.maximum, node.stage, None)
            kept = [
                self.column(node, ("kept", it.name, at), size, -value) for at, (size, value) in enumerate(self.tiers(it.end_value, node, None, most))
            ]
            self.most.append((added(*kept, scaled(volume, -1)), 0.0))

    def short(self, node, it, word, needed, penalty, amount):
        """What is missing of an amount that is at least so much; `amount` is none where the rest leaves the reservoir."""
        if not needed and amount is not None:
            return
        missing = [
            self.column(node, ("missing", word, it.name, at), min(size, needed), cost)
            for at, (size, cost) in enumerate(self.tiers(penalty, node, None, needed))
        ]
        if amount is not None:
            self.most.append((scaled(added(amount, *missing), -1), -needed))
        else:
            taken = self.column(node, ("taken", word, it.name), needed)
            self.equal.append((added(taken, *missing), needed))

    def arriving(self, node, it):
        """What arrives in a reservoir: decisions of this node and of earlier ones, and what was under way at first."""
        parts, fixed = [], 0.0
        for other in self.of("reservoir"):
            turbined = as_way(other.downstream)
            spilled = turbined if other.spilled is As.TURBINED else as_way(other.spilled)
            together = turbined == spilled
            for word, way in (("turbined", turbined), ("spilled", spilled)):
                if way is None or way.to != it.name:
                    continue
                source = node.before(way.travel)
                if source is None:
                    if not (together and word == "spilled") and way.under_way:
                        fixed += number(way.under_way[node.stage - 1])
                    continue
                blocks = [(block,) for block in self.case.blocks] if word == "turbined" else [()]
                parts += [self.at(source, word, other.name, *block) for block in blocks]
        for pump in self.of("pump"):
            for block in self.case.blocks:
                sign = (pump.target == it.name) - (pump.source == it.name)
                parts.append(scaled(self.at(node, "pumped", pump.name, block), sign))
        return added(*parts), fixed

    def balance(self, node, it):
        """What is there before, comes and leaves is what is there after."""
        arriving, fixed = self.arriving(node, it)
        leaving = [self.at(node, "turbined", it.name, block) for block in self.case.blocks]
        leaving += [self.at(node, "spilled", it.name), self.at(node, "volume", it.name)]
        leaving += [self.at(node, "taken", word, it.name) for word in ("evaporation", "irrigation")]
        comes = self.water(it.inflow, node) + fixed + (number(it.initial) if node.parent is None else 0.0)
        before = {} if node.parent is None else self.at(node.parent, "volume", it.name)
        self.equal.append((added(*leaving, scaled(arriving, -1), scaled(before, -1)), comes))

    def pump(self, node, it):
        """Water that is lifted."""
        self.limited(node, it, it.maximum, "pumped")

    def battery(self, node, it):
        """What is charged and taken out, and what is stored."""
        stored = self.column(node, ("stored", it.name), pick(it.capacity, node.stage, None))
        change = []
        for block in self.case.blocks:
            into = self.column(node, ("charged", it.name, block), self.power(it.charge, node, block))
            out = self.column(node, ("discharged", it.name, block), self.power(it.discharge, node, block))
            change += [scaled(into, -pick(it.charging, node.stage, None)), out]
        before = {} if node.parent is None else self.at(node.parent, "stored", it.name)
        self.equal.append((added(stored, scaled(before, -1), *change), number(it.initial) if node.parent is None else 0.0))

    def write_thermal(self, node, it, block):
        """Generation in tiers."""
        left = pick(it.availability, node.stage, None)
        hours = self.hours(node, block) * left
        tiers = self.tiers(it.cost, node, block, None)
        found = [
            self.column(node, ("generation", it.name, block, at), hours * (pick(it.maximum, node.stage, block) if size is None else size), cost)
            for at, (size, cost) in enumerate(tiers)
        ]
        self.most.append((scaled(added(*found), -1), -hours * pick(it.minimum, node.stage, block)))

    def write_line(self, node, it, block):
        """Energy both ways."""
        self.column(node, ("sent", it.name, block), self.power(it.maximum, node, block))
        self.column(node, ("back", it.name, block), self.power(it.reverse, node, block))

    def write_renewable(self, node, it, block):
        """Energy that is taken."""
        self.column(node, ("taken", it.name, block), self.power(it.available, node, block))

    def write_import(self, node, it, block):
        """Energy that is bought."""
        self.column(
            node, ("imported", it.name, block), self.power(it.maximum, node, block), pick(it.cost, node.stage, block),
            self.power(it.minimum, node, block),
        )

    def write_export(self, node, it, block):
        """Energy that is sold."""
        self.column(
            node, ("exported", it.name, block), self.power(it.maximum, node, block), -pick(it.price, node.stage, block),
            self.power(it.minimum, node, block),
        )

    def productivity(self, it, node, block):
        """MWh per hm3."""
        if isinstance(it.productivity, Flow):
            return pick(it.productivity.values, node.stage, block) / 0.0036
        return pick(it.productivity, node.stage, block)

    def bus(self, node, it, block):
        """What comes and what is missing is the demand."""
        demand = self.power(it.demand, node, block)
        missing = [
            self.column(node, ("deficit", it.name, block, at), share * demand, cost)
            for at, (share, cost) in enumerate(self.tiers(it.deficit, node, block, 1.0))
        ]
        self.equal.append((added(*missing, *self.comes(node, it.name, block)), demand))

    def comes(self, node, bus, block):
        """What comes to a bus."""
        parts = []
        for it in self.of("reservoir"):
            if it.bus == bus:
                parts.append(scaled(self.at(node, "turbined", it.name, block), self.productivity(it, node, block)))
        for it in self.of("thermal"):
            if it.bus == bus:
                parts += [{at: 1.0} for key, at in self.columns.items() if key[:4] == (id(node), "generation", it.name, block)]
        for it in self.of("line"):
            sent, back, arrives = self.at(node, "sent", it.name, block), self.at(node, "back", it.name, block), pick(it.arriving, node.stage, None)
            parts += [scaled(sent, -1), scaled(back, arrives)] if it.source == bus else []
            parts += [scaled(sent, arrives), scaled(back, -1)] if it.target == bus else []
        for kind, word, sign in (("renewable", "taken", 1), ("import", "imported", 1), ("export", "exported", -1)):
            parts += [scaled(self.at(node, word, it.name, block), sign) for it in self.of(kind) if it.bus == bus]
        for it in self.of("pump"):
            if it.bus == bus:
                energy = pick(it.energy, node.stage, block) / pick(it.efficiency, node.stage, None)
                parts.append(scaled(self.at(node, "pumped", it.name, block), -energy))
        for it in self.of("battery"):
            if it.bus == bus:
                parts.append(scaled(self.at(node, "discharged", it.name, block), pick(it.discharging, node.stage, None)))
                parts.append(scaled(self.at(node, "charged", it.name, block), -1))
        return parts

    def optimum(self) -> float:
        """The least expected cost."""
        return self.solved(self.costs, self.equal, self.most, self.bounds)

    def missed(self) -> float:
        """By how much the rows are missed together at least: above 0 where there is no plan."""
        width, equal, most, costs = len(self.costs), [], [], []
        for part, side in self.equal:
            above, below = width + len(costs), width + len(costs) + 1
            costs += [1.0, 1.0]
            equal.append(({**part, above: 1.0, below: -1.0}, side))
        for part, side in self.most:
            most.append(({**part, width + len(costs): -1.0}, side))
            costs.append(1.0)
        return self.solved([0.0] * width + costs, equal, most, [*self.bounds, *[(0.0, None)] * len(costs)])

    def solved(self, costs, equal, most, bounds) -> float:
        """The least cost by HiGHS, within bounds, where some rows are equal to their sides and some at most these."""
        from scipy.optimize import linprog

        matrices = [matrix(rows, len(costs)) for rows in (equal, most)]
        sides = [[side for _, side in rows] or None for rows in (equal, most)]
        found = linprog(costs, A_ub=matrices[1], b_ub=sides[1], A_eq=matrices[0], b_eq=sides[0], bounds=bounds, method="highs")
        assert found.status == 0, found.message
        return found.fun
