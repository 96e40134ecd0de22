"""Balances and costs of a study's scenarios, recomputed from decisions.csv and a second reading of the study alone."""
from __future__ import annotations

import csv
from collections import defaultdict
from fractions import Fraction

from exact_paths import ExactStage
from plants_balances import Balances, pick
from hydroplan.plants import Random, Tiers

OUTGOING = ("volume", "stored")
NEAR = Fraction(1, 10**5)


def rows_of(path):
    """The rows of a CSV file."""
    with path.open(newline="", encoding="utf-8") as file:
        return list(csv.DictReader(file))


def paths_of(case, results):
    """The stages of each scenario, with the names of docs/use/PLANTS.md and the outcome that its inflows and demands have."""
    found = defaultdict(dict)
    for row in rows_of(results / "decisions.csv"):
        stage = found[int(row["scenario"])].setdefault(int(row["stage"]), ExactStage(int(row["stage"])))
        block = f":{row['block']}" if row["block"] and len(case.blocks) > 1 else ""
        outgoing = "_out" if row["quantity"] in OUTGOING else ""
        stage.values[f"{row['quantity']}:{row['element']}{outgoing}{block}"] = Fraction(row["value"])
    return [[stages[at] for at in sorted(stages)] for _, stages in sorted(found.items())]


class DecisionBalances(Balances):
    """The balances of a case along a path of decisions.csv."""

    def __init__(self, case, path):
        super().__init__(case, path)
        for stage in path:
            stage.randoms = self.outcome(stage)

    def outcome(self, stage):
        """The values of stations of the outcome that the inflows and demands of a stage are of; none that is, is a failure."""
        fits = [own for _, own in self.case.outcomes[stage.number - 1] or [(1, {})] if self.fits(stage, own)]
        assert fits, ("no outcome has these inflows and demands", stage)
        return fits[0]

    def fits(self, stage, values):
        """Whether the inflows and demands are those of an outcome."""
        drawn = ExactStage(stage.number, randoms=values)
        pairs = [(self.water(it.inflow, drawn), stage.values[f"inflow:{it.name}"]) for it in self.of("reservoir")]
        for it in self.of("bus"):
            if isinstance(it.demand, Random):
                for block in self.case.blocks:
                    pairs.append((self.random(it.demand, drawn, block) * self.hours(drawn, block), stage.values[self.name("demand", it, block)]))
        return all(abs(given - told) <= NEAR for given, told in pairs)

    def outside(self):
        """Volumes outside their bounds: the stage and the reservoir."""
        for stage in self.path:
            for it in self.of("reservoir"):
                volume = stage.values[f"volume:{it.name}_out"]
                if not pick(it.minimum, stage.number, None) - NEAR <= volume <= pick(it.maximum, stage.number, None) + NEAR:
                    yield stage.number, it.name

    # costs

    def cost(self, stage):
        """The cost of a stage, discounted; tiers are filled in their order."""
        step = Fraction(str(self.case.discount_resolution))
        factor = (1 + float(self.case.yearly_rate)) ** (-(stage.number - 1) / self.case.stages_per_year)
        found = sum((self.of_block(stage, block) for block in self.case.blocks), Fraction(0)) + self.of_water_needs(stage)
        return found * round(factor / float(step)) * step

    def of_block(self, stage, block):
        """Generation, what is imported and exported, and deficits."""
        at, hours, found = stage.number, self.hours(stage, block), Fraction(0)
        for it in self.of("thermal"):
            sizes = hours * pick(it.availability, at, None)
            found += filled(self.tiers(stage, "generation", it, block), it.cost, at, block, sizes)
        for it in self.of("bus"):
            demand = self.random(it.demand, stage, block) * hours
            found += filled(self.tiers(stage, "deficit", it, block), it.deficit, at, block, demand)
        for it in self.of("import"):
            found += pick(it.cost, at, block) * self.tiers(stage, "imported", it, block)
        return found - sum(pick(it.price, at, block) * self.tiers(stage, "exported", it, block) for it in self.of("export"))

    def of_water_needs(self, stage):
        """Spill, what is missing, and the value of the water that is left."""
        at, found = stage.number, Fraction(0)
        for it in self.of("reservoir"):
            found += pick(it.spill_penalty, at, None) * stage.values[f"spilled:{it.name}"]
            for word in ("outflow", "evaporation", "irrigation", "target", "alert"):
                found += filled(self.tiers(stage, f"missing_{word}", it), getattr(it, f"{word}_penalty"), at, None, 1)
            if at == self.case.stages:
                found -= filled(stage.values[f"volume:{it.name}_out"], it.end_value, at, None, 1)
        return found


def filled(amount, tiers, stage, block, scale):
    """What an amount costs in tiers of sizes times a scale; what does not fit into them costs nothing."""
    if not isinstance(tiers, Tiers):
        return Fraction(0) if tiers is None else amount * pick(tiers, stage, block)
    found = Fraction(0)
    for size, cost in tiers.tiers:
        part = min(amount, pick(size, stage, block) * scale)
        found, amount = found + part * pick(cost, stage, block), amount - part
    return found
