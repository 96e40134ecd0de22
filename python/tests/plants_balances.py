"""Balances of water and energy of a path, recomputed from its decisions alone in fractions, by the names of docs/use/PLANTS.md.

Nothing is taken from the rows of the model: each balance is the sum of what the elements of the case say, with exact numbers.
"""
from __future__ import annotations

from fractions import Fraction as F

from scenario_trees import as_way
from hydroplan.plants import As, Flow, Random

HM3 = F(36, 10000)


def pick(given, stage, block):
    """The number of a stage and block."""
    for _ in range(3):
        if isinstance(given, dict):
            given = given[block]
        elif isinstance(given, (list, tuple)):
            given = given[stage - 1]
    return F(str(given))


class Balances:
    """The balances of a case along a path."""

    def __init__(self, case, path) -> None:
        self.case, self.path = case, path

    def of(self, *kinds):
        """The elements of some kinds."""
        return [it for it in self.case.elements if it.KIND in kinds]

    def name(self, word, it, block=None):
        """The name of a decision."""
        return ":".join([word, it.name, block] if block is not None and len(self.case.blocks) > 1 else [word, it.name])

    def hours(self, stage, block):
        """The hours of a block."""
        return pick(self.case.blocks[block], stage.number, block)

    def tiers(self, stage, word, it, block=None):
        """The sum of the tiers of a decision; 0 where there are none."""
        start = f"{word}:{it.name}"
        end = f":{block}" if block is not None and len(self.case.blocks) > 1 else ""
        names = {f"{start}{end}", *(f"{start}:{at}{end}" for at in (1, 2))}
        return sum((stage.values[name] for name in names if name in stage.values), F(0))

    def blocks(self, stage, word, it):
        """The sum of a decision over the blocks."""
        return sum((stage.values.get(self.name(word, it, block), F(0)) for block in self.case.blocks), F(0))

    def random(self, given, stage, block):
        """A number, perhaps times the value of a station."""
        if isinstance(given, Random):
            return pick(given.factor, stage.number, block) * stage.randoms[given.station]
        return pick(given, stage.number, block)

    def water(self, given, stage):
        """hm3 of a stage."""
        if given is None:
            return F(0)
        if isinstance(given, Flow):
            return sum((self.random(given.values, stage, block) * self.hours(stage, block) * HM3 for block in self.case.blocks), F(0))
        return self.random(given, stage, None)

    def of_water(self, it, stage):
        """What is there before, comes and leaves, less what is there after."""
        before = F(str(it.initial)) if stage.number == 1 else self.path[stage.number - 2].values[f"volume:{it.name}_out"]
        found = before + self.water(it.inflow, stage) + self.arriving(it, stage) - stage.values[f"volume:{it.name}_out"]
        found -= self.blocks(stage, "turbined", it) + stage.values[f"spilled:{it.name}"]
        for word in ("evaporation", "irrigation"):
            found -= self.water(getattr(it, word), stage) - self.tiers(stage, f"missing_{word}", it)
        for pump in self.of("pump"):
            found += ((pump.target == it.name) - (pump.source == it.name)) * self.blocks(stage, "pumped", pump)
        return found

    def arriving(self, it, stage):
        """What left other reservoirs stages ago, or was under way at first."""
        found = F(0)
        for other in self.of("reservoir"):
            turbined = as_way(other.downstream)
            spilled = turbined if other.spilled is As.TURBINED else as_way(other.spilled)
            for word, way in (("turbined", turbined), ("spilled", spilled)):
                if way is None or way.to != it.name or (word == "spilled" and spilled == turbined and stage.number <= way.travel):
                    continue
                if stage.number <= way.travel:
                    found += F(str(way.under_way[stage.number - 1])) if way.under_way else 0
                    continue
                source = self.path[stage.number - 1 - way.travel]
                found += self.blocks(source, word, other) if word == "turbined" else source.values[f"spilled:{other.name}"]
        return found

    def of_store(self, it, stage):
        """What is stored before and changes, less what is stored after."""
        before = F(str(it.initial)) if stage.number == 1 else self.path[stage.number - 2].values[f"stored:{it.name}_out"]
        into, out = self.blocks(stage, "charged", it), self.blocks(stage, "discharged", it)
        return before + pick(it.charging, stage.number, None) * into - out - stage.values[f"stored:{it.name}_out"]

    def of_energy(self, bus, stage, block):
        """What comes to a bus and is missing there, less the demand."""
        found = self.tiers(stage, "deficit", bus, block) - self.random(bus.demand, stage, block) * self.hours(stage, block)
        found += sum((self.brought(it, stage, block) for it in self.case.elements if getattr(it, "bus", None) == bus.name), F(0))
        for it in self.of("line"):
            sent, back = (stage.values.get(self.name(word, it, block), F(0)) for word in ("sent", "sent_back"))
            arriving = pick(it.arriving, stage.number, None)
            found += (arriving * back - sent) * (it.source == bus.name) + (arriving * sent - back) * (it.target == bus.name)
        return found

    def brought(self, it, stage, block):
        """The energy that an element brings to its bus."""
        words = ("turbined", "taken", "imported", "exported", "pumped", "charged", "discharged")
        value = {word: stage.values.get(self.name(word, it, block), F(0)) for word in words}
        if it.KIND == "reservoir":
            flows = isinstance(it.productivity, Flow)
            factor = pick(it.productivity.values, stage.number, block) / HM3 if flows else pick(it.productivity, stage.number, block)
            return factor * value["turbined"]
        if it.KIND == "pump":
            return -pick(it.energy, stage.number, block) / pick(it.efficiency, stage.number, None) * value["pumped"]
        if it.KIND == "battery":
            return pick(it.discharging, stage.number, None) * value["discharged"] - value["charged"]
        if it.KIND == "thermal":
            return self.tiers(stage, "generation", it, block)
        return {"renewable": value["taken"], "import": value["imported"]}[it.KIND] if it.KIND != "export" else -value["exported"]

    def all(self):
        """Each balance: the stage, the row that it is the balance of, and by how much it is missed."""
        for stage in self.path:
            for it in self.of("reservoir"):
                yield stage, self.name("water", it), self.of_water(it, stage)
            for it in self.of("battery"):
                yield stage, self.name("store", it), self.of_store(it, stage)
            for it in self.of("bus"):
                for block in self.case.blocks:
                    yield stage, self.name("energy", it, block), self.of_energy(it, stage, block)
