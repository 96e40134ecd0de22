"""Small systems of plants drawn at random: each feature on or off, numbers with few decimals, so that nothing has to be rounded."""
from __future__ import annotations

import random
from dataclasses import dataclass, field
from typing import Any, Dict, List

import model_support  # noqa: F401
from hydroplan.plants import (
    As, Battery, Bus, Export, Import, Line, Pump, Random, Renewable, Reservoir, System, Thermal, Tiers, Way, flow,
)


@dataclass
class Case:
    """A system before it is made: what its constructor takes, its elements, and its outcomes."""

    stages: int
    blocks: Dict[str, Any] = field(default_factory=lambda: {"all": 1})
    elements: List[Any] = field(default_factory=list)
    outcomes: List[Any] = field(default_factory=list)
    yearly_rate: Any = 0
    stages_per_year: int = 1
    discount_resolution: Any = "0.01"

    def system(self) -> System:
        """The system."""
        found = System(
            self.stages, self.blocks, yearly_rate=self.yearly_rate, stages_per_year=self.stages_per_year,
            discount_resolution=self.discount_resolution,
        )
        found.add(*self.elements)
        found.outcomes(self.outcomes)
        return found


class Draw:
    """Draws a case from a seed."""

    def __init__(self, seed: int) -> None:
        self.random = random.Random(seed)
        self.stages = self.random.choice([2, 2, 3])
        self.blocks = self.random.choice([{"all": 10}, {"peak": 4, "base": [6] * self.stages}, {"peak": [2, 3, 4][:self.stages], "base": 5}])
        self.stations: Dict[str, List[int]] = {}

    def often(self, chance=0.5) -> bool:
        """Whether a feature is there."""
        return self.random.random() < chance

    def whole(self, low, high):
        """A whole number."""
        return self.random.randint(low, high)

    def series(self, low, high):
        """A number, or one for each stage."""
        return self.whole(low, high) if self.often() else [self.whole(low, high) for _ in range(self.stages)]

    def by_block(self, low, high):
        """A number, one for each stage, each block, or both."""
        if self.often():
            return self.series(low, high)
        if self.often():
            return {block: self.series(low, high) for block in self.blocks}
        return [{block: self.whole(low, high) for block in self.blocks} for _ in range(self.stages)]

    def rising(self, size, low, high):
        """Two tiers whose costs do not fall."""
        first = self.whole(low, high)
        return Tiers((self.whole(1, size), first), (self.whole(1, size), [first + self.whole(0, 5) for _ in range(self.stages)]))

    def station(self, name, low, high):
        """A station with the range of its values."""
        self.stations[name] = [low, high]
        return name

    def case(self) -> Case:
        """The case."""
        buses = ["north", "south"][: self.whole(1, 2)]
        names = ["alp", "lake", "sea"][: self.whole(1, 3)]
        elements: List[Any] = [self.bus(name) for name in buses]
        elements += [self.thermal(f"t{at}", bus) for bus in buses for at in range(self.whole(0, 2))]
        elements += [self.reservoir(name, at, names, buses) for at, name in enumerate(names)]
        if len(buses) == 2:
            elements.append(Line("tie", "north", "south", self.by_block(0, 20), self.by_block(0, 9), self.random.choice([1, "0.9", "0.95"])))
        elements += self.others(buses, names)
        outcomes = [[(self.whole(1, 3), self.values()) for _ in range(self.whole(1, 3))] for _ in range(self.stages)]
        rate = self.random.choice([0, "0.1"])
        return Case(self.stages, self.blocks, elements, outcomes, rate, self.random.choice([1, 2]))

    def values(self):
        """A value for each station."""
        return {name: self.whole(low, high) for name, (low, high) in self.stations.items()}

    def bus(self, name):
        """A bus with a demand and deficits for all of it."""
        tiers = Tiers(("0.1", 60), ("0.9", {block: 90 for block in self.blocks}))
        demand = Random(self.station(f"demand_{name}", 20, 30), self.random.choice([1, "1.5"])) if self.often(0.3) else self.by_block(15, 40)
        return Bus(name, demand, self.random.choice([80, tiers]))

    def thermal(self, name, bus):
        """A thermal with or without tiers, minimum and maintenance."""
        name = f"{name}_{bus}"
        more = {"availability": [self.random.choice([1, "0.5", 0]) for _ in range(self.stages)]} if self.often() else {}
        if self.often():
            low = self.by_block(5, 15)
            return Thermal(name, bus, Tiers((6, 10), (self.by_block(1, 9), self.by_block(11, 30))), minimum=self.random.choice([0, 3]), **more)
        return Thermal(name, bus, self.by_block(5, 40), self.by_block(5, 15), minimum=self.random.choice([0, 0, 4]), **more)

    def reservoir(self, name, at, names, buses):
        """A reservoir with some of its features."""
        more: Dict[str, Any] = {}
        if at + 1 < len(names):
            travel = self.whole(0, 2)
            under_way = [self.whole(0, 5) for _ in range(travel)] if self.often() else ()
            more["downstream"] = Way(names[at + 1], travel, under_way) if self.often(0.8) else names[at + 1]
            more["spilled"] = self.random.choice([As.TURBINED, As.TURBINED, None, names[-1], Way(names[-1], 1)])
        for member, penalty, needed in (
            ("minimum_outflow", "outflow_penalty", self.series(0, 14)), ("evaporation", "evaporation_penalty", self.series(0, 3)),
            ("irrigation", "irrigation_penalty", self.series(0, 5)), ("alert", "alert_penalty", self.series(1, 15)),
            ("target", "target_penalty", [None] * (self.stages - 1) + [self.whole(5, 25)]),
        ):
            if self.often(0.35):
                tiers = self.series(0, 20) if self.often() else Tiers((2, self.whole(1, 9)), (50, 9))
                more.update({member: needed, penalty: tiers})
        if self.often(0.4):
            more["end_value"] = self.random.choice([7, Tiers((8, 9), (10, 4))])
        if self.often(0.2):
            more["minimum_outflow"], more["outflow_penalty"] = flow(50), 11
        turbine = self.series(4, 12) if self.often(0.6) else flow(self.by_block(100, 400))
        productivity = self.random.choice([8, flow("0.036"), self.by_block(0, 12)])
        inflow = Random(self.station(name, -1 if self.often(0.2) else 0, 20))
        if self.often(0.2):
            inflow = flow(Random(self.station(name, 0, 300)))
        return Reservoir(
            name, self.series(30, 40), self.whole(5, 30), 200, self.whole(0, 3), inflow, self.random.choice(buses), turbine, productivity,
            self.random.choice([0, 0, 1]), **more,
        )

    def others(self, buses, names):
        """What stands beside: wind, contracts, a battery, a pump."""
        found: List[Any] = []
        bus = self.random.choice(buses)
        if self.often(0.4):
            available = Random(self.station("wind", 0, 10), self.by_block(1, 2)) if self.often(0.7) else self.by_block(0, 10)
            found.append(Renewable("wind", bus, available))
        if self.often(0.3):
            found.append(Import("market", bus, self.by_block(2, 9), self.by_block(10, 50), self.random.choice([0, 1])))
        if self.often(0.3):
            least = self.whole(0, 1) if any(isinstance(it, Import) for it in found) else 0  # what is bought can be sold again
            found.append(Export("neighbour", bus, self.by_block(1, 9), self.by_block(5, 20), least))
        if self.often(0.4):
            found.append(Battery("cells", bus, self.series(20, 30), 3, 4, 10, self.random.choice([1, "0.9"]), self.random.choice([1, "0.8"])))
        if self.often(0.4) and len(names) > 1:
            maximum = self.series(1, 4) if self.often() else flow(100)
            found.append(Pump("lift", bus, names[-1], names[0], maximum, self.whole(1, 9), self.random.choice([1, "0.75"])))
        return found
