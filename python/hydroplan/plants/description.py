"""A system as a description of hydro plants: what `hydroplan hydro` reads (docs/use/FORMAT.md), for the systems that it has words for."""
from __future__ import annotations

import json
import re
from dataclasses import dataclass, fields
from fractions import Fraction
from math import gcd, lcm
from typing import TYPE_CHECKING, Any, Dict, List, Tuple

from .elements import As, Bus, Element, Line, Numbers, Reservoir, Thermal
from .amounts import NotDescribed
from .rows import under_way

if TYPE_CHECKING:
    from .system import System

NAME = re.compile(r"[A-Za-z0-9_-]{1,16}\Z")
WORDS = (Bus, Thermal, Line, Reservoir)
BESIDE = {"name", "spilled", "downstream"}
DESCRIBED = {
    "bus": {"demand", "deficit"}, "thermal": {"bus", "cost", "maximum"}, "line": {"source", "target", "maximum", "reverse"},
    "reservoir": {"bus", "minimum", "maximum", "initial", "inflow", "turbine", "spill", "spill_penalty", "productivity"},
}


@dataclass(frozen=True)
class Units:
    """So many units of a description are a hm3, a MWh, and a unit of money."""

    water: Fraction
    energy: Fraction
    money: Fraction


def description_text(system: System, units: Units) -> str:
    """The description, in JSON, or NotDescribed with the first member that it has no words for."""
    return json.dumps(_Describer(system, units).description(), indent=1) + "\n"


class _Describer:
    """Describes a system in its units."""

    def __init__(self, system: System, units: Units) -> None:
        self._system = system
        self._units = units
        self._stages = range(1, system.horizon.stages + 1)
        self._block = system.horizon.blocks[0]
        self._prices: Dict[int, str] = {}

    def description(self) -> Dict[str, Any]:
        """All parts."""
        self._check_system()
        return {
            "buses": {bus.name: self._bus(bus, numbers) for bus, numbers in self._system.of_kind(Bus)},
            "reservoirs": {it.name: self._reservoir(it, numbers) for it, numbers in self._system.of_kind(Reservoir)},
            "thermals": {it.name: self._thermal(it, numbers) for it, numbers in self._system.of_kind(Thermal)},
            "lines": self._lines(),
            "stages": [self._stage(stage) for stage in self._stages],
        }

    def _check_system(self) -> None:
        called = f"the system ({self._system.place})"
        if len(self._system.horizon.blocks) > 1:
            raise NotDescribed(f"{called} has load blocks, and a description has none")
        graph = self._system.graph()
        if len(graph.nodes) > len(self._stages) or any(node.value.carried for node in graph.nodes):
            raise NotDescribed(f"{called} has inflows with classes or with a memory, and a description has years or groups alone")
        if any(self._system.discount(stage) != 1 for stage in self._stages):
            raise NotDescribed(f"{called} discounts costs, and a description does not")
        if len({tuple(hours.values()) for hours in self._system.horizon.hours}) > 1:
            raise NotDescribed(f"{called} has stages of different hours, and limits of a description are the same in all of them")
        for it, _ in self._system.of_kind(Element):
            if not isinstance(it, WORDS):
                raise NotDescribed(f"a description has no {it.KIND}: {it.called()}")
            self._check_members(it)

    def _check_members(self, it: Element) -> None:
        """Refuses members that a description lacks, where they are not what they are without being given."""
        if not NAME.match(it.name):
            raise NotDescribed(f"names of a description are 1 to 16 letters, digits, _ or -: {it.called()}")
        for member in fields(it):
            given = getattr(it, member.name)
            if member.name not in DESCRIBED[it.KIND] | BESIDE and given != member.default:
                raise NotDescribed(f'a description has no "{member.name}": {it.called()}')

    def _bus(self, it: Bus, numbers: Numbers) -> Dict[str, int]:
        tiers = numbers.tiers("deficit")
        if tiers is None or len(tiers) > 1 or tiers[0].size is not None:
            raise NotDescribed(f'a description needs one cost as "deficit" of {it.called()}')
        costs = {tiers[0].cost.at(stage, self._block) for stage in self._stages}
        price = self._constant(it, "deficit", costs, self._units.money / self._units.energy)
        self._prices.setdefault(price, it.called())
        if len(self._prices) > 1 and self._system.of_kind(Line):
            said = "; ".join(self._prices.values())
            raise NotDescribed(f"deficits of a description may leave their bus by lines, so with lines all cost the same: {said}")
        return {"deficit_cost": price}

    def _thermal(self, it: Thermal, numbers: Numbers) -> Dict[str, Any]:
        tiers = numbers.tiers("cost") or ()
        if len(tiers) != 1 or it.maximum is None:
            raise NotDescribed(f'a description has no tiers: "cost" of {it.called()}')
        costs = {tiers[0].cost.at(stage, self._block) for stage in self._stages}
        price = self._constant(it, "cost", costs, self._units.money / self._units.energy)
        return {"bus": it.bus, "high": self._power(numbers, "maximum"), "cost": price}

    def _lines(self) -> Dict[str, Any]:
        found: Dict[str, Any] = {}
        for it, numbers in self._system.of_kind(Line):
            ways = [(it.name, it.source, it.target, "maximum")]
            if self._power(numbers, "reverse"):
                ways.append((f"{it.name}-back", it.target, it.source, "reverse"))
            for name, start, end, member in ways:
                if name in found or not NAME.match(name):
                    raise NotDescribed(f'the line "{name}" is there already, or its name is too long: {it.called()}')
                found[name] = {"from": start, "to": end, "high": self._power(numbers, member)}
        return found

    def _reservoir(self, it: Reservoir, numbers: Numbers) -> Dict[str, Any]:
        if it.bus is None:
            raise NotDescribed(f"a description needs a bus of {it.called()}")
        units = self._units
        limits = {"low": "minimum", "high": "maximum", "initial": "initial"}
        found: Dict[str, Any] = {"bus": it.bus, **{name: self._volume(numbers, member) for name, member in limits.items()}}
        if not found["low"] <= found["initial"] <= found["high"]:
            raise NotDescribed(f"the initial volume of a description is between minimum and maximum: {it.called()}")
        found.update({"turbine": self._volume(numbers, "turbine"), "spill": self._volume(numbers, "spill")})
        factors = {numbers.at("productivity", stage, self._block) for stage in self._stages}
        found["factor"] = self._constant(it, "productivity", factors, units.energy / units.water)
        penalties = {numbers.at("spill_penalty", stage) for stage in self._stages}
        penalty = self._constant(it, "spill_penalty", penalties, units.money / units.water)
        if penalty:
            found["spill_cost"] = penalty
        way = it.turbined_way()
        if it.spilled is not As.TURBINED and it.spilled_way() != way:
            raise NotDescribed(f'all water of a description goes one way: "spilled" of {it.called()}')
        if way is not None:
            if way.travel > 3 or any(under_way(it, way)):
                raise NotDescribed(f"water of a description travels at most 3 stages, and none is under way at first: {it.called()}")
            found.update({"downstream": way.to, "travel": way.travel})
        return found

    def _stage(self, stage: int) -> Dict[str, Any]:
        demand = {it.name: self._demand(numbers, stage) for it, numbers in self._system.of_kind(Bus)}
        outcomes = self._system.outcomes_of(stage) or [(Fraction(1), {})]
        weights = _whole_weights([weight for weight, _ in outcomes])
        inflows = [{"weight": weight, "inflow": self._inflows(stage, values)} for weight, (_, values) in zip(weights, outcomes) if weight]
        return {"demand": demand, "inflows": inflows}

    def _demand(self, numbers: Numbers, stage: int) -> int:
        table = numbers.tables["demand"]
        if table.station is not None:
            raise NotDescribed(f'demands of a description are not random: "demand" of {numbers.of.called()}')
        value = table.at(stage, self._block) * self._hours() * self._units.energy
        return _whole(value, f'"demand" of {numbers.of.called()} in stage {stage}')

    def _inflows(self, stage: int, values: Dict[str, Fraction]) -> Dict[str, int]:
        found = {}
        for it, numbers in self._system.of_kind(Reservoir):
            table = numbers.table("inflow")
            total = Fraction(0) if table is None else table.total(stage) * (1 if table.station is None else values[table.station])
            found[it.name] = _whole(total * self._units.water, f'"inflow" of {it.called()} in stage {stage}')
        return found

    def _hours(self) -> Fraction:
        return self._system.horizon.hours[0][self._block]

    def _power(self, numbers: Numbers, member: str) -> int:
        values = {numbers.at(member, stage, self._block) for stage in self._stages}
        return self._constant(numbers.of, member, values, self._hours() * self._units.energy)

    def _volume(self, numbers: Numbers, member: str) -> int:
        return self._constant(numbers.of, member, {numbers.tables[member].total(stage) for stage in self._stages}, self._units.water)

    def _constant(self, of: Element, member: str, values: "set[Fraction]", unit: Fraction) -> int:
        """The one number of all stages, whole in its unit."""
        if len(values) > 1:
            raise NotDescribed(f'a description has the same "{member}" in all stages: {of.called()}')
        return _whole(next(iter(values)) * unit, f'"{member}" of {of.called()}')


def _whole(value: Fraction, called: str) -> int:
    if value.denominator != 1:
        raise NotDescribed(f"{called} is {value} in the units of the description, and not whole: choose finer units")
    return value.numerator


def _whole_weights(weights: List[Fraction]) -> Tuple[int, ...]:
    """The least whole numbers that are in proportion to the weights."""
    denominator = lcm(*(weight.denominator for weight in weights))
    whole = [int(weight * denominator) for weight in weights]
    divisor = gcd(*whole) if sum(whole) else 1
    return tuple(it // divisor for it in whole)
