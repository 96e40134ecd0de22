"""The elements of a system: reservoirs, the ways of their water, pumps; buses, thermals, lines, renewables, contracts, batteries.

All have a name, the line that made them, members whose names are looked at, and links to other elements. Volumes are in hm3, those of
turbines, spill, inflows and withdrawals per stage. Each of these may be a `flow` in m3/s, which is hm3 = m3/s * hours * 3600 / 10^6 over
the hours of the stage's blocks. Powers are in MW: the mean over a load block. Energy is in MWh, a power times the hours of the block.
Costs are in money per MWh.
"""
from __future__ import annotations

from dataclasses import MISSING, dataclass, fields
from enum import Enum
from fractions import Fraction
from typing import Any, ClassVar, Dict, Mapping, Optional, Sequence, Tuple, Type, TypeVar, Union

from ..code_places import CodePlace
from ..exact import Number, exact
from .amounts import Amounts, Flow, Horizon, Member, PlantError, Table, TableReader, Tier, Tiered, UnknownName, Values, suggestion, users_line


@dataclass(frozen=True)
class Element:
    """A part of a system. `MEMBERS` says what its numbers may be, and `LINKS` which members name elements of which kind."""

    name: str

    KIND: ClassVar[str] = "element"
    MEMBERS: ClassVar[Mapping[str, Member]] = {}
    LINKS: ClassVar[Mapping[str, str]] = {}

    @property
    def place(self) -> CodePlace:
        """The line that made it."""
        found: CodePlace = self.__dict__["_place"]
        return found

    def called(self) -> str:
        """The element in words, with its line."""
        return f'{self.KIND} "{self.name}" ({self.place})'

    def linked(self) -> Tuple[Tuple[str, str, str], ...]:
        """The elements that it names: the member, their kind and their name."""
        pairs = ((member, kind, getattr(self, member)) for member, kind in self.LINKS.items())
        return tuple((member, kind, name) for member, kind, name in pairs if name is not None)


Kind = TypeVar("Kind", bound=Type[Element])


def element(cls: Kind) -> Kind:
    """Makes a dataclass look at the names of its members before it takes them, and remember the user's line."""
    made = cls.__init__
    known = {it.name: it for it in fields(cls)}
    needed = [name for name, it in known.items() if it.default is MISSING and it.default_factory is MISSING]

    def __init__(self: Any, *values: Any, **members: Any) -> None:
        place = users_line()
        called = f'{cls.KIND} "{values[0] if values else members.get("name", "?")}" ({place})'
        for name in members:
            if name not in known:
                raise UnknownName(f'"{name}" is no member of {called}: {suggestion(name, known)}')
        given = {*list(known)[: len(values)], *members}
        missing = [name for name in needed if name not in given]
        if missing:
            raise PlantError(f'{called} needs "{missing[0]}"')
        self.__dict__["_place"] = place
        made(self, *values, **members)
        _check_name(self, called)

    setattr(cls, "__init__", __init__)
    return cls


def _check_name(made: Element, called: str) -> None:
    if not isinstance(made.name, str) or not made.name or ":" in made.name:
        raise PlantError(f"{called} has a name that is no text, empty, or has a colon")


class Numbers:
    """The numbers of an element, read and in range. A member that was not given has none."""

    def __init__(self, of: Element, horizon: Horizon) -> None:
        self.of = of
        self.tables: Dict[str, Table] = {}
        self._tiers: Dict[str, Tuple[Tier, ...]] = {}
        optional = {it.name: it.default is None for it in fields(of)}
        for member, what in of.MEMBERS.items():
            given, called = getattr(of, member), f'"{member}" of {of.called()}'
            if given is None and optional[member]:
                continue
            if member == "initial":
                given = exact(given, called)
            reader = TableReader(called, what, horizon)
            if what.size is not None:
                self._tiers[member] = reader.tiers(given)
            else:
                self.tables[member] = reader.table(given)

    def table(self, member: str) -> Optional[Table]:
        """The table of a member, none where it was not given."""
        return self.tables.get(member)

    def at(self, member: str, stage: int, block: str = "") -> Fraction:
        """The number of a member; 0 where it was not given."""
        found = self.tables.get(member)
        return Fraction(0) if found is None else found.at(stage, block)

    def tiers(self, member: str) -> Optional[Tuple[Tier, ...]]:
        """The tiers of a member, none where it was not given."""
        return self._tiers.get(member)

    def stations(self) -> Dict[str, str]:
        """The stations of members that are random, by member."""
        return {member: table.station for member, table in self.tables.items() if table.station is not None}


@dataclass(frozen=True)
class Way:
    """The reservoir to which water flows, and the stages after which it arrives there.

    `under_way` has the hm3 that arrive in the first stages, one for each stage of travel; 0 where it is not given.
    """

    to: str
    travel: int = 0
    under_way: Sequence[Number] = ()


class As(Enum):
    """What goes where turbined water goes."""

    TURBINED = "turbined"


VOLUME = Member("hm3")
LIMIT = Member("hm3 per stage", water="volume")
INFLOW = Member("hm3 per stage", least=None, random=True, water="volume")
PER_VOLUME = Member("MWh per hm3", by_block=True, water="per volume")
SPILL_PENALTY = Member("money per hm3")
PENALTY = Member("money per hm3", size=VOLUME)
VALUE = Member("money per hm3", size=VOLUME, rises=False)


@element
@dataclass(frozen=True)
class Reservoir(Element):
    """A reservoir with its turbine.

    A penalty is in money per hm3 that is missing, alone or in tiers of hm3; without one, what is asked for has to be met, and a
    stage without enough water has no solution. docs/use/PLANTS.md has the equations.
    """

    maximum: Values
    initial: Number
    spill: Union[Values, Flow]
    minimum: Values = 0
    inflow: Optional[Union[Amounts, Flow]] = None
    bus: Optional[str] = None
    turbine: Union[Values, Flow] = 0
    productivity: Union[Values, Flow] = 0
    spill_penalty: Values = 0
    downstream: Union[str, Way, None] = None
    spilled: Union[str, Way, None, As] = As.TURBINED
    minimum_outflow: Optional[Union[Values, Flow]] = None
    outflow_penalty: Optional[Tiered] = None
    evaporation: Optional[Values] = None
    evaporation_penalty: Optional[Tiered] = None
    irrigation: Optional[Union[Values, Flow]] = None
    irrigation_penalty: Optional[Tiered] = None
    target: Optional[Values] = None
    target_penalty: Optional[Tiered] = None
    alert: Optional[Values] = None
    alert_penalty: Optional[Tiered] = None
    end_value: Optional[Tiered] = None

    KIND: ClassVar[str] = "reservoir"
    LINKS: ClassVar[Mapping[str, str]] = {"bus": "bus"}
    MEMBERS: ClassVar[Mapping[str, Member]] = {
        "minimum": VOLUME, "maximum": VOLUME, "initial": VOLUME, "inflow": INFLOW, "turbine": LIMIT, "productivity": PER_VOLUME,
        "spill": LIMIT, "spill_penalty": SPILL_PENALTY, "minimum_outflow": LIMIT, "outflow_penalty": PENALTY, "evaporation": VOLUME,
        "evaporation_penalty": PENALTY, "irrigation": LIMIT, "irrigation_penalty": PENALTY,
        "target": Member("hm3", gaps=True), "target_penalty": PENALTY, "alert": VOLUME, "alert_penalty": PENALTY,
        "end_value": VALUE,
    }

    def turbined_way(self) -> Optional[Way]:
        """The way of turbined water, none where it is gone."""
        return self._way("downstream", self.downstream)

    def spilled_way(self) -> Optional[Way]:
        """The way of spilled water, none where it is gone."""
        return self.turbined_way() if isinstance(self.spilled, As) else self._way("spilled", self.spilled)

    def linked(self) -> Tuple[Tuple[str, str, str], ...]:
        """The bus and the reservoirs downstream."""
        ways = (("downstream", self.turbined_way()), ("spilled", self.spilled_way()))
        return (*super().linked(), *((member, "reservoir", way.to) for member, way in ways if way is not None))

    def _way(self, member: str, given: Union[str, Way, None]) -> Optional[Way]:
        if given is not None and not isinstance(given, (str, Way)):
            raise PlantError(f'"{member}" of {self.called()} is the name of a reservoir or a Way, not {given!r}')
        return Way(given) if isinstance(given, str) else given


@element
@dataclass(frozen=True)
class Pump(Element):
    """A pump from `source` to `target`: lifting a hm3 takes `energy` MWh divided by the `efficiency` from the bus."""

    bus: str
    source: str
    target: str
    maximum: Union[Values, Flow]
    energy: Values
    efficiency: Values = 1

    KIND: ClassVar[str] = "pump"
    LINKS: ClassVar[Mapping[str, str]] = {"bus": "bus", "source": "reservoir", "target": "reservoir"}
    MEMBERS: ClassVar[Mapping[str, Member]] = {
        "maximum": LIMIT, "energy": Member("MWh per hm3", by_block=True), "efficiency": Member("share", most=1, positive=True),
    }


POWER = Member("MW", by_block=True)
RANDOM_POWER = Member("MW", by_block=True, random=True)
PRICE = Member("money per MWh", by_block=True, least=None)
SHARE = Member("share", most=1)
EFFICIENCY = Member("share", most=1, positive=True)
SHARE_OF_BLOCK = Member("share", by_block=True)
TIERED_PRICE = Member("money per MWh", by_block=True, least=None, size=POWER)
DEFICIT = Member("money per MWh", by_block=True, size=SHARE_OF_BLOCK)
ENERGY = Member("MWh")


@element
@dataclass(frozen=True)
class Bus(Element):
    """A place where energy meets a demand (MW). `deficit` is what energy costs that is missing: tiers of a share of the demand."""

    demand: Amounts = 0
    deficit: Optional[Tiered] = None

    KIND: ClassVar[str] = "bus"
    MEMBERS: ClassVar[Mapping[str, Member]] = {"demand": RANDOM_POWER, "deficit": DEFICIT}


@element
@dataclass(frozen=True)
class Thermal(Element):
    """A thermal plant: `cost` alone with `maximum`, or tiers of MW and cost, whose sizes are the maximum together.

    `availability` is the share of minimum and maximum that maintenance leaves in a stage.
    """

    bus: str
    cost: Tiered
    maximum: Optional[Values] = None
    minimum: Values = 0
    availability: Values = 1

    KIND: ClassVar[str] = "thermal"
    LINKS: ClassVar[Mapping[str, str]] = {"bus": "bus"}
    MEMBERS: ClassVar[Mapping[str, Member]] = {"cost": TIERED_PRICE, "maximum": POWER, "minimum": POWER, "availability": SHARE}


@element
@dataclass(frozen=True)
class Line(Element):
    """A line: up to `maximum` MW from `source` to `target` and up to `reverse` MW back; of each the share `arriving` arrives."""

    source: str
    target: str
    maximum: Values
    reverse: Values = 0
    arriving: Values = 1

    KIND: ClassVar[str] = "line"
    LINKS: ClassVar[Mapping[str, str]] = {"source": "bus", "target": "bus"}
    MEMBERS: ClassVar[Mapping[str, Member]] = {"maximum": POWER, "reverse": POWER, "arriving": SHARE}


@element
@dataclass(frozen=True)
class Renewable(Element):
    """Wind or sun: any part of the power that is `available` can be taken, at no cost."""

    bus: str
    available: Amounts

    KIND: ClassVar[str] = "renewable"
    LINKS: ClassVar[Mapping[str, str]] = {"bus": "bus"}
    MEMBERS: ClassVar[Mapping[str, Member]] = {"available": RANDOM_POWER}


@element
@dataclass(frozen=True)
class Import(Element):
    """A contract that brings `minimum` to `maximum` MW to a bus, at a cost."""

    bus: str
    maximum: Values
    cost: Values
    minimum: Values = 0

    KIND: ClassVar[str] = "import"
    LINKS: ClassVar[Mapping[str, str]] = {"bus": "bus"}
    MEMBERS: ClassVar[Mapping[str, Member]] = {"maximum": POWER, "cost": PRICE, "minimum": POWER}


@element
@dataclass(frozen=True)
class Export(Element):
    """A contract that takes `minimum` to `maximum` MW from a bus, at a price that is earned."""

    bus: str
    maximum: Values
    price: Values
    minimum: Values = 0

    KIND: ClassVar[str] = "export"
    LINKS: ClassVar[Mapping[str, str]] = {"bus": "bus"}
    MEMBERS: ClassVar[Mapping[str, Member]] = {"maximum": POWER, "price": PRICE, "minimum": POWER}


@element
@dataclass(frozen=True)
class Battery(Element):
    """A store of up to `capacity` MWh: of what is charged the share `charging` is stored, of what is taken out `discharging` arrives."""

    bus: str
    capacity: Values
    charge: Values
    discharge: Values
    initial: Number = 0
    charging: Values = 1
    discharging: Values = 1

    KIND: ClassVar[str] = "battery"
    LINKS: ClassVar[Mapping[str, str]] = {"bus": "bus"}
    MEMBERS: ClassVar[Mapping[str, Member]] = {
        "capacity": ENERGY, "charge": POWER, "discharge": POWER, "initial": ENERGY, "charging": EFFICIENCY, "discharging": EFFICIENCY,
    }
