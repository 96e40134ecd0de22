"""Variables, costs and rows of the elements of water and of energy, for one stage that is being written.

Each has the line of its element. What comes to each bus and reservoir is added up there. What is
drawn at the nodes of the policy graph are outcomes of the system, or those of a model of inflow (docs/use/INFLOWS.md).
"""
from __future__ import annotations

from dataclasses import dataclass, field, replace
from fractions import Fraction
from typing import TYPE_CHECKING, Dict, Iterator, List, Mapping, Optional, Sequence, Tuple

from ..exact import exact
from ..expressions import Expression, Linear, Relation, Variable, total
from ..graphs import GraphNode, PolicyGraph
from ..inflows.adapter import policy_graph
from ..inflows.realizations import Autoregression, Inflows, Realization, ShockStage
from ..stages import Stage, State
from .amounts import PlantError, Table, Tier, UnknownName, suggestion
from .elements import Battery, Bus, Element, Export, Import, Line, Numbers, Pump, Renewable, Reservoir, Thermal, Way

if TYPE_CHECKING:
    from .system import System

Drawn = Tuple[Fraction, Dict[str, Fraction]]


@dataclass(frozen=True)
class Carried:
    """A station whose value is the coefficient times that of the stage before plus a drawn shock; it is from `lower` to `upper`."""

    coefficient: Fraction
    lower: Fraction
    upper: Fraction


@dataclass(frozen=True)
class NodeOutcomes:
    """What is drawn at a node: weights with a number for each station, which is its value, or its shock where it is `carried`."""

    drawn: Tuple[Drawn, ...]
    carried: Mapping[str, Carried] = field(default_factory=dict)

    def least(self, station: str) -> Fraction:
        """The least value that a station can have."""
        return self.carried[station].lower if station in self.carried else min(values[station] for _, values in self.drawn)

    def greatest(self, station: str) -> Fraction:
        """The greatest value that a station can have."""
        return self.carried[station].upper if station in self.carried else max(values[station] for _, values in self.drawn)

    def mean(self, station: str) -> Fraction:
        """The mean of what is drawn of a station."""
        return sum((weight * values[station] for weight, values in self.drawn), Fraction(0)) / sum(weight for weight, _ in self.drawn)


def linear_graph(stages: Sequence[Sequence[Drawn]]) -> PolicyGraph:
    """A node for each stage, whose value is its NodeOutcomes."""
    return PolicyGraph.lattice([[NodeOutcomes(tuple(it))] for it in stages], [[[1]]] * (len(stages) - 1), labels=[""])


def inflow_graph(inflows: Inflows, stations: Sequence[str], called: str) -> PolicyGraph:
    """The policy graph of a model of inflow, whose nodes have NodeOutcomes of these stations alone; UnknownName where one is not there."""
    known = inflows.about.stations
    missing = [it for it in stations if it not in known]
    if missing:
        raise UnknownName(f'{called} have no station "{missing[0]}": {suggestion(missing[0], known)}')
    graph = policy_graph(inflows)
    return PolicyGraph(tuple(replace(it, value=_of_node(it.value, stations)) for it in graph.nodes), graph.root)


def carried_at_first(inflows: Inflows, stations: Sequence[str]) -> Dict[str, Fraction]:
    """The values of the stage before the first, by station; none where nothing is carried."""
    return {name: Fraction(inflows.previous[name]) for name in stations} if isinstance(inflows, Autoregression) else {}


def _of_node(value: object, stations: Sequence[str]) -> NodeOutcomes:
    if isinstance(value, ShockStage):
        ends = {name: (value.coefficients[name], value.lower[name], value.upper[name]) for name in stations}
        return NodeOutcomes(_drawn(value.shocks.realizations, stations), {name: Carried(*map(Fraction, it)) for name, it in ends.items()})
    return NodeOutcomes(_drawn(getattr(value, "realizations"), stations))


def _drawn(realizations: Sequence[Realization], stations: Sequence[str]) -> Tuple[Drawn, ...]:
    found: List[Drawn] = []
    for it in realizations:
        found.append((Fraction(it.weight), {name: Fraction(it.values[name]) for name in stations}))
    return tuple(found)


class StageRows:
    """Writes the stage of a node of a system's graph.

    `energy` collects the MWh that come to a bus in a block less those that leave it, and `water` the hm3 that come to a reservoir
    less those that leave it, but for its inflow.
    """

    def __init__(self, system: System, stage: Stage, node: GraphNode) -> None:
        self._system = system
        self._stage = stage
        self._outcomes: NodeOutcomes = node.value
        self.number = node.stage
        self.is_last = node.stage == system.horizon.stages
        self.blocks = system.horizon.blocks
        self.energy: Dict[Tuple[str, str], List[Linear]] = {}
        self.water: Dict[str, List[Linear]] = {}
        self._costs: List[Linear] = []
        self._randoms = {name: self._station(name) for name in system.stations()}

    def _station(self, name: str) -> Variable:
        """The variable of a station's value: a random one, or the state that carries it on, with its shock."""
        carried: Optional[Carried] = self._outcomes.carried.get(name)
        if carried is None:
            return self._stage.random(name)
        shock, state = self._stage.random(f"shock:{name}"), self._stage.state(f"inflow:{name}", carried.lower, carried.upper)
        self._stage.add(state.outgoing == carried.coefficient * state.incoming + shock, f"inflow:{name}")
        return state.outgoing

    def realizations(self) -> List[Drawn]:
        """What is drawn at the node, by the names of its random variables."""
        words = {name: f"shock:{name}" if name in self._outcomes.carried else name for name in self._randoms}
        return [(weight, {words[name]: values[name] for name in values}) for weight, values in self._outcomes.drawn]

    def label(self, word: str, of: Element, *parts: object, block: Optional[str] = None) -> str:
        """The name of a variable or a row: its word, its element, and its block where there are several."""
        names = [word, of.name, *map(str, parts)]
        return ":".join([*names, block] if block is not None and len(self.blocks) > 1 else names)

    def hours(self, block: str) -> Fraction:
        """The hours of a block."""
        return self._system.horizon.hours[self.number - 1][block]

    def variable(self, of: Element, name: str, most: Fraction, cost: Fraction = Fraction(0), least: Fraction = Fraction(0)) -> Variable:
        """A decision from `least` to `most`, at a cost for each unit."""
        made = self._stage.variable(name, least, most)
        made.place = of.place
        self._costs.append(cost * made)
        return made

    def state(self, of: Element, name: str, least: Fraction, most: Fraction) -> State:
        """A state whose outgoing value is from `least` to `most`."""
        made = self._stage.state(name, least, most)
        made.incoming.place = made.outgoing.place = of.place
        return made

    def row(self, of: Element, relation: Relation, name: str) -> None:
        """A constraint."""
        self._stage.add(relation, name)
        self._stage.constraints[-1] = replace(self._stage.constraints[-1], place=of.place)

    def amount(self, table: Optional[Table], block: str = "") -> Expression:
        """The number of a stage and block, times its station's value where it is random; without a block the total of the stage."""
        if table is None:
            return total([])
        number = table.at(self.number, block) if block else table.total(self.number)
        return total([number * self._randoms[table.station] if table.station is not None else number])

    def greatest(self, table: Table, block: str) -> Fraction:
        """The greatest number that a realization makes of it."""
        number = table.at(self.number, block)
        if table.station is None:
            return number
        return number * self._outcomes.greatest(table.station)

    def brings(self, bus: str, block: str, energy: Linear) -> None:
        """Energy that comes to a bus; below 0 it leaves."""
        self.energy.setdefault((bus, block), []).append(energy)

    def flows(self, reservoir: str, water: Linear) -> None:
        """Water that comes to a reservoir; below 0 it leaves."""
        self.water.setdefault(reservoir, []).append(water)

    def limited(self, of: Element, word: str, table: Table) -> List[Variable]:
        """Water in each block, limited in each block where the limit is a flow, else in the stage; none where the limit is always 0."""
        if table.is_zero():
            return []
        blocks = [self.label(word, of, block=block) for block in self.blocks]
        found = [self.variable(of, name, table.at(self.number, block)) for name, block in zip(blocks, self.blocks)]
        if not table.by_block and len(found) > 1:
            self.row(of, total(found) <= table.total(self.number), self.label(f"{word}_limit", of))
        return found

    def missing(self, of: Element, word: str, needed: Fraction, penalty: Optional[Sequence[Tier]]) -> List[Variable]:
        """What is missing to an amount, in the tiers of its penalty: at most all of it, and nothing where there is no penalty."""
        found = []
        left = needed
        for number, tier in enumerate(penalty or (), 1):
            most = left if tier.size is None else min(left, tier.size.at(self.number))
            left -= most
            name = self.label(word, of) if len(penalty or ()) == 1 else self.label(word, of, number)
            found.append(self.variable(of, name, most, tier.cost.at(self.number)))
        return found

    def finish(self) -> None:
        """Sets the objective: the costs of the stage times its discount."""
        self._stage.minimize(self._system.discount(self.number) * total(self._costs))
        self._stage.objective_place = self._system.place


PARTS = ("turbined", "spilled")


def ways_of(it: Reservoir) -> Iterator[Tuple[Way, Tuple[str, ...], str]]:
    """The ways of a reservoir, the waters that go there, and the name under which they go: one way where both are the same."""
    turbined, spilled = it.turbined_way(), it.spilled_way()
    if turbined == spilled:
        if turbined is not None:
            yield turbined, PARTS, it.name
        return
    for part, way in zip(PARTS, (turbined, spilled)):
        if way is not None:
            yield way, (part,), f"{it.name}:{part}"


def under_way(it: Reservoir, way: Way) -> List[Fraction]:
    """What arrives in the first stages, a number for each stage of travel."""
    called = f"water under way of {it.called()}"
    if isinstance(way.travel, bool) or not isinstance(way.travel, int) or way.travel < 0:
        raise PlantError(f"the travel of {called} is a whole number of stages, not {way.travel!r}")
    found = [exact(number, called) for number in way.under_way] or [Fraction(0)] * way.travel
    if len(found) != way.travel or any(number < 0 for number in found):
        raise PlantError(f"{called} has a number of at least 0 for each of {way.travel} stages of travel, not {list(way.under_way)}")
    return found


def initial_states(it: Reservoir, numbers: Numbers) -> Dict[str, Fraction]:
    """The volume before the first stage, and the water that is under way then."""
    found = {f"volume:{it.name}": numbers.at("initial", 1)}
    for way, _, name in ways_of(it):
        found.update({f"way:{name}:{at}": number for at, number in enumerate(under_way(it, way), 1)})
    return found


def write_reservoir(rows: StageRows, it: Reservoir, numbers: Numbers) -> None:
    """All of a reservoir but its balance of water."""
    _check(rows, it, numbers)
    volume = rows.state(it, rows.label("volume", it), *(numbers.at(member, rows.number) for member in ("minimum", "maximum")))
    turbined = rows.limited(it, "turbined", numbers.tables["turbine"])
    for block, water in zip(rows.blocks, turbined):
        if it.bus is not None:
            rows.brings(it.bus, block, numbers.at("productivity", rows.number, block) * water)
    most = numbers.tables["spill"].total(rows.number)
    spilled = rows.variable(it, rows.label("spilled", it), most, numbers.at("spill_penalty", rows.number))
    rows.flows(it.name, volume.incoming - volume.outgoing - total(turbined) - spilled)
    parts = {"turbined": total(turbined), "spilled": total([spilled])}
    for way, names, name in ways_of(it):
        _write_way(rows, it, way, name, total(parts[part] for part in names), _most_outflow(numbers, names, under_way(it, way)))
    _write_needs(rows, it, numbers, volume, parts)
    if rows.is_last:
        _write_end(rows, it, numbers, volume)


def _check(rows: StageRows, it: Reservoir, numbers: Numbers) -> None:
    least, most = (numbers.at(member, rows.number) for member in ("minimum", "maximum"))
    if least > most:
        raise PlantError(f'"minimum" of {it.called()} is {least} in stage {rows.number}, above its maximum {most}')
    productive = any(numbers.at("productivity", rows.number, block) for block in rows.blocks)
    if productive and it.bus is None:
        raise PlantError(f'{it.called()} has a "productivity", and no "bus" that its turbine serves')
    if any(way.to == it.name for way, _, _ in ways_of(it)):
        raise PlantError(f"water of {it.called()} goes back to it: name the reservoir downstream")


def _most_outflow(numbers: Numbers, names: Tuple[str, ...], first: List[Fraction]) -> Fraction:
    """The most water that can be on a way: the limits of the stage in which they are greatest, or what is under way at first."""
    tables = [numbers.tables["turbine" if name == "turbined" else "spill"] for name in names]
    stages = range(1, len(tables[0].rows) + 1)
    return max([*first, *(sum((it.total(stage) for it in tables), Fraction(0)) for stage in stages)])


def _write_way(rows: StageRows, it: Reservoir, way: Way, name: str, outflow: Expression, most: Fraction) -> None:
    """Water that arrives within the stage, or the chain of states by which it arrives later."""
    if way.travel == 0:
        rows.flows(way.to, outflow)
        return
    chain = [rows.state(it, f"way:{name}:{at}", Fraction(0), most) for at in range(1, way.travel + 1)]
    rows.flows(way.to, chain[0].incoming)
    following: List[Linear] = [*(state.incoming for state in chain[1:]), outflow]
    for state, water in zip(chain, following):
        rows.row(it, state.outgoing == water, state.name)


def _write_needs(rows: StageRows, it: Reservoir, numbers: Numbers, volume: State, parts: Dict[str, Expression]) -> None:
    """What may go short at a penalty: outflow, evaporation, irrigation, target and alert volume."""
    _write_least(rows, it, numbers, "minimum_outflow", "outflow", parts["turbined"] + parts["spilled"])
    _write_least(rows, it, numbers, "target", "target", volume.outgoing)
    _write_least(rows, it, numbers, "alert", "alert", volume.outgoing)
    for member in ("evaporation", "irrigation"):
        table = numbers.table(member)
        if table is not None:
            needed = table.total(rows.number)
            missing = rows.missing(it, f"missing_{member}", needed, numbers.tiers(f"{member}_penalty"))
            rows.flows(it.name, total(missing) - needed)


def _write_least(rows: StageRows, it: Reservoir, numbers: Numbers, member: str, word: str, amount: Linear) -> None:
    """That an amount, with what is missing to it, is at least a number; nothing where that is 0 or not given."""
    table = numbers.table(member)
    needed = Fraction(0) if table is None else table.total(rows.number)
    if needed > 0:
        missing = rows.missing(it, f"missing_{word}", needed, numbers.tiers(f"{word}_penalty"))
        rows.row(it, total([amount, *missing]) >= needed, rows.label(member, it))


def _write_end(rows: StageRows, it: Reservoir, numbers: Numbers, volume: State) -> None:
    """The value of the water that is left: tiers from an empty reservoir upwards."""
    tiers = numbers.tiers("end_value")
    if tiers is None:
        return
    kept = []
    for number, tier in enumerate(tiers, 1):
        size = numbers.at("maximum", rows.number) if tier.size is None else tier.size.at(rows.number)
        name = rows.label("kept", it) if len(tiers) == 1 else rows.label("kept", it, number)
        kept.append(rows.variable(it, name, size, -tier.cost.at(rows.number)))
    rows.row(it, total(kept) <= volume.outgoing, rows.label("end_value", it))


def write_pump(rows: StageRows, it: Pump, numbers: Numbers) -> None:
    """Water that is lifted, and the energy that it takes."""
    if it.source == it.target:
        raise PlantError(f'{it.called()} lifts water from "{it.source}" to itself')
    pumped = rows.limited(it, "pumped", numbers.tables["maximum"])
    for block, water in zip(rows.blocks, pumped):
        energy = numbers.at("energy", rows.number, block) / numbers.at("efficiency", rows.number)
        rows.brings(it.bus, block, -energy * water)
    rows.flows(it.source, -total(pumped))
    rows.flows(it.target, total(pumped))


def write_balance(rows: StageRows, it: Reservoir, numbers: Numbers) -> None:
    """The balance of water. Written behind all that brings water."""
    inflow: Optional[Table] = numbers.table("inflow")
    rows.row(it, total([*rows.water[it.name], rows.amount(inflow)]) == 0, rows.label("water", it))


def write_thermal(rows: StageRows, it: Thermal, numbers: Numbers) -> None:
    """Generation in the tiers of the cost, at least the minimum."""
    tiers = numbers.tiers("cost") or ()
    if (it.maximum is None) == (tiers[0].size is None):
        raise PlantError(f'{it.called()} has either a "maximum", or tiers in its "cost" whose sizes are it')
    for block in rows.blocks:
        hours = numbers.at("availability", rows.number) * rows.hours(block)
        sizes = [hours * (tier.size or numbers.tables["maximum"]).at(rows.number, block) for tier in tiers]
        least = hours * numbers.at("minimum", rows.number, block)
        if least > sum(sizes):
            raise PlantError(f'"minimum" of {it.called()} is above its maximum in stage {rows.number}')
        if len(tiers) == 1:
            name = rows.label("generation", it, block=block)
            rows.brings(it.bus, block, rows.variable(it, name, sizes[0], tiers[0].cost.at(rows.number, block), least))
            continue
        _write_tiers(rows, it, block, [(size, tier.cost.at(rows.number, block)) for size, tier in zip(sizes, tiers)], least)


def _write_tiers(rows: StageRows, it: Thermal, block: str, tiers: Sequence[Tuple[Fraction, Fraction]], least: Fraction) -> None:
    found = [
        rows.variable(it, rows.label("generation", it, number, block=block), size, cost) for number, (size, cost) in enumerate(tiers, 1)
    ]
    if least > 0:
        rows.row(it, total(found) >= least, rows.label("minimum_generation", it, block=block))
    rows.brings(it.bus, block, total(found))


def write_line(rows: StageRows, it: Line, numbers: Numbers) -> None:
    """Energy sent from the source and from the target; the other bus gets what arrives of it. A way that is always shut has none."""
    arriving = numbers.at("arriving", rows.number)
    ways = (("sent", "maximum", it.source, it.target), ("sent_back", "reverse", it.target, it.source))
    for block in rows.blocks:
        for word, member, start, end in ways:
            if numbers.tables[member].is_zero():
                continue
            most = numbers.at(member, rows.number, block) * rows.hours(block)
            sent = rows.variable(it, rows.label(word, it, block=block), most)
            rows.brings(start, block, -sent)
            rows.brings(end, block, arriving * sent)


def write_renewable(rows: StageRows, it: Renewable, numbers: Numbers) -> None:
    """Energy that is taken of what is available."""
    table = numbers.tables["available"]
    for block in rows.blocks:
        hours = rows.hours(block)
        taken = rows.variable(it, rows.label("taken", it, block=block), rows.greatest(table, block) * hours)
        if table.station is not None:
            rows.row(it, taken <= hours * rows.amount(table, block), rows.label("available", it, block=block))
        rows.brings(it.bus, block, taken)


def write_import(rows: StageRows, it: Import, numbers: Numbers) -> None:
    """Energy that is bought."""
    for block in rows.blocks:
        rows.brings(it.bus, block, _contract(rows, "imported", numbers, block, numbers.at("cost", rows.number, block)))


def write_export(rows: StageRows, it: Export, numbers: Numbers) -> None:
    """Energy that is sold: its cost is below 0."""
    for block in rows.blocks:
        rows.brings(it.bus, block, -_contract(rows, "exported", numbers, block, -numbers.at("price", rows.number, block)))


def _contract(rows: StageRows, word: str, numbers: Numbers, block: str, cost: Fraction) -> Variable:
    least, most = (numbers.at(member, rows.number, block) * rows.hours(block) for member in ("minimum", "maximum"))
    if least > most:
        raise PlantError(f'"minimum" of {numbers.of.called()} is above its maximum in stage {rows.number}')
    return rows.variable(numbers.of, rows.label(word, numbers.of, block=block), most, cost, least)


def write_battery(rows: StageRows, it: Battery, numbers: Numbers) -> None:
    """What is stored at the end of the stage: the blocks share it, as they share the water."""
    stored = rows.state(it, rows.label("stored", it), Fraction(0), numbers.at("capacity", rows.number))
    charged: List[Linear] = []
    taken: List[Linear] = []
    for block in rows.blocks:
        hours = rows.hours(block)
        into = rows.variable(it, rows.label("charged", it, block=block), numbers.at("charge", rows.number, block) * hours)
        out = rows.variable(it, rows.label("discharged", it, block=block), numbers.at("discharge", rows.number, block) * hours)
        rows.brings(it.bus, block, numbers.at("discharging", rows.number) * out - into)
        charged.append(into)
        taken.append(out)
    change = numbers.at("charging", rows.number) * total(charged) - total(taken)
    rows.row(it, stored.outgoing == stored.incoming + change, rows.label("store", it))


def write_bus(rows: StageRows, it: Bus, numbers: Numbers) -> None:
    """The balance of energy: what comes, with what is missing, is the demand. Written behind all that brings energy."""
    for block in rows.blocks:
        hours = rows.hours(block)
        demand = hours * rows.amount(numbers.table("demand"), block)
        most = hours * rows.greatest(numbers.tables["demand"], block)
        terms = total([*rows.energy.get((it.name, block), []), *_deficits(rows, it, numbers, block, demand, most)])
        if terms.terms:
            rows.row(it, terms == demand, rows.label("energy", it, block=block))
        elif most > 0:
            raise PlantError(f"nothing brings energy to {it.called()}, which has a demand in stage {rows.number}")


def _deficits(rows: StageRows, it: Bus, numbers: Numbers, block: str, demand: Expression, most: Fraction) -> List[Linear]:
    """The energy that is missing in each tier: at most its share of the demand."""
    tiers = numbers.tiers("deficit") or ()
    found: List[Linear] = []
    if sum(_share(tier, rows.number, block) for tier in tiers) > 1:
        raise PlantError(f'the shares of "deficit" of {it.called()} are more than 1 together in stage {rows.number}')
    for number, tier in enumerate(tiers, 1):
        parts = [number] if len(tiers) > 1 else []
        share = _share(tier, rows.number, block)
        cost = tier.cost.at(rows.number, block)
        missing = rows.variable(it, rows.label("deficit", it, *parts, block=block), share * most, cost)
        if demand.terms:
            rows.row(it, missing <= share * demand, rows.label("deficit_limit", it, *parts, block=block))
        found.append(missing)
    return found


def _share(tier: Tier, stage: int, block: str) -> Fraction:
    return Fraction(1) if tier.size is None else tier.size.at(stage, block)
