"""A system of hydro and thermal plants, and the model that it means: a stage for each stage, with the rows of all elements."""
from __future__ import annotations

from dataclasses import replace
from decimal import Decimal, localcontext
from fractions import Fraction
from typing import Any, Dict, List, Mapping, Optional, Sequence, Tuple, Type, TypeVar, cast

from ..exact import Number, exact, exact_weight, text_of
from ..graphs import PolicyGraph
from ..inflows.realizations import Inflows
from ..model import Model
from ..programs import Compiled
from .amounts import Horizon, Member, PlantError, TableReader, UnknownName, Values, in_range, suggestion, users_line
from .description import Units, description_text
from .elements import Battery, Bus, Element, Export, Import, Line, Numbers, Pump, Renewable, Reservoir, Thermal
from .rows import (
    StageRows, carried_at_first, inflow_graph, initial_states, linear_graph, write_balance, write_battery, write_bus, write_export, write_import,
    write_line, write_pump, write_renewable, write_reservoir, write_thermal,
)

DIGITS = 80


def discount(rate: Fraction, years: Fraction, resolution: Fraction) -> Fraction:
    """(1 + rate)^(-years) as the nearest multiple of the resolution; exactly where the rate or the years are 0.

    This is where a discount is rounded, and the only place: the power is taken with 80 digits before.
    """
    if rate == 0 or years == 0:
        return Fraction(1)
    with localcontext() as context:
        context.prec = DIGITS
        base = Decimal((1 + rate).numerator) / Decimal((1 + rate).denominator)
        power = Fraction(base ** (-Decimal(years.numerator) / Decimal(years.denominator)))
    return round(power / resolution) * resolution


Outcome = Tuple[Number, Mapping[str, Number]]
Outcomes = Sequence[Sequence[Outcome]]
Kind = TypeVar("Kind", bound=Element)

HOURS = Member("h", by_block=True, positive=True)


class System:
    """Plants over so many stages.

    `blocks` has the hours of each load block, one number or one for each stage; without it there is one block of one hour. With a
    `yearly_rate` r the costs of stage s count (1 + r)^(-(s - 1) / stages_per_year) of themselves, rounded to the nearest multiple
    of `discount_resolution`.
    """

    def __init__(
        self, stages: int, blocks: Optional[Mapping[str, Values]] = None, *, yearly_rate: Number = 0, stages_per_year: int = 1,
        discount_resolution: Number = "0.000001",
    ) -> None:
        self.place = users_line()
        called = f"the system ({self.place})"
        if isinstance(stages, bool) or not isinstance(stages, int) or stages < 1:
            raise PlantError(f"{called} has one or more stages, not {stages!r}")
        if isinstance(stages_per_year, bool) or not isinstance(stages_per_year, int) or stages_per_year < 1:
            raise PlantError(f"{called} has one or more stages in a year, not {stages_per_year!r}")
        named = {"all": 1} if blocks is None else blocks
        horizon = Horizon(stages, _block_names(named, called))
        hours = TableReader(f"the hours of {called}", HOURS, horizon).table(named)
        self.horizon = Horizon(stages, horizon.blocks, cast("Tuple[Dict[str, Fraction], ...]", hours.rows))
        self._rate = exact(yearly_rate, f"the yearly rate of {called}")
        self._resolution = exact(discount_resolution, f"the resolution of discounts of {called}")
        self._stages_per_year = stages_per_year
        if self._rate <= -1 or not 0 < self._resolution <= 1:
            raise PlantError(f"{called} has a yearly rate above -1, and a resolution of discounts above 0 and at most 1")
        self._elements: Dict[Tuple[str, str], Numbers] = {}
        self._outcomes: List[List[Tuple[Fraction, Dict[str, Fraction]]]] = [[] for _ in range(stages)]
        self._inflows: Optional[Inflows] = None
        self._outcomes_place = self.place

    def add(self, *elements: Element) -> None:
        """Adds elements, and reads their numbers; PlantError where one is wrong. Elements may name others that come later."""
        for it in elements:
            if not isinstance(it, Element):
                raise PlantError(f"{it!r} is no element of a system ({users_line()})")
            earlier = self._elements.get((it.KIND, it.name))
            if earlier is not None:
                raise PlantError(f"{it.called()} has the name of another: {earlier.of.called()}")
            self._elements[it.KIND, it.name] = Numbers(it, self.horizon)

    def outcomes(self, stages: Outcomes) -> None:
        """Sets the realizations of each stage: a list for each stage of a weight and the value of each station.

        Inflows are in hm3 per stage, demands and renewables in MW, where no factor and no `flow` says otherwise. A stage with an
        empty list has the one realization without stations.
        """
        self._inflows = None
        self._outcomes_place = users_line()
        called = f"the outcomes ({self._outcomes_place})"
        if len(stages) != self.horizon.stages:
            raise PlantError(f"{called} are of {len(stages)} stages, and there are {self.horizon.stages}")
        self._outcomes = [
            [_outcome(it, f"outcome {at} of stage {stage} of {called}") for at, it in enumerate(outcomes, 1)]
            for stage, outcomes in enumerate(stages, 1)
        ]

    def inflows(self, inflows: Inflows) -> None:
        """Sets the realizations of each stage by a model of inflow: years, groups, Markov classes or an autoregression (docs/use/INFLOWS.md).

        Classes give a node for each stage and class; an autoregression carries the value of each station on as a state. Stations that
        no element asks for are left out.
        """
        if len(inflows.stages) != self.horizon.stages:
            raise PlantError(f"the inflows ({users_line()}) are of {len(inflows.stages)} stages, and there are {self.horizon.stages}")
        self._inflows = inflows
        self._outcomes_place = users_line()

    def graph(self) -> PolicyGraph:
        """The policy graph: nodes by stage, each with what is drawn there as its `value` (`randomness.NodeOutcomes`)."""
        if self._inflows is None:
            return linear_graph(self._outcomes)
        return inflow_graph(self._inflows, self.stations(), f"the inflows ({self._outcomes_place})")

    def carried(self) -> Dict[str, Fraction]:
        """The value before the first stage of each station whose value is carried on from stage to stage."""
        return {} if self._inflows is None else carried_at_first(self._inflows, self.stations())

    def discount(self, stage: int) -> Fraction:
        """What the costs of a stage, numbered from 1, count."""
        return discount(self._rate, Fraction(stage - 1, self._stages_per_year), self._resolution)

    def of_kind(self, kind: Type[Kind]) -> List[Tuple[Kind, Numbers]]:
        """The elements of a kind with their numbers, in the order in which they were added."""
        return [(it.of, it) for it in self._elements.values() if isinstance(it.of, kind)]

    def outcomes_of(self, stage: int) -> List[Tuple[Fraction, Dict[str, Fraction]]]:
        """The realizations of a stage, numbered from 1, of a system whose graph has one node for each stage."""
        return list(self.graph().nodes[stage - 1].value.drawn)

    def stations(self) -> List[str]:
        """The stations whose values elements ask for, in the order of the elements."""
        return list(dict.fromkeys(name for it in self._elements.values() for name in it.stations().values()))

    def model(self) -> Model:
        """The model, or PlantError where elements do not fit each other."""
        self._check()
        return model_of(self)

    def compile(self, **chosen: Any) -> Compiled:
        """The problem in whole numbers: `Model.compile`, whose choices it takes. The ledger says where discounts were rounded."""
        return self.noted(self.model().compile(**chosen))

    def noted(self, found: Compiled) -> Compiled:
        """The problem that this system's model was compiled to, with a line of the ledger on discounts that were rounded."""
        rounded = [it for it in range(1, self.horizon.stages + 1) if self._is_rounded(it)]
        if not rounded:
            return found
        note = f"discount: those of {len(rounded)} stages were rounded to multiples of {text_of(self._resolution)} ({self.place})"
        return replace(found, ledger=(note, *found.ledger))

    def _is_rounded(self, stage: int) -> bool:
        """Whether a discount d differs from (1 + r)^(-(s - 1) / n): d^n times (1 + r)^(s - 1) is then not 1."""
        return self.discount(stage) ** self._stages_per_year * (1 + self._rate) ** (stage - 1) != 1

    def to_description(self, *, water: Number = 1, energy: Number = 1, money: Number = 1) -> str:
        """The system as a description that `hydroplan hydro` reads, in so many units for a hm3, a MWh and a unit of money.

        NotDescribed where the system has what a description has no words for, or a number that is not whole in these units.
        """
        self._check()
        return description_text(self, Units(*(exact(it, "a unit") for it in (water, energy, money))))

    def _check(self) -> None:
        for found in self._elements.values():
            for member, kind, name in found.of.linked():
                if (kind, name) not in self._elements:
                    known = (its for its_kind, its in self._elements if its_kind == kind)
                    raise UnknownName(f'"{member}" of {found.of.called()}: there is no {kind} "{name}": {suggestion(name, known)}')
        self._check_stations()
        graph = self.graph()
        for found in self._elements.values():
            self._check_randoms(found, graph)

    def _check_stations(self) -> None:
        wanted = self.stations()
        colons = [it for it in wanted if ":" in it]
        if colons:
            raise PlantError(f'the station "{colons[0]}" has a colon in its name ({self.place})')
        for stage, outcomes in enumerate([] if self._inflows is not None else self._outcomes, 1):
            if wanted and not outcomes:
                raise PlantError(f'stage {stage} has no outcomes, and the station "{wanted[0]}" is asked for ({self._outcomes_place})')
            for _, values in outcomes:
                unknown = [it for it in values if it not in wanted]
                missing = [it for it in wanted if it not in values]
                if unknown:
                    said = f'no element asks for the station "{unknown[0]}" of stage {stage}: {suggestion(unknown[0], wanted)}'
                    raise UnknownName(f"{said} ({self._outcomes_place})")
                if missing:
                    raise PlantError(f'an outcome of stage {stage} has no value of the station "{missing[0]}" ({self._outcomes_place})')

    def _check_randoms(self, found: Numbers, graph: PolicyGraph) -> None:
        """Refuses random values that are outside the range of the member that they are for."""
        for member, station in found.stations().items():
            called = f'"{member}" of {found.of.called()}, by the station "{station}",'
            for node in graph.nodes:
                for value in (node.value.least(station), node.value.greatest(station)):
                    in_range(called, found.of.MEMBERS[member], node.stage, value)


def _block_names(blocks: Mapping[str, Values], called: str) -> Tuple[str, ...]:
    names = tuple(blocks)
    if not names or any(not isinstance(it, str) or not it or ":" in it for it in names):
        raise PlantError(f"{called} has load blocks whose names are texts without a colon, not {list(names)}")
    return names


def _outcome(given: Outcome, called: str) -> Tuple[Fraction, Dict[str, Fraction]]:
    if not (isinstance(given, (tuple, list)) and len(given) == 2 and isinstance(given[1], Mapping)):
        raise PlantError(f"{called} is a weight and values by station, not {given!r}")
    weight, values = given
    found = {name: exact(value, f'the value of "{name}" in {called}') for name, value in values.items()}
    return exact_weight(weight, f"the weight of {called}"), found


def model_of(system: System) -> Model:
    """The model of a system whose elements fit each other."""
    initial = _initial(system)
    model = Model(dict(initial))
    graph = system.graph()
    for node in graph.nodes:
        stage = model.stage(node.name)
        stage.place = system.place
        rows = StageRows(system, stage, node)
        _write_water(rows, system)
        _write_energy(rows, system)
        rows.finish()
        model.node(node.name, stage, rows.realizations(), node.successors)
        model.nodes[node.name] = replace(model.nodes[node.name], place=system.place)
    model.root(graph.root)
    model.place = system.place
    return model


def _initial(system: System) -> Dict[str, Fraction]:
    found: Dict[str, Fraction] = {}
    for reservoir, numbers in system.of_kind(Reservoir):
        found.update(initial_states(reservoir, numbers))
    for battery, numbers in system.of_kind(Battery):
        found[f"stored:{battery.name}"] = numbers.at("initial", 1)
    found.update({f"inflow:{station}": value for station, value in system.carried().items()})
    return found


def _write_water(rows: StageRows, system: System) -> None:
    for reservoir, numbers in system.of_kind(Reservoir):
        write_reservoir(rows, reservoir, numbers)
    for pump, numbers in system.of_kind(Pump):
        write_pump(rows, pump, numbers)
    for reservoir, numbers in system.of_kind(Reservoir):
        write_balance(rows, reservoir, numbers)


def _write_energy(rows: StageRows, system: System) -> None:
    for thermal, numbers in system.of_kind(Thermal):
        write_thermal(rows, thermal, numbers)
    for line, numbers in system.of_kind(Line):
        write_line(rows, line, numbers)
    for renewable, numbers in system.of_kind(Renewable):
        write_renewable(rows, renewable, numbers)
    for bought, numbers in system.of_kind(Import):
        write_import(rows, bought, numbers)
    for sold, numbers in system.of_kind(Export):
        write_export(rows, sold, numbers)
    for battery, numbers in system.of_kind(Battery):
        write_battery(rows, battery, numbers)
    for bus, numbers in system.of_kind(Bus):
        write_bus(rows, bus, numbers)
