"""Numbers as a user gives them for stages and load blocks, the exact tables that are read of them, and what is refused of them.

A number is one number, a list with one for each stage, or a column of a CSV file; where a member has numbers for load blocks,
also a mapping with one of these for each block, and a list may have such mappings. Refusals name the element, the member, and the
file and line where it was made.
"""
from __future__ import annotations

import csv
import dataclasses
import difflib
import os
import sys
from dataclasses import dataclass, replace
from fractions import Fraction
from types import FrameType
from typing import Any, Dict, Iterable, List, Mapping, Optional, Sequence, Tuple, Union

from ..code_places import CodePlace, given_place
from ..errors import ModelError
from ..exact import Number, exact


class PlantError(ModelError):
    """A system that is wrong."""


class UnknownName(PlantError):
    """A member, a block, a station, a column or an element that is not there; the message has the name that is most like it."""


class CostFalls(PlantError):
    """Tiers whose costs fall, or whose values rise: no linear program would fill them in their order. The message has both tiers."""


class NotDescribed(PlantError):
    """A system that the description of hydro plants has no words for, or numbers that are not whole in its units."""


def suggestion(name: object, known: Iterable[str]) -> str:
    """The known name that is most like a name, in words, or all of them where none is like it."""
    names = list(known)
    like = difflib.get_close_matches(str(name), names, 1)
    if like:
        return f'did you mean "{like[0]}"?'
    return f"known are {', '.join(names)}" if names else "there are none"


PLANTS = os.path.dirname(os.path.abspath(__file__))
PACKAGES = (PLANTS, os.path.dirname(PLANTS))


def _is_ours(file: str) -> bool:
    return os.path.dirname(os.path.abspath(file)) in PACKAGES or file == dataclasses.__file__


def users_line() -> CodePlace:
    """The nearest line that stands outside of this package, the one around it, and `dataclasses`, whose `replace` makes elements too."""
    given = given_place()
    if given is not None:
        return given
    frame: Optional[FrameType] = sys._getframe(1)
    while frame is not None and _is_ours(frame.f_code.co_filename):
        frame = frame.f_back
    return CodePlace("?", 0) if frame is None else CodePlace(frame.f_code.co_filename, frame.f_lineno)


@dataclass(frozen=True)
class Column:
    """A column of a CSV file: its first row has names, and each row behind it the numbers of a stage, in their order.

    Files are UTF-8. Numbers are decimals, as in 12.5; a file that writes 12,5 has to be changed.
    """

    path: Union[str, "os.PathLike[str]"]
    name: str
    delimiter: str = ","

    def numbers(self, called: str) -> List[Fraction]:
        """The numbers, or PlantError with the member that asks for them and the line of the file."""
        try:
            with open(self.path, newline="", encoding="utf-8-sig") as file:
                return self._read(csv.reader(file, delimiter=self.delimiter), called)
        except (OSError, UnicodeDecodeError, csv.Error) as fault:
            raise PlantError(f"{called}: the file {os.fspath(self.path)} cannot be read: {fault}") from None

    def _read(self, rows: Any, called: str) -> List[Fraction]:
        names = [it.strip() for it in next(rows, [])]
        if self.name not in names:
            raise UnknownName(f'{called}: {os.fspath(self.path)} has no column "{self.name}": {suggestion(self.name, names)}')
        at = names.index(self.name)
        return [self._number(row, at, rows.line_num, called) for row in rows if row]

    def _number(self, row: List[str], at: int, line: int, called: str) -> Fraction:
        where = f'{called}, column "{self.name}" of {os.fspath(self.path)}:{line}'
        if at >= len(row):
            raise PlantError(f"{where}: the row has {len(row)} fields")
        return exact(row[at], where)


def column(path: Union[str, "os.PathLike[str]"], name: str, delimiter: str = ",") -> Column:
    """The numbers of a column of a CSV file, one for each stage."""
    return Column(path, name, delimiter)


Values = Union[Number, Column, Sequence[Union[Number, None, Mapping[str, Number]]], Mapping[str, Union[Number, Column, Sequence[Number]]]]

HM3_OF_A_FLOW = Fraction(3600, 10**6)
"""hm3 that one m3/s brings in an hour."""


@dataclass(frozen=True)
class Random:
    """The value that a realization gives to a station, times a factor."""

    station: str
    factor: Values = 1


@dataclass(frozen=True)
class Flow:
    """Numbers in m3/s where hm3 are expected: hm3 = m3/s * hours * 3600 / 10^6."""

    values: Union[Values, Random]


def flow(values: Union[Values, Random]) -> Flow:
    """Water in m3/s over the hours of a block, or productivity in MW per m3/s."""
    return Flow(values)


class Tiers:
    """Tiers of a size and a cost each, in the order in which they are filled; both may differ from stage to stage."""

    def __init__(self, *tiers: Tuple[Values, Values]) -> None:
        if not tiers or any(not isinstance(it, (tuple, list)) or len(it) != 2 for it in tiers):
            raise PlantError(f"tiers are one or more pairs of a size and a cost, as in Tiers((10, 5), (20, 8)), not {tiers!r} ({users_line()})")
        self.tiers = tiers

    def __repr__(self) -> str:
        return f"Tiers{self.tiers!r}"


Amounts = Union[Values, Random, Flow]
Tiered = Union[Values, Tiers]


@dataclass(frozen=True)
class Member:
    """What a member may be: its unit, whether it differs by block, its range, and the forms that it may have.

    `water` is `volume` where hm3 may be given as a flow, `per volume` where a number per hm3 may be. `size` is the member
    that sizes of tiers are read as, and `rises` says whether the costs of tiers have to rise or to fall.
    """

    unit: str
    by_block: bool = False
    least: Optional[int] = 0
    most: Optional[int] = None
    positive: bool = False
    random: bool = False
    water: str = ""
    gaps: bool = False
    size: Optional["Member"] = None
    rises: bool = True


@dataclass(frozen=True)
class Horizon:
    """The stages from 1, the load blocks, and the hours of each in each stage."""

    stages: int
    blocks: Tuple[str, ...]
    hours: Tuple[Dict[str, Fraction], ...] = ()


@dataclass(frozen=True)
class Table:
    """A number for each stage, or for each stage and block; with a `station`, the factor of its random value."""

    rows: Tuple[Dict[str, Optional[Fraction]], ...]
    station: Optional[str] = None

    def get(self, stage: int, block: str = "") -> Optional[Fraction]:
        """The number, none where a stage has none."""
        row = self.rows[stage - 1]
        return row[""] if "" in row else row[block]

    def at(self, stage: int, block: str = "") -> Fraction:
        """The number."""
        return self.get(stage, block) or Fraction(0)

    def total(self, stage: int) -> Fraction:
        """The sum over the blocks of a stage, or its one number."""
        return sum((it for it in self.rows[stage - 1].values() if it is not None), Fraction(0))

    def is_zero(self) -> bool:
        """Whether it is 0 in all stages and blocks."""
        return not any(it for row in self.rows for it in row.values())

    @property
    def by_block(self) -> bool:
        """Whether it has numbers for blocks."""
        return "" not in self.rows[0]


@dataclass(frozen=True)
class Tier:
    """A tier: its size, none for all that there is, and its cost."""

    size: Optional[Table]
    cost: Table


@dataclass(frozen=True)
class TableReader:
    """Reads the numbers of a member; `called` is the member with its element and line."""

    called: str
    member: Member
    horizon: Horizon

    def table(self, values: Any) -> Table:
        """The table of the numbers, or PlantError."""
        if isinstance(values, Flow):
            return self._flow(values)
        if isinstance(values, Random):
            if not self.member.random:
                raise PlantError(f"{self.called} cannot be random")
            found = replace(self, member=replace(self.member, random=False)).table(values.factor)
            return replace(found, station=values.station)
        if self.member.by_block:
            return Table(tuple(dict(row) for row in self._checked(self._by_block(values))))
        return Table(tuple(self._checked([{"": it} for it in self._by_stage(values)])))

    def tiers(self, values: Any) -> Tuple[Tier, ...]:
        """The tiers, or CostFalls where their costs are not in order. A cost alone is that of all there is."""
        if not isinstance(values, Tiers):
            return (Tier(None, self.table(values)),)
        assert self.member.size is not None
        found = []
        for number, (size, cost) in enumerate(values.tiers, 1):
            called = f"tier {number} of {self.called}"
            sizes = TableReader(f"the size of {called}", self.member.size, self.horizon).table(size)
            found.append(Tier(sizes, replace(self, called=called).table(cost)))
        for number in range(1, len(found)):
            self._in_order(number, found[number - 1].cost, found[number].cost)
        return tuple(found)

    def _in_order(self, number: int, before: Table, after: Table) -> None:
        sign, word = (1, "less") if self.member.rises else (-1, "more")
        for stage in range(1, self.horizon.stages + 1):
            for block in before.rows[stage - 1]:
                left, right = before.at(stage, block), after.at(stage, block)
                if sign * right < sign * left:
                    where = f"in stage {stage}" + (f' and block "{block}"' if block else "")
                    raise CostFalls(f"{self.called}: tier {number + 1} has {right} {where}, {word} than tier {number} with {left}")

    def _flow(self, values: Flow) -> Table:
        """Water by block: the flow times the hours; a number per flow times the flow that a volume in an hour is."""
        if not self.member.water:
            raise PlantError(f"{self.called} is no water, and cannot be a flow")
        inner = replace(self, member=replace(self.member, by_block=True, water="")).table(values.values)
        if self.member.water == "per volume":
            return replace(inner, rows=tuple({it: (value or 0) / HM3_OF_A_FLOW for it, value in row.items()} for row in inner.rows))
        hours = self.horizon.hours
        rows = tuple({it: (value or 0) * hours[at][it] * HM3_OF_A_FLOW for it, value in row.items()} for at, row in enumerate(inner.rows))
        return replace(inner, rows=rows)

    def _by_block(self, values: Any) -> List[Dict[str, Optional[Fraction]]]:
        if isinstance(values, Mapping):
            self._blocks(values)
            series = {block: self._by_stage(values[block]) for block in self.horizon.blocks}
            return [{block: series[block][at] for block in series} for at in range(self.horizon.stages)]
        if _is_list(values) and any(isinstance(it, Mapping) for it in values):
            self._fits(len(values))
            return [self._stage(it) for it in values]
        return [{block: it for block in self.horizon.blocks} for it in self._by_stage(values)]

    def _stage(self, values: Any) -> Dict[str, Optional[Fraction]]:
        """The numbers of a stage."""
        if not isinstance(values, Mapping):
            return {block: exact(values, self.called) for block in self.horizon.blocks}
        self._blocks(values)
        return {block: exact(values[block], f'block "{block}" of {self.called}') for block in self.horizon.blocks}

    def _by_stage(self, values: Any) -> List[Optional[Fraction]]:
        if isinstance(values, Column):
            found: List[Optional[Fraction]] = list(values.numbers(self.called))
            self._fits(len(found))
            return found
        if isinstance(values, Mapping):
            raise PlantError(f"{self.called} has one number for a stage, and none for load blocks: {values!r}")
        if _is_list(values):
            self._fits(len(values))
            return [self._number(it, at) for at, it in enumerate(values, 1)]
        return [exact(values, self.called)] * self.horizon.stages

    def _number(self, value: Any, stage: int) -> Optional[Fraction]:
        return None if value is None and self.member.gaps else exact(value, f"stage {stage} of {self.called}")

    def _blocks(self, values: Mapping[str, Any]) -> None:
        for name in values:
            if name not in self.horizon.blocks:
                raise UnknownName(f'{self.called}: there is no load block "{name}": {suggestion(name, self.horizon.blocks)}')
        missing = [it for it in self.horizon.blocks if it not in values]
        if missing:
            raise PlantError(f'{self.called} has no number for the load block "{missing[0]}"')

    def _fits(self, count: int) -> None:
        if count != self.horizon.stages:
            raise PlantError(f"{self.called} has {count} numbers, and there are {self.horizon.stages} stages")

    def _checked(self, rows: List[Dict[str, Optional[Fraction]]]) -> List[Dict[str, Optional[Fraction]]]:
        for stage, row in enumerate(rows, 1):
            for value in row.values():
                in_range(self.called, self.member, stage, value)
        return rows


def in_range(called: str, member: Member, stage: int, value: Optional[Fraction]) -> None:
    """Refuses a number outside the range of its member."""
    if value is None:
        return
    if member.least is not None and value < member.least:
        raise PlantError(f"{called} is {value} in stage {stage}: it is at least {member.least}")
    if member.positive and value == 0:
        raise PlantError(f"{called} is 0 in stage {stage}: it is above 0")
    if member.most is not None and value > member.most:
        raise PlantError(f"{called} is {value} in stage {stage}: it is at most {member.most}")


def _is_list(values: Any) -> bool:
    return not isinstance(values, (str, Mapping)) and hasattr(values, "__len__") and hasattr(values, "__iter__")
