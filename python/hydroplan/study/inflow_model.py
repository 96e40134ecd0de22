"""The random values of a study: a record with the method that makes realizations of it, or outcomes that are listed."""
from __future__ import annotations

import os
from dataclasses import dataclass, replace
from decimal import Decimal
from typing import Any, Dict, List, Mapping, Optional, Sequence, Tuple, Union

from hydroplan.tools.shown_names import shown_name

from ..exact import exact, is_number
from ..inflows import (
    Horizon, InflowError, Inflows, Record, grouped_years, independent_years, markov_classes, periodic_autoregression, read_record,
)
from ..inflows.records import LEAVE_OUT, REFUSE, UNITS, VOLUME
from ..plants.amounts import suggestion
from ..plants.system import Outcome
from .numbers import CsvFiles, NumberReader
from .document import StudyError, Table, shown
from .stage_calendar import OWN, StageCalendar

YEARS, GROUPS, CLASSES, AUTOREGRESSION, LISTED, NONE = "years", "groups", "classes", "autoregression", "listed", "none"
KEYS = {
    YEARS: (), GROUPS: ("groups", "seed"), CLASSES: ("classes", "by", "before"), AUTOREGRESSION: ("previous", "coefficient_step"),
}
OF_RECORDS = ("method", "record", "unit", "records", "start", "resolution", "partial_years", "days")
RAW = "as it is"
MOST_SEED = (1 << 32) - 1


@dataclass(frozen=True)
class InflowModel:
    """What the random values come from: a model of a record, or outcomes of each stage; `method` and `notes` in words."""

    method: str
    stations: Tuple[str, ...]
    notes: Tuple[str, ...]
    made: Union[Inflows, List[List[Outcome]]]

    @property
    def is_model(self) -> bool:
        """Whether it is a model of a record."""
        return not isinstance(self.made, list)


def read_inflows(table: Table, reader: NumberReader) -> InflowModel:
    """The random values of the stations that elements ask for; StudyError where they cannot be had."""
    stations = tuple(sorted(reader.stations))
    if not stations:
        if table.members:
            raise table.fault("is given, and no element asks for a station, as in inflow = { random = \"upper\" }")
        return InflowModel(NONE, (), (), [[] for _ in range(reader.calendar.stages)])
    if not table.members:
        raise table.fault(f'is needed: an element asks for the station "{stations[0]}"')
    method = table.choice("method", (*KEYS, LISTED), YEARS)
    if method == LISTED:
        return _Listed(table, reader, stations).model()
    table.only((*OF_RECORDS, *KEYS[method]))
    record = _chosen(table, _record(table, reader.files), stations)
    return _made(table, method, record, reader.calendar)


def _made(table: Table, method: str, record: Record, times: StageCalendar) -> InflowModel:
    """The model of a record by a method."""
    start = _start(table, record, times)
    try:
        made = _by_method(table, method, record, Horizon(times.stages, start, table.number("resolution", Decimal("0.1"))))
    except InflowError as fault:
        raise table.fault(f"cannot be made: {fault}") from None
    return InflowModel(made.about.method, record.stations, made.about.notes, made)


def _by_method(table: Table, method: str, record: Record, horizon: Horizon) -> Inflows:
    years = len(record.years)
    if method == GROUPS:
        return grouped_years(record, horizon, table.whole("groups", 1, years), seed=table.whole("seed", 0, MOST_SEED, 1))
    if method == CLASSES:
        before = table.whole("before", 0, years) if "before" in table.members else None
        by = table.text("by") if "by" in table.members else None
        return markov_classes(record, horizon, table.whole("classes", 1, years), by=by, before=before)
    if method == AUTOREGRESSION:
        step = table.number("coefficient_step", Decimal("0.01"))
        return periodic_autoregression(record, horizon, previous=_previous(table, record), coefficient_step=step)
    return independent_years(record, horizon)


def _previous(table: Table, record: Record) -> Optional[Dict[str, Any]]:
    """The values of the step before the first stage; none where they are the record's means."""
    if "previous" not in table.members:
        return None
    inner = table.table("previous").only(record.stations)
    return {name: inner.number(name) for name in record.stations if inner.needed(name) is not None}


def _start(table: Table, record: Record, times: StageCalendar) -> int:
    """The record's step of the first stage, by the calendar where both have months or weeks."""
    if "start" in table.members:
        return table.whole("start", 1, record.steps)
    if times.step == OWN or record.kind == "step":
        return 1
    if record.kind != times.step:
        raise table.fault(f'is of a record by {record.kind}s, and the stages are {times.step}s: say at which {record.kind} they "start"')
    return times.step_of(1)


def _chosen(table: Table, record: Record, stations: Sequence[str]) -> Record:
    missing = next((it for it in stations if it not in record.stations), None)
    if missing is not None:
        raise table.fault(f'has no station "{missing}", which an element asks for: {suggestion(missing, record.stations)}')
    return record.only([it for it in record.stations if it in stations])


def _record(table: Table, files: CsvFiles) -> Record:
    """The record, or several of them side by side, in hm3."""
    if "records" not in table.members:
        return _read(table, "record", files)
    if "record" in table.members:
        raise table.fault('is not given beside "records"', "record")
    given = table.members["records"]
    if not isinstance(given, list) or not given or not all(isinstance(it, dict) for it in given):
        raise table.fault('is a list of tables with a "file" and a "unit"', "records")
    inner = [Table(table.document, (*table.path, "records", at), it) for at, it in enumerate(given)]
    found = [_read(it.only(("file", "unit", "partial_years", "days")), "file", files) for it in inner]
    for own, record in zip(inner[1:], found[1:]):
        found[0] = _beside(own, found[0], record)
    return found[0]


def _read(table: Table, key: str, files: CsvFiles) -> Record:
    file = files.named(table, key)
    unit = table.choice("unit", (*UNITS, RAW), VOLUME)
    partial = table.choice("partial_years", (REFUSE, LEAVE_OUT), REFUSE)
    try:
        record = read_record(os.fspath(file.path), VOLUME if unit == RAW else unit, partial_years=partial)
        return record.in_hm3(_days(table))
    except InflowError as fault:
        lines = map(shown_name, str(fault).split("\n"))
        raise StudyError("\n".join([str(table.fault("cannot be read:", key)), *lines])) from None


def _days(table: Table) -> Optional[List[Any]]:
    """The length of each step in days; none where it is that of the calendar."""
    if "days" not in table.members:
        return None
    given = table.members["days"]
    if not isinstance(given, list):
        raise table.fault(f"has a number for each step of a year, and not {shown(given)}", "days")
    wrong = next((at for at, it in enumerate(given) if isinstance(it, bool) or not is_number(it)), None)
    if wrong is not None:
        raise table.fault(f"is a number, and not {shown(given[wrong])}", "days", wrong)
    return given


def _beside(table: Table, left: Record, right: Record) -> Record:
    """Two records side by side, over the years that both have."""
    if (left.kind, left.steps) != (right.kind, right.steps):
        raise table.fault(f"is by {right.steps} {right.kind}s a year, and the record before by {left.steps} {left.kind}s")
    twice = next((it for it in right.stations if it in left.stations), None)
    if twice is not None:
        raise table.fault(f'has the station "{twice}", as the record before has')
    years = [it for it in left.years if it in right.years]
    if not years:
        raise table.fault("has no year of the record before")
    values = []
    for year in years:
        rows = zip(left.values[left.years.index(year)], right.values[right.years.index(year)])
        values.append(tuple((*one, *other) for one, other in rows))
    notes = [*left.notes, *right.notes]
    if len(years) < max(len(left.years), len(right.years)):
        notes.append(f"of two records the years {years[0]} to {years[-1]} are taken, which both have")
    return replace(left, stations=(*left.stations, *right.stations), years=tuple(years), values=tuple(values), notes=tuple(notes))


class _Listed:
    """Outcomes that stand in study.toml, the same in all stages, or in a CSV file by stage."""

    def __init__(self, table: Table, reader: NumberReader, stations: Sequence[str]) -> None:
        self._table = table.only(("method", "outcomes", "file"))
        self._stages = reader.calendar.stages
        self._stations = stations
        self._files = reader.files

    def model(self) -> InflowModel:
        """The outcomes of each stage."""
        if "file" in self._table.members and "outcomes" in self._table.members:
            raise self._table.fault('are not given beside "file"', "outcomes")
        outcomes = self._of_file() if "file" in self._table.members else [self._of_table()] * self._stages
        return InflowModel(LISTED, tuple(self._stations), (), outcomes)

    def _of_table(self) -> List[Outcome]:
        given = self._table.needed("outcomes")
        if not isinstance(given, list) or not given or not all(isinstance(it, dict) for it in given):
            raise self._table.fault('is a list of tables, as in { weight = 1, upper = 35 }', "outcomes")
        return [self._outcome(Table(self._table.document, (*self._table.path, "outcomes", at), it)) for at, it in enumerate(given)]

    def _outcome(self, table: Table) -> Outcome:
        table.only(("weight", *self._stations))
        return table.number("weight", 1), {name: table.number(name) for name in self._stations}

    def _of_file(self) -> List[List[Outcome]]:
        """The outcomes of a file with the columns stage, weight and one for each station."""
        file = self._files.named(self._table, "file")
        missing = next((it for it in ("stage", "weight", *self._stations) if it not in file.names), None)
        if missing is not None:
            raise self._table.fault(f'names {file.path}, which has no column "{missing}"', "file")
        found: List[List[Outcome]] = [[] for _ in range(self._stages)]
        for number, row in enumerate(file.rows):
            cells: Mapping[str, str] = dict(zip(file.names, row))
            wrong = next((it for it in ("stage", "weight", *self._stations) if not is_number(cells[it])), None)
            if wrong is not None:
                raise file.fault(number, f'the column "{wrong}" has {shown(cells[wrong])}, which is no number')
            stage = exact(cells["stage"])
            if stage.denominator != 1 or not 1 <= stage <= self._stages:
                raise file.fault(number, f"the stage {cells['stage']} is none of 1 to {self._stages}")
            found[int(stage) - 1].append((cells["weight"], {name: cells[name] for name in self._stations}))
        empty = next((at for at, it in enumerate(found, 1) if not it), None)
        if empty is not None:
            raise self._table.fault(f"names {file.path}, which has no outcome of stage {empty}", "file")
        return found
