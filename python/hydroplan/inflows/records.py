"""Records of inflow, a number for each year, step of the year and station: as files have them, and what is refused."""
from __future__ import annotations

import calendar
import csv
import io
import os
from dataclasses import dataclass, replace
from fractions import Fraction
from typing import Dict, Iterable, List, Optional, Sequence, Tuple, Union

from ..errors import HydroplanError, ModelError
from ..exact import Number, exact
from ..tools.bounded_files import whole_file
from ..tools.shown_names import shown_name

MOST_SHOWN = 20


class InflowError(HydroplanError, ValueError):
    """What is asked of a record cannot be had; the message says why."""


@dataclass(frozen=True)
class Fault:
    """One fault of a file: its line and column, both from 1, and what is wrong there."""

    line: int
    column: int
    what: str

    def __str__(self) -> str:
        return f"line {self.line}, column {self.column}: {shown_name(self.what)}"


class RecordError(InflowError):
    """A file that is no whole record. `faults` has all that was found, in the order of lines; the message shows 20 of them."""

    def __init__(self, path: str, faults: Sequence[Fault]) -> None:
        self.faults = tuple(sorted(faults, key=lambda it: (it.line, it.column)))
        lines = [f"{path}, {it}" for it in self.faults[:MOST_SHOWN]]
        if len(self.faults) > MOST_SHOWN:
            lines.append(f"and {len(self.faults) - MOST_SHOWN} more")
        super().__init__("\n".join(lines))


VOLUME, FLOW = "hm3", "m3/s"
UNITS = (VOLUME, FLOW)
MILLIONS_A_DAY = Fraction(86_400, 10**6)
DAYS_OF_A_WEEK = 7

Row = Tuple[Fraction, ...]


@dataclass(frozen=True)
class Record:
    """Inflow by year, step and station, without gaps.

    `values[y][s][i]` is the inflow of year `years[y]`, step s + 1 and station `stations[i]`, in `unit`: "hm3" (10^6 cubic metres
    in the step) or "m3/s" (mean over the step). `kind` is "month", "week" or "step". Years follow one another. `notes` say what
    reading left out.
    """

    stations: Tuple[str, ...]
    kind: str
    years: Tuple[int, ...]
    values: Tuple[Tuple[Row, ...], ...]
    unit: str
    notes: Tuple[str, ...] = ()

    @property
    def steps(self) -> int:
        """How many steps a year has."""
        return len(self.values[0])

    def of_step(self, step: int) -> List[Row]:
        """The rows of a step, from 1: one for each year, in their order."""
        return [year[step - 1] for year in self.values]

    def pairs_of(self, step: int) -> List[Tuple[int, Row, Row]]:
        """For each year that has one, its position, the row of the step before and that of the step.

        The step before the first of a year is the last of the year before; so the record's first year has none.
        """
        if step > 1:
            return [(at, year[step - 2], year[step - 1]) for at, year in enumerate(self.values)]
        return [(at, self.values[at - 1][-1], self.values[at][0]) for at in range(1, len(self.years))]

    def mean(self, step: int, station: int) -> Fraction:
        """The exact mean over the years of a step, from 1, and the station of this position."""
        return sum((row[station] for row in self.of_step(step)), Fraction(0)) / len(self.years)

    def only(self, stations: Sequence[str]) -> Record:
        """The record of some of its stations, in this order; InflowError where one is not there."""
        positions = [self.position(name) for name in stations]
        if not positions or len(set(positions)) < len(positions):
            raise InflowError(f"different stations are expected, at least one, and not {list(stations)}")
        values = tuple(tuple(tuple(row[at] for at in positions) for row in year) for year in self.values)
        return replace(self, stations=tuple(stations), values=values)

    def position(self, station: str) -> int:
        """The position of a station; InflowError where it is not there."""
        if station not in self.stations:
            raise InflowError(f'there is no station "{station}": the record has {", ".join(self.stations)}')
        return self.stations.index(station)

    def in_hm3(self, days: Optional[Sequence[Number]] = None) -> Record:
        """The record in hm3, by the length of each step in days: m3/s times days times 0.0864, exactly.

        Where no lengths are given, months have the days of the calendar, 29 in the February of a leap year, and weeks have 7;
        InflowError for numbered steps, and where the lengths are not one for each step, above 0.
        """
        if self.unit == VOLUME:
            return self
        lengths = None if days is None else _lengths(days, self.steps)
        values = []
        for year, rows in zip(self.years, self.values):
            own = lengths or [self._days(year, step) for step in range(1, self.steps + 1)]
            values.append(tuple(tuple(it * length * MILLIONS_A_DAY for it in row) for row, length in zip(rows, own)))
        return replace(self, values=tuple(values), unit=VOLUME)

    def _days(self, year: int, step: int) -> Fraction:
        if self.kind == "month":
            return Fraction(calendar.monthrange(year, step)[1])
        if self.kind == "week":
            return Fraction(DAYS_OF_A_WEEK)
        raise InflowError("numbered steps have no lengths of their own: give the days of each step")


def _lengths(days: Sequence[Number], steps: int) -> List[Fraction]:
    found = [exact(it, "a length in days") for it in days]
    if len(found) != steps or min(found) <= 0:
        raise InflowError(f"{steps} lengths in days are expected, one for each step and each above 0, not {len(found)}")
    return found


STEPS_OF = {"month": 12, "week": 52, "step": None}
Key = Tuple[int, int]
MOST_DIGITS = 4
REFUSE, LEAVE_OUT = "refuse", "leave out"


def read_record(
    path: Union[str, "os.PathLike[str]"], unit: str, *, steps: Optional[int] = None, partial_years: str = REFUSE, delimiter: str = ",",
) -> Record:
    """The record in a CSV file, in the unit of its numbers, "hm3" or "m3/s".

    The header is `year`, then `month`, `week` or `step`, then the stations' names. Months are 1 to 12, weeks 1 to 52, steps 1 to
    `steps`, or to the greatest number that is there. Rows may stand in any order. RecordError names each gap, double row and
    value that is no number by line and column. `partial_years="leave out"` leaves out a first year without its first steps and a
    last year without its last ones, and notes it.
    """
    if unit not in UNITS:
        raise InflowError(f'the unit is "hm3" or "m3/s", and not {unit!r}')
    if partial_years not in (REFUSE, LEAVE_OUT):
        raise InflowError(f'partial_years is "{REFUSE}" or "{LEAVE_OUT}", and not {partial_years!r}')
    found = _Reading(os.fspath(path), steps)
    with io.TextIOWrapper(io.BytesIO(whole_file(path)), encoding="utf-8-sig", newline="") as file:
        found.read(file, delimiter)
    return found.record(unit, partial_years == LEAVE_OUT)


class _Reading:
    """A file that is read, with the faults that were found."""

    def __init__(self, path: str, steps: Optional[int]) -> None:
        self.path = path
        self.steps = steps
        self.kind = ""
        self.stations: Tuple[str, ...] = ()
        self.rows: Dict[Key, Tuple[int, Row]] = {}
        self.faults: List[Fault] = []
        self.notes: List[str] = []
        self.are_placed = True

    def read(self, file: Iterable[str], delimiter: str) -> None:
        """Takes the header and all rows; lines that are empty count and are passed over."""
        lines = csv.reader(file, delimiter=delimiter, strict=True)
        try:
            for cells in ([cell.strip() for cell in row] for row in lines):
                if any(cells) and self.stations:
                    self._row(lines.line_num, cells)
                elif any(cells):
                    self._header(lines.line_num, cells)
        except (csv.Error, UnicodeDecodeError) as fault:
            self.faults.append(Fault(lines.line_num + 1, 1, f"no line of CSV: {fault}"))
            self._refuse()

    def record(self, unit: str, leaves_out: bool) -> Record:
        """The record, or RecordError. Gaps are told beside other faults, but where a row's year or step could not be read."""
        if not self.rows:
            self.faults.append(Fault(1, 1, "there is no row"))
        elif self.are_placed:
            self.steps = self.steps or max(step for _, step in self.rows)
            if leaves_out:
                self._leave_out()
            self.faults.extend(self._gaps())
        self._refuse()
        years = sorted({year for year, _ in self.rows})
        steps = range(1, (self.steps or 0) + 1)
        values = tuple(tuple(self.rows[year, step][1] for step in steps) for year in years)
        return Record(self.stations, self.kind, tuple(years), values, unit, tuple(self.notes))

    def _refuse(self) -> None:
        if self.faults:
            raise RecordError(self.path, self.faults)

    def _header(self, line: int, names: Sequence[str]) -> None:
        kind = names[1].lower() if len(names) > 1 else ""
        if names[0].lower() != "year":
            self.faults.append(Fault(line, 1, f'the first column is "year", and not "{names[0]}"'))
        if kind not in STEPS_OF:
            self.faults.append(Fault(line, 2, f'the second column is "month", "week" or "step", and not "{kind}"'))
        for column, name in enumerate(names[2:], 3):
            if not name:
                self.faults.append(Fault(line, column, "the station has no name"))
            elif name in names[: column - 1]:
                self.faults.append(Fault(line, column, f'the name "{name}" stands there twice'))
        if len(names) < 3:
            self.faults.append(Fault(line, 3, "there is no station"))
        self._refuse()
        self.kind, self.stations = kind, tuple(names[2:])
        self.steps = STEPS_OF[kind] or self.steps

    def _row(self, line: int, cells: Sequence[str]) -> None:
        if len(cells) != len(self.stations) + 2:
            what = f"the row has {len(cells)} values, and the header {len(self.stations) + 2}"
            self.faults.append(Fault(line, min(len(cells), len(self.stations) + 2) + 1, what))
            self.are_placed = False
            return
        year, step = self._whole(line, 1, cells[0], "year"), self._whole(line, 2, cells[1], self.kind)
        values = [self._number(line, column, cell) for column, cell in enumerate(cells[2:], 3)]
        if year is None or step is None:
            self.are_placed = False
        elif step < 1 or (self.steps is not None and step > self.steps):
            most = "and more" if self.steps is None else f"to {self.steps}"
            self.faults.append(Fault(line, 2, f"the {self.kind} {step} is not one of 1 {most}"))
        elif (year, step) in self.rows:
            earlier = self.rows[year, step][0]
            self.faults.append(Fault(line, 1, f"year {year}, {self.kind} {step} stands in line {earlier} already"))
        else:
            self.rows[year, step] = (line, tuple(values))

    def _whole(self, line: int, column: int, cell: str, what: str) -> Optional[int]:
        if cell.isascii() and cell.isdigit() and len(cell) <= MOST_DIGITS:
            return int(cell)
        self.faults.append(Fault(line, column, f"the {what} is no whole number: {cell!r}"))
        return None

    def _number(self, line: int, column: int, cell: str) -> Fraction:
        """The number of a cell; 0 beside a fault where it has none."""
        name = self.stations[column - 3]
        try:
            return exact(cell, "the value")
        except ModelError:
            what = f"the value of {name} is missing" if not cell else f"the value of {name} is no number: {cell!r}"
            self.faults.append(Fault(line, column, what))
            return exact(0)

    def _leave_out(self) -> None:
        """Leaves out a first year that begins late and a last one that ends early."""
        steps = self.steps or 0
        for year, is_late in ((min(self.rows)[0], True), (max(self.rows)[0], False)):
            there = sorted(step for own, step in self.rows if own == year)
            missing = steps - len(there)
            expected = range(missing + 1, steps + 1) if is_late else range(1, len(there) + 1)
            if missing and there == list(expected):
                self.notes.append(f"left out: year {year}, which has {self.kind}s {there[0]} to {there[-1]} alone")
                self.rows = {key: row for key, row in self.rows.items() if key[0] != year}
            if not self.rows:
                raise InflowError(f"{self.path} has no whole year")

    def _gaps(self) -> List[Fault]:
        """A fault for each run of missing rows, at the row in front of it, or behind it where it is the first."""
        steps, keys = self.steps or 0, sorted(self.rows)
        first, last = keys[0][0] * steps, (keys[-1][0] + 1) * steps
        places = [year * steps + step - 1 for year, step in keys]
        lines = [self.rows[key][0] for key in keys]
        pairs = zip([first - 1, *places], [*places, last], [None, *lines], [*lines, None])
        return [self._gap(before + 1, after - 1, line, next_line) for before, after, line, next_line in pairs if after - before > 1]

    def _gap(self, first: int, last: int, before: Optional[int], after: Optional[int]) -> Fault:
        """A fault of the rows from one place to another, counted through all years, between rows that stand in these lines."""
        year, step = divmod(first, self.steps or 1)
        last_year, last_step = divmod(last, self.steps or 1)
        words = f"year {year}, {self.kind} {step + 1} is missing"
        if first < last:
            words = (
                f"year {year}, {self.kind} {step + 1} to year {last_year}, {self.kind} {last_step + 1} are missing, {last - first + 1} rows"
            )
        return Fault(after or 1, 2, f"{words} in front of this row") if before is None else Fault(before, 2, f"{words} behind this row")
