"""Numbers of a study: one, a list, by load block, a column of a CSV file, or a yearly profile; and the CSV files, each cell with its line."""
from __future__ import annotations

import csv
import io
from dataclasses import dataclass, field
from fractions import Fraction
from pathlib import Path
from typing import Any, Dict, List, Mapping, Optional, Sequence, Set, Tuple

from ..exact import exact, is_number
from ..plants import Random, Tiers, flow
from ..plants.amounts import Member, suggestion
from ..tools.bounded_files import whole_file
from ..tools.shown_names import shown_name
from .document import StudyError, Table, shown
from .stage_calendar import IN_A_YEAR, MONTH, WEEK, StageCalendar


@dataclass(frozen=True)
class CsvFile:
    """The rows of a file under their names; `lines` has the line of each row."""

    path: Path
    names: Tuple[str, ...]
    rows: Tuple[Tuple[str, ...], ...]
    lines: Tuple[int, ...]

    def column(self, name: str) -> List[str]:
        """The cells of a column, or KeyError with the most like name."""
        if name not in self.names:
            raise KeyError(f'{self.path} has no column "{name}": {suggestion(name, self.names)}')
        at = self.names.index(name)
        return [row[at] for row in self.rows]

    def fault(self, row: int, reason: str) -> StudyError:
        """A refusal of a row, numbered from 0."""
        return StudyError(shown_name(f"{self.path}:{self.lines[row]}: {reason}"))


class CsvFiles:
    """The CSV files of a folder, each read once."""

    def __init__(self, folder: Path) -> None:
        self._folder = folder
        self._read: Dict[Tuple[str, bool], CsvFile] = {}

    def named(self, table: Table, key: str, empty_rows: bool = False) -> CsvFile:
        """The file that a key of a table names, without its empty rows or with them; StudyError where it is not there or is no CSV."""
        name = table.text(key)
        if (name, empty_rows) not in self._read:
            self._read[name, empty_rows] = self._file(table, key, name, empty_rows)
        return self._read[name, empty_rows]

    def _file(self, table: Table, key: str, name: str, empty_rows: bool) -> CsvFile:
        if Path(name).is_absolute() or ".." in Path(name).parts:
            raise table.fault(f"names {shown(name)}, and takes a file in the folder of the study: a path without .. and no absolute one", key)
        path = self._folder / name
        try:
            with io.TextIOWrapper(io.BytesIO(whole_file(path)), newline="", encoding="utf-8-sig") as file:
                reader = csv.reader(file, strict=True)
                rows = [(reader.line_num, tuple(cell.strip() for cell in row)) for row in reader]
        except OSError as fault:
            raise table.fault(f"names {path}: {fault.strerror}", key) from None
        except (UnicodeDecodeError, csv.Error) as fault:
            raise table.fault(f"names {path}, which is no CSV: {fault}", key) from None
        first = next((at for at, (_, row) in enumerate(rows) if any(row)), None)
        if first is None:
            raise table.fault(f"names {path}, which is empty", key)
        # an empty line is an empty cell where there is one column
        further = [(line, row or ("",) * (len(rows[first][1]) == 1)) for line, row in rows[first + 1:]]
        return _checked(path, [rows[first], *((line, row) for line, row in further if any(row) or (row and empty_rows))])


def _checked(path: Path, rows: Sequence[Tuple[int, Tuple[str, ...]]]) -> CsvFile:
    """The file, where its names differ and each row has as many cells as there are names."""
    line, names = rows[0]
    twice = next((it for at, it in enumerate(names) if it in names[:at]), None)
    if twice is not None:
        raise StudyError(shown_name(f'{path}:{line}: the column "{twice}" stands there twice'))
    found = CsvFile(path, names, tuple(row for _, row in rows[1:]), tuple(at for at, _ in rows[1:]))
    wrong = next((at for at, row in enumerate(found.rows) if len(row) != len(names)), None)
    if wrong is not None:
        raise found.fault(wrong, f"the row has {len(found.rows[wrong])} cells, and there are {len(names)} columns")
    return found


FORMS = ("file", "column", "months", "weeks", "profile", "at", "times", "flow", "random", "factor")
OF_TIERS = ("size", "cost", "value")
Series = List[Optional[Fraction]]


@dataclass
class NumberReader:
    """Reads the numbers of members, for the stages of a calendar and its load blocks. `stations` collects those that are asked for."""

    calendar: StageCalendar
    blocks: Sequence[str]
    files: CsvFiles
    profiles: Table
    stations: Set[str] = field(default_factory=set)

    def of(self, table: Table, key: str, member: Member) -> Any:
        """The numbers of a member of an element, as `hydroplan.plants` takes them."""
        value = table.members[key]
        if member.size is not None and isinstance(value, list) and any(isinstance(it, dict) and "size" in it for it in value):
            return self._tiers(table, key, member)
        return self._values(table, key, member)

    def _tiers(self, table: Table, key: str, member: Member) -> Tiers:
        """Tiers: a list of tables with a size and a cost, or of a value of the water that is kept a size and a value."""
        cost, found = "cost" if member.rises else "value", []
        for at, value in enumerate(table.members[key]):
            tier = Table(table.document, (*table.path, key, at), value if isinstance(value, dict) else {}).only(("size", cost))
            if not isinstance(value, dict):
                raise tier.fault(f"is a tier, as in {{ size = 10, {cost} = 50 }}, and not {shown(value)}")
            for needed in ("size", cost):
                tier.needed(needed)
            assert member.size is not None
            found.append((self._values(tier, "size", member.size), self._values(tier, cost, member)))
        return Tiers(*found)

    def _values(self, table: Table, key: str, member: Member) -> Any:
        value = table.members[key]
        if not isinstance(value, dict):
            return self._plain(table, key, member)
        inner = table.table(key)
        if "flow" in value:
            inner.only(("flow",))
            return flow(self._values(inner, "flow", member))
        if "random" in value:
            return self._random(inner, member)
        if not set(value) & set(FORMS) and value:
            return self._by_block(inner, member)
        return self.series(inner, member.gaps)

    def _random(self, table: Table, member: Member) -> Random:
        """The value of a station, times a factor."""
        table.only(("random", "factor"))
        station = table.text("random")
        self.stations.add(station)
        return Random(station, self._values(table, "factor", member) if "factor" in table.members else 1)

    def _by_block(self, table: Table, member: Member) -> Dict[str, Any]:
        if not member.by_block and not member.water:
            raise table.fault("has no numbers by load block")
        for name in table.members:
            if name not in self.blocks:
                raise table.fault(f"is no load block and no form of numbers: {suggestion(name, [*self.blocks, *FORMS])}", name)
        missing = [it for it in self.blocks if it not in table.members]
        if missing:
            raise table.fault(f'has no number for the load block "{missing[0]}"')
        return {name: self._plain(table, name, member) for name in self.blocks}

    def _plain(self, table: Table, key: str, member: Member) -> Any:
        """A number, a list, or one of the forms that give a number for each stage."""
        value = table.members[key]
        if isinstance(value, dict):
            return self.series(table.table(key), member.gaps)
        if not isinstance(value, list):
            return table.number(key)
        self._counted(table, key)
        return [self._entry(table, key, at, it) for at, it in enumerate(value)]

    def _counted(self, table: Table, key: str) -> None:
        """Refuses a list that has another count than the stages."""
        count = len(table.members[key])
        if count != self.calendar.stages:
            raise table.fault(f"has {count} numbers, and there are {self.calendar.stages} stages", key)

    def _entry(self, table: Table, key: str, at: int, value: Any) -> Any:
        """A number of a list, or one for each load block."""
        if isinstance(value, dict):
            inner = Table(table.document, (*table.path, key, at), value).only(self.blocks)
            return {name: inner.number(name) for name in self.blocks}
        if isinstance(value, bool) or not is_number(value):
            raise table.fault(f"is a number, and not {shown(value)}", key, at)
        return value

    def series(self, table: Table, gaps: bool = False) -> Series:
        """A number for each stage: a column, a yearly profile or some stages, each perhaps `times` a number."""
        table.only(("file", "column", "months", "weeks", "profile", "at", "times"))
        forms = [it for it in ("file", "months", "weeks", "profile", "at") if it in table.members]
        if len(forms) != 1:
            raise table.fault('has one of "file" with "column", "months", "weeks", "profile" or "at"')
        if "column" in table.members and forms[0] != "file":
            raise table.fault(f'goes with "file", and not with "{forms[0]}"', "column")
        found = getattr(self, f"_by_{forms[0]}")(table, gaps)
        times = exact(table.number("times", 1))
        return [None if it is None else it * times for it in found]

    def _by_file(self, table: Table, gaps: bool) -> Series:
        found = self._column(table, gaps)
        while len(found) > self.calendar.stages and found[-1] is None:
            found.pop()
        if len(found) != self.calendar.stages:
            raise table.fault(f"names a file of {len(found)} rows, and there are {self.calendar.stages} stages", "file")
        return found

    def _column(self, table: Table, gaps: bool) -> Series:
        """The numbers of a column of a CSV file."""
        file, name = self.files.named(table, "file", gaps), table.text("column")
        try:
            cells = file.column(name)
        except KeyError as fault:
            raise table.fault(f"is not there: {fault.args[0]}", "column") from None
        wrong = next((at for at, it in enumerate(cells) if not is_number(it) and not (gaps and not it)), None)
        if wrong is not None:
            raise file.fault(wrong, f'the column "{name}" has {shown(cells[wrong])}, which is no number')
        return [exact(it) if it else None for it in cells]

    def _by_months(self, table: Table, gaps: bool) -> Series:
        return self._yearly(table, MONTH, [it.month for it in self.calendar.dates])

    def _by_weeks(self, table: Table, gaps: bool) -> Series:
        if self.calendar.step == MONTH:
            raise table.fault("is a profile by weeks, and the stages are months", "weeks")
        return self._yearly(table, WEEK, [self.calendar.step_of(it) for it in range(1, self.calendar.stages + 1)])

    def _yearly(self, table: Table, step: str, steps: Sequence[int]) -> Series:
        """A profile of a year: a list, or a column of a CSV file, with a number for each step of the year."""
        key, count = f"{step}s", IN_A_YEAR[step]
        value = table.members[key]
        profile = self._column(table.table(key).only(("file", "column")), False) if isinstance(value, dict) else value
        if not isinstance(profile, list) or len(profile) != count:
            many = f"{len(profile)} numbers" if isinstance(profile, list) else shown(value)
            raise table.fault(f"has a number for each of the {count} {key} of a year, and not {many}", key)
        numbers = [it if isinstance(it, Fraction) else self._single(table, key, at, it) for at, it in enumerate(profile)]
        return [numbers[it - 1] for it in steps]

    def _by_profile(self, table: Table, gaps: bool) -> Series:
        name = table.text("profile")
        if name not in self.profiles.members:
            raise table.fault(f'is not there: "{name}", {suggestion(name, self.profiles.members)}', "profile")
        value = self.profiles.members[name]
        if isinstance(value, dict) and "profile" in value:
            raise self.profiles.table(name).fault("is not made of another profile", "profile")
        return self._of_stages(self.profiles, name, gaps)

    def _of_stages(self, table: Table, key: str, gaps: bool) -> Series:
        """A number for each stage, of whichever form stands under the key."""
        value = table.members[key]
        if isinstance(value, dict):
            return self.series(table.table(key), gaps)
        if not isinstance(value, list):
            return [exact(table.number(key))] * self.calendar.stages
        self._counted(table, key)
        return [self._single(table, key, at, it) for at, it in enumerate(value)]

    def _single(self, table: Table, key: str, at: int, value: Any) -> Fraction:
        """An entry of a list that has no numbers by load block."""
        if isinstance(value, dict):
            raise table.fault("is one number, and none for load blocks", key, at)
        return exact(self._entry(table, key, at, value))

    def _by_at(self, table: Table, gaps: bool) -> Series:
        """Numbers of some stages alone."""
        if not gaps:
            raise table.fault("has a number for each stage, and not for some of them", "at")
        inner = table.table("at")
        known = {str(it): it for it in range(1, self.calendar.stages + 1)}
        wrong = next((it for it in inner.members if it not in known), None)
        if wrong is not None:
            raise inner.fault(f"is no stage: there are 1 to {self.calendar.stages}", wrong)
        numbers = {known[it]: exact(inner.number(it)) for it in inner.members}
        return [numbers.get(stage) for stage in range(1, self.calendar.stages + 1)]


def check_block_names(table: Table, names: Mapping[str, object]) -> None:
    """Refuses names of load blocks that mean something else where numbers stand: words of numbers and of tiers, and places of a list."""
    wrong = next((it for it in names if it in (*FORMS, *OF_TIERS) or it.isdigit() or ":" in it), None)
    if wrong is not None:
        raise table.fault("is a word of numbers, a whole number, or has a colon: call the load block otherwise", wrong)
    for name in names:
        refuse_formula(table, name, name)


FORMULA_SIGNS = ("=", "+", "-", "@", "\t", "\r", "\n")


def refuse_formula(table: Table, name: str, *keys: object) -> None:
    """Refuses a name that a spreadsheet which opens the results would take for a formula."""
    if name.startswith(FORMULA_SIGNS):
        raise table.fault("begins as a formula of a spreadsheet does: a name begins with none of = + - @, tab and new line", *keys)
