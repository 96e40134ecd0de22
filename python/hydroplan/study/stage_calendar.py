"""The calendar of a study: the first day, the length and the name of each stage, and the hours of each load block."""
from __future__ import annotations

import calendar
import datetime
from dataclasses import dataclass
from fractions import Fraction
from typing import Any, Dict, List, Optional, Tuple

from ..exact import exact, is_number
from .document import StudyError, Table, shown

MONTH, WEEK, OWN = "month", "week", "own"
STEPS = (MONTH, WEEK)
IN_A_YEAR = {MONTH: 12, WEEK: 52}
HOURS_OF_A_DAY = 24
DAYS_OF_A_WEEK = 7
MOST_STAGES = 1000
REST = "rest"
NAMES = (
    "January", "February", "March", "April", "May", "June", "July", "August", "September", "October", "November", "December",
)


@dataclass(frozen=True)
class StageCalendar:
    """The stages of a study: `dates` has the first day of each, `hours` its length in hours; `step` is month, week or own."""

    step: str
    dates: Tuple[datetime.date, ...]
    hours: Tuple[Fraction, ...]

    @property
    def stages(self) -> int:
        """The number of stages."""
        return len(self.dates)

    @property
    def steps_in_a_year(self) -> Optional[int]:
        """How many stages a year has: 12 or 52, none where stages have lengths of their own."""
        return IN_A_YEAR.get(self.step)

    @property
    def dates_rise(self) -> bool:
        """Whether each stage begins on a later day than the one before."""
        return all(before < date for before, date in zip(self.dates, self.dates[1:]))

    def step_of(self, stage: int) -> int:
        """The month or the week of the year of a stage, both from 1: weeks have 7 days from the first of January on, the last one more."""
        date = self.dates[stage - 1]
        return date.month if self.step == MONTH else min(IN_A_YEAR[WEEK], (date.timetuple().tm_yday - 1) // DAYS_OF_A_WEEK + 1)

    def name(self, stage: int) -> str:
        """A stage as people call it."""
        date = self.dates[stage - 1]
        if self.step == MONTH:
            return f"{NAMES[date.month - 1]} {date.year}"
        day = f"{date.day} {NAMES[date.month - 1]} {date.year}"
        return f"week of {day}" if self.step == WEEK else f"{day}, {float(self.hours[stage - 1]):g} h"


def read_calendar(table: Table) -> StageCalendar:
    """The calendar of the table `calendar`; StudyError where it is none."""
    table.only(("start", "stages", "step", "hours"))
    stages, start = table.whole("stages", 1, MOST_STAGES), table.date("start")
    try:
        return _read(table, start, stages)
    except (OverflowError, ValueError) as fault:
        if isinstance(fault, StudyError):
            raise
        raise table.fault(f"leads behind the year {datetime.MAXYEAR}, the last that a calendar has", "stages") from None


def _read(table: Table, start: datetime.date, stages: int) -> StageCalendar:
    """The calendar; OverflowError or ValueError where the day behind its last stage is no date."""
    if "hours" in table.members:
        if "step" in table.members:
            raise table.fault('is not given beside "hours"', "step")
        return _own(table, start, stages)
    if table.choice("step", STEPS, MONTH) == WEEK:
        dates = [start + datetime.timedelta(days=DAYS_OF_A_WEEK * at) for at in range(stages + 1)]
        return StageCalendar(WEEK, tuple(dates[:-1]), (Fraction(DAYS_OF_A_WEEK * HOURS_OF_A_DAY),) * stages)
    if start.day != 1:
        raise table.fault(f"is the first day of a month where stages are months, and not {start}", "start")
    months = [divmod(start.month - 1 + at, 12) for at in range(stages + 1)]
    found = [datetime.date(start.year + years, month + 1, 1) for years, month in months][:-1]
    hours = [Fraction(calendar.monthrange(it.year, it.month)[1] * HOURS_OF_A_DAY) for it in found]
    return StageCalendar(MONTH, tuple(found), tuple(hours))


def _own(table: Table, start: datetime.date, stages: int) -> StageCalendar:
    """Stages of so many hours each: one number, or one for each stage."""
    given = table.needed("hours")
    numbers = given if isinstance(given, list) else [given] * stages
    if len(numbers) != stages:
        raise table.fault(f"has {len(numbers)} numbers, and there are {stages} stages", "hours")
    hours = [_positive(table, number) for number in numbers]
    begins = [start + datetime.timedelta(hours=float(sum(hours[:at]))) for at in range(stages + 1)]
    return StageCalendar(OWN, tuple(begins[:-1]), tuple(hours))


def _positive(table: Table, number: Any) -> Fraction:
    if isinstance(number, (bool, str)) or not is_number(number):
        raise table.fault(f"is a number of hours, and not {shown(number)}", "hours")
    found = exact(number, "hours")
    if found <= 0:
        raise table.fault(f"is above 0, and not {number}", "hours")
    return found


def read_blocks(table: Table, times: StageCalendar) -> Dict[str, List[Fraction]]:
    """The hours of each load block in each stage: a share of the stage, hours, or the rest; one block of all hours where none is given."""
    if not table.members:
        return {"all": list(times.hours)}
    rests = [name for name, value in table.members.items() if value == REST]
    if len(rests) > 1:
        raise table.fault(f'is the rest, as "{rests[0]}" is', rests[1])
    found = {name: _block(table, name, times) for name in table.members if name not in rests}
    left = [hours - sum(own[at] for own in found.values()) for at, hours in enumerate(times.hours)]
    wrong = next((at for at, it in enumerate(left) if it < 0 or (it > 0 and not rests) or (it == 0 and rests)), None)
    if wrong is not None:
        raise _not_whole(table, wrong, times, sum(own[wrong] for own in found.values()))
    return {name: left if name in rests else found[name] for name in table.members}


def _not_whole(table: Table, at: int, times: StageCalendar, hours: object) -> StudyError:
    return table.fault(f"have {hours} hours of the {times.hours[at]} of stage {at + 1}: a block may be \"{REST}\"")


def _block(table: Table, name: str, times: StageCalendar) -> List[Fraction]:
    """The hours of a block in each stage."""
    value = table.members[name]
    if isinstance(value, dict):
        inner = table.table(name).only(("hours",))
        given = inner.needed("hours")
        numbers = given if isinstance(given, list) else [given] * times.stages
        if len(numbers) != times.stages:
            raise inner.fault(f"has {len(numbers)} numbers, and there are {times.stages} stages", "hours")
        return [_positive(inner, it) for it in numbers]
    share = exact(table.number(name))
    if not 0 < share <= 1:
        raise table.fault(f'is a share of the stage above 0, {{ hours = .. }}, or "{REST}", and not {shown(value)}', name)
    return [share * it for it in times.hours]
