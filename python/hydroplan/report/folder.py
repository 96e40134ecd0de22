"""A folder of results: its tables, read by pandas, its summary.json, and its years. A file that is not there is None."""
from __future__ import annotations

import json
from dataclasses import dataclass
from datetime import date, timedelta
from pathlib import Path
from typing import Any, Dict, Iterator, List, Mapping, Optional, Sequence, Tuple

from ..errors import HydroplanError
from ..tables import package
from ..tools.bounded_files import opened, whole_file
from ..tools.shown_names import shown_name


class ReportError(HydroplanError, ValueError):
    """A folder of results that cannot be read: the message names the file, and the column or the line."""


__all__ = ["shown_name"]


MONTHS = ("January", "February", "March", "April", "May", "June", "July", "August", "September", "October", "November", "December")
DAYS_OF_A_YEAR = 365
DAYS_LEFT_OUT = 8


@dataclass(frozen=True)
class Year:
    """So many stages that begin in twelve months; `is_whole` where they last at least a year less some days."""

    name: str
    stages: Tuple[Stage, ...]
    is_whole: bool

    @property
    def numbers(self) -> List[int]:
        """The numbers of its stages."""
        return [it.number for it in self.stages]


def years_of(stages: Sequence[Stage]) -> List[Year]:
    """The years of a calendar, in order. A stage is of the year in which its middle lies."""
    places: Dict[int, List[Stage]] = {}
    for stage in stages:
        places.setdefault(_year_number(stages[0].start, stage.start + (stage.end - stage.start) / 2), []).append(stage)
    return [_year(found) for _, found in sorted(places.items())]


def _year_number(first: date, day: date) -> int:
    """How many whole years lie between the two days."""
    return day.year - first.year - ((day.month, day.day) < (first.month, first.day))


def _year(stages: Sequence[Stage]) -> Year:
    first, last = stages[0].start, stages[-1].end - timedelta(days=1)
    is_whole = (last - first).days + 1 >= DAYS_OF_A_YEAR - DAYS_LEFT_OUT
    if is_whole and (first.month, last.month) == (1, 12) and first.year == last.year:
        return Year(str(first.year), tuple(stages), True)
    return Year(f"{_month(first)} to {_month(last)}", tuple(stages), is_whole)


def _month(day: date) -> str:
    return f"{MONTHS[day.month - 1][:3]} {day.year}"


FILE = "summary.json"
HOURS_OF_A_DAY = 24


@dataclass(frozen=True)
class Stage:
    """A stage of the calendar: its number from 1, its first day, the day after its last, its name, and the hours of each block."""

    number: int
    start: date
    end: date
    name: str
    hours: Mapping[str, float]

    @property
    def length(self) -> float:
        """The hours of all blocks together."""
        return sum(self.hours.values())


@dataclass(frozen=True)
class Element:
    """A part of the system, with its least and greatest volume or power by stage where the study gives them.

    `source` and `target` are the buses of a line, or the reservoirs of a pump.
    """

    name: str
    kind: str
    bus: Optional[str]
    source: Optional[str]
    target: Optional[str]
    minimum: Tuple[Optional[float], ...]
    maximum: Tuple[Optional[float], ...]


@dataclass(frozen=True)
class Units:
    """The names of the study's units; a number of money stands for so many `money_scale` of its unit."""

    money: str
    money_scale: float
    energy: str
    volume: str
    power: str


@dataclass(frozen=True)
class Estimate:
    """What simulated scenarios say of the policy's cost: their mean, half of its confidence interval, and the gap to the bound."""

    mean: float
    half_width: Optional[float]
    confidence: float
    gap: Optional[float]
    gap_share: Optional[float]
    scenarios: int
    seed: Optional[int]


@dataclass(frozen=True)
class Summary:
    """All of summary.json; what the file does not have is None or empty."""

    title: str
    made_by: str
    units: Units
    stages: Tuple[Stage, ...]
    elements: Tuple[Element, ...]
    buses: Tuple[str, ...]
    inflow: Mapping[str, Any]
    training: Mapping[str, Any]
    bound: Optional[float]
    bound_text: str
    estimate: Optional[Estimate]
    upper: Optional[float]
    upper_text: str
    demand: Tuple[Mapping[str, Any], ...]
    prices: Mapping[str, Any]
    simulation_unanswered: Optional[int]
    data_digest: str
    options_digest: str

    def elements_of(self, kind: str) -> List[Element]:
        """The elements of a kind, in the order of the study."""
        return [it for it in self.elements if it.kind == kind]

    def element(self, name: str, *kinds: str) -> Optional[Element]:
        """The element of this name and one of these kinds, since an import and an export may have one name; None where there is none."""
        return next((it for it in self.elements if it.name == name and it.kind in kinds), None)

    def store(self, name: str) -> Optional[Element]:
        """The reservoir or the battery of this name; None where there is none."""
        return self.element(name, "reservoir", "battery")

    def stage(self, number: int) -> Stage:
        """The stage of this number; ReportError where the calendar has none."""
        place = number - self.stages[0].number
        if 0 <= place < len(self.stages) and self.stages[place].number == number:
            return self.stages[place]
        raise ReportError(f"{FILE}: the calendar has no stage {number}, which another file names")


def read_summary(folder: Path) -> Summary:
    """The summary of a folder of results; ReportError where it is not there, is no JSON, or lacks its calendar."""
    path = folder / FILE
    try:
        read = json.loads(whole_file(path).decode("utf-8"))
    except OSError as fault:
        raise ReportError(f"cannot open {path}: {fault.strerror}; a folder of results has it") from None
    except (ValueError, RecursionError) as fault:
        raise ReportError(f"{path} is no JSON: {fault}") from None
    if not isinstance(read, dict):
        raise ReportError(f"{path}: an object is expected")
    try:
        return _summary(read)
    except (KeyError, TypeError, ValueError, AttributeError, OverflowError) as fault:
        raise ReportError(f"{path}: a member is missing or of another kind: {type(fault).__name__} {fault}") from None


def _summary(read: Dict[str, Any]) -> Summary:
    """The summary of the members of the file."""
    certified, upper = read.get("certified") or {}, read.get("upper") or {}
    stages = _stages(read["calendar"])
    return Summary(
        title=str(read.get("title") or "A study"),
        made_by=str(read.get("made_by") or "hydroplan"),
        units=_units(read.get("units") or {}),
        stages=stages,
        elements=tuple(_element(it, len(stages)) for it in read.get("elements") or ()),
        buses=tuple(map(str, read.get("buses") or ())),
        inflow=read.get("inflow") or {},
        training=read.get("training") or {},
        bound=_number(certified.get("bound")),
        bound_text=str(certified.get("bound_text") or "no policy of the compiled problem costs less"),
        estimate=_estimate(read.get("estimated")),
        upper=_number(upper.get("cost")),
        upper_text=str(upper.get("text") or "the trained policy costs at most"),
        demand=tuple(read.get("demand") or ()),
        prices=read.get("prices") or {},
        simulation_unanswered=None if read.get("simulation_unanswered") is None else int(read["simulation_unanswered"]),
        data_digest=str(read.get("data_digest") or ""),
        options_digest=str(read.get("options_digest") or ""),
    )


def _units(read: Mapping[str, Any]) -> Units:
    names = {"money": "money", "energy": "MWh", "volume": "hm3", "power": "MW"}
    shown = {key: str(read.get(key) or default) for key, default in names.items()}
    return Units(money_scale=float(read.get("money_scale") or 1), **shown)


def _estimate(read: Optional[Mapping[str, Any]]) -> Optional[Estimate]:
    """The estimate, or None where nothing was simulated."""
    if not read or read.get("mean") is None:
        return None
    return Estimate(
        mean=float(read["mean"]),
        half_width=_number(read.get("half_width")),
        confidence=float(read.get("confidence") or 0.95),
        gap=_number(read.get("gap")),
        gap_share=_number(read.get("gap_share")),
        scenarios=int(read.get("scenarios") or 0),
        seed=None if read.get("seed") is None else int(read["seed"]),
    )


def _element(read: Mapping[str, Any], stages: int) -> Element:
    bus, source, target = (None if read.get(it) is None else str(read[it]) for it in ("bus", "source", "target"))
    least, most = (_by_stage(read.get(it), stages) for it in ("minimum", "maximum"))
    return Element(str(read["name"]), str(read.get("kind") or ""), bus, source, target, least, most)


def _by_stage(read: Any, stages: int) -> Tuple[Optional[float], ...]:
    """A number for each stage, of a list or of one number; none of nothing, or of a list of another length."""
    if isinstance(read, (list, tuple)):
        return tuple(_number(it) for it in read) if len(read) == stages else ()
    number = _number(read)
    return () if number is None else (number,) * stages


def _number(read: Any) -> Optional[float]:
    return None if read is None or isinstance(read, (dict, bool)) else float(read)


def _stages(read: Sequence[Mapping[str, Any]]) -> Tuple[Stage, ...]:
    """The stages with their ends: a stage ends where the next begins, and the last by its hours."""
    if not read:
        raise ValueError("the calendar has no stages")
    starts = [date.fromisoformat(str(it["date"])[:10]) for it in read]
    if any(later <= earlier for earlier, later in zip(starts, starts[1:])):
        raise ValueError("the dates of the calendar do not rise")
    first = int(read[0].get("stage", 1))
    if first < 0 or [int(it.get("stage", first + place)) for place, it in enumerate(read)] != list(range(first, first + len(read))):
        raise ValueError("the stages of the calendar are not numbered one after the other")
    hours = [{str(block): float(long) for block, long in (it.get("hours") or {}).items()} for it in read]
    ends = [*starts[1:], starts[-1] + _last_length(starts, sum(hours[-1].values()))]
    return tuple(
        Stage(int(it.get("stage", place + 1)), starts[place], ends[place], str(it.get("name") or starts[place]), hours[place])
        for place, it in enumerate(read)
    )


def _last_length(starts: Sequence[date], hours: float) -> timedelta:
    """How long the last stage is: its hours, where they are near the length of the stage before, or else that."""
    by_hours = timedelta(days=max(1, round(hours / HOURS_OF_A_DAY)))
    if len(starts) == 1:
        return by_hours
    before = starts[-1] - starts[-2]
    return by_hours if before / 2 <= by_hours <= before * 2 else before


QUANTILES = ("mean", "least", "p05", "p10", "p25", "p50", "p75", "p90", "p95", "greatest")
COLUMNS: Mapping[str, Sequence[str]] = {
    "bounds": ("iteration", "bound", "mean", "half_width", "gap", "seconds"),
    "costs": ("scenario", "stage", "cost"),
    "storage_quantiles": ("stage", "reservoir", "unit", *QUANTILES),
    "price_quantiles": ("stage", "block", "bus", "unit", *QUANTILES),
    "water_values": ("stage", "node", "reservoir", "volume", "value"),
    "deficits": ("stage", "block", "bus", "share_of_scenarios", "mean", "p95", "greatest"),
    "residuals": ("stage", "scenarios", "greatest", "missed"),
    "decisions": ("scenario", "stage", "block", "element", "quantity", "value"),
}
WHOLE = {"iteration", "scenario", "stage", "scenarios"}
NAMES = {"block", "element", "quantity", "reservoir", "bus", "unit", "node"}
ROWS_AT_ONCE = 500_000


class Results:
    """A folder of results: its summary, and its tables when they are asked for."""

    def __init__(self, folder: Path) -> None:
        """ReportError where the folder has no readable summary.json."""
        self.folder = folder
        self.summary: Summary = read_summary(folder)

    def table(self, name: str) -> Optional[Any]:
        """A DataFrame with the columns of the table; None where the file is not there or has no rows.

        ReportError where a column is missing, a number is none, or a stage is not in the calendar.
        """
        parts = list(self.parts(name, rows_at_once=None))
        if not parts or not len(parts[0]):
            return None
        known = {it.number for it in self.summary.stages}
        unknown = [] if "stage" not in COLUMNS[name] else [it for it in parts[0]["stage"] if it not in known]
        if unknown:
            raise ReportError(f"{self.folder / f'{name}.csv'}: the calendar of summary.json has no stage {unknown[0]}")
        return parts[0]

    def parts(self, name: str, rows_at_once: Optional[int] = ROWS_AT_ONCE) -> Iterator[Any]:
        """DataFrames of so many rows each, one after the other; names are of pandas' type `category`. None where there is no file."""
        path, pandas = self.folder / f"{name}.csv", package("pandas")
        if not path.exists():
            return
        columns = COLUMNS[name]
        kinds = {it: "category" if it in NAMES else "int64" if it in WHOLE else "float64" for it in columns}
        empty = {it: [""] for it in columns if it not in NAMES and it not in WHOLE}
        words = {"usecols": list(columns), "dtype": kinds, "keep_default_na": False, "na_values": empty, "encoding": "utf-8"}
        try:
            with open(opened(path), "rb") as file:
                read = pandas.read_csv(file, **words, chunksize=rows_at_once)
                yield from read if rows_at_once else [read]
        except OSError as fault:
            raise ReportError(f"cannot open {path}: {fault.strerror}") from None
        except (ValueError, OverflowError) as fault:
            raise ReportError(f"{path}: {fault}") from None

    def lines(self, name: str) -> Optional[List[str]]:
        """The lines of a text; None where the file is not there."""
        path = self.folder / name
        return path.read_text(encoding="utf-8", errors="replace").splitlines() if path.exists() else None
