"""Drawings of a few shapes, which a template writes as SVG, with scales and axes. Colours are those of the page's style sheet."""
from __future__ import annotations

import math
from dataclasses import dataclass, field
from datetime import date, timedelta
from typing import Iterable, List, Optional, Sequence, Tuple, Union

from .folder import MONTHS
from .formats import decimals_for, number

Point = Tuple[float, float]


@dataclass(frozen=True)
class Area:
    """A filled polygon."""

    points: str
    look: str
    title: str = ""
    kind: str = "area"


@dataclass(frozen=True)
class Line:
    """A line through points."""

    points: str
    look: str
    title: str = ""
    kind: str = "line"


@dataclass(frozen=True)
class Box:
    """A filled rectangle; `opacity` between 0 and 1, or None for that of its look."""

    x: float
    y: float
    width: float
    height: float
    look: str
    title: str = ""
    opacity: Optional[float] = None
    kind: str = "box"


@dataclass(frozen=True)
class Dot:
    """A small disc."""

    x: float
    y: float
    look: str
    title: str = ""
    kind: str = "dot"


@dataclass(frozen=True)
class Text:
    """A word; `anchor` is `start`, `middle` or `end`."""

    x: float
    y: float
    text: str
    anchor: str = "start"
    look: str = "tick"
    kind: str = "text"


Shape = Union[Area, Line, Box, Dot, Text]


@dataclass
class Drawing:
    """A picture of shapes, with a title above it and words for whoever does not see it."""

    width: float
    height: float
    title: str
    words: str
    shapes: List[Shape] = field(default_factory=list)

    def add(self, *shapes: Shape) -> None:
        """Puts shapes above those that are there."""
        self.shapes.extend(shapes)


def points_text(points: Iterable[Point]) -> str:
    """Points as SVG has them, to a tenth of a unit of the drawing."""
    return " ".join(f"{_short(x)},{_short(y)}" for x, y in points)


def between(above: Sequence[Point], below: Sequence[Point]) -> str:
    """The polygon between two lines."""
    return points_text([*above, *reversed(below)])


def _short(value: float) -> str:
    text = f"{value:.1f}"
    return text[:-2] if text.endswith(".0") else text


LEFT, RIGHT, TOP, BOTTOM = 58.0, 22.0, 26.0, 40.0
ROOM_OF_A_DATE = 48.0
MONTH_STEPS = (1, 2, 3, 6, 12, 24, 60, 120, 240)
DAYS_OF_A_MONTH = 30.4
PEAK = 2.0


@dataclass(frozen=True)
class Scale:
    """Takes numbers from `low` to `high` to places from `start` to `end`."""

    low: float
    high: float
    start: float
    end: float

    def __call__(self, value: float) -> float:
        """The place of a number."""
        return self.start + (value - self.low) / (self.high - self.low) * (self.end - self.start)


@dataclass
class Plot:
    """A drawing with its two scales."""

    drawing: Drawing
    x: Scale
    y: Scale

    def points(self, xs: Sequence[float], ys: Sequence[Optional[float]]) -> List[Point]:
        """The places of points; what has no number is left out, and what stands above the plot comes to its upper edge."""
        return [(self.x(x), max(self.y(y), self.y.end)) for x, y in zip(xs, ys) if y is not None and math.isfinite(y)]

    def steps(self, edges: Sequence[Tuple[float, float]], ys: Sequence[Optional[float]]) -> List[Point]:
        """The places of a line that is level within each pair of edges; numbers as in `points`."""
        pairs = [(edge, y) for edge, y in zip(edges, ys) if y is not None and math.isfinite(y)]
        return [(self.x(at), max(self.y(y), self.y.end)) for (first, last), y in pairs for at in (first, last)]


def round_step(width: float, count: int) -> float:
    """A step of 1, 2 or 5 times a power of ten, of which the width has about so many."""
    rough = width / max(1, count)
    power = 10.0 ** math.floor(math.log10(rough))
    return next(it * power for it in (1, 2, 5, 10) if rough <= it * power * (1 + 1e-9))


def round_ticks(low: float, high: float, count: int) -> List[float]:
    """Round numbers from low to high, about so many."""
    step = round_step(high - low, count)
    first, last = math.ceil(low / step - 1e-9), math.floor(high / step + 1e-9)
    return [place * step for place in range(first, last + 1)]


def _decimals(ticks: Sequence[float]) -> int:
    """How many decimals the step between ticks has."""
    steps = [later - before for before, later in zip(ticks, ticks[1:])]
    return decimals_for(steps or ticks, 1)


def span(values: Iterable[Optional[float]], with_zero: bool = True) -> Tuple[float, float]:
    """The least and the greatest number to be drawn, with a small margin; 0 is within where it is asked for."""
    kept = [it for it in values if it is not None and math.isfinite(it)]
    low, high = (min(kept), max(kept)) if kept else (0.0, 1.0)
    if with_zero:
        low, high = min(low, 0.0), max(high, 0.0)
    margin = 0.05 * (high - low) or abs(high) * 0.05 or 1.0
    below, above = (not with_zero or it for it in (low < 0, high > 0 or low == 0))
    return low - margin * below, high + margin * above


def without_peaks(values: Iterable[Optional[float]]) -> List[float]:
    """The numbers that an axis has to reach: of those that stand far above nine tenths of all, only some way up to them."""
    kept = sorted(it for it in values if it is not None and math.isfinite(it))
    if not kept:
        return []
    usual = kept[math.ceil(0.9 * len(kept)) - 1]
    return kept if usual <= 0 or kept[-1] <= PEAK * usual else [it for it in kept if it <= PEAK * usual] + [PEAK * usual]


def plot(drawing: Drawing, xs: Tuple[float, float], ys: Tuple[float, float]) -> Plot:
    """A plot over the whole drawing but its margins, for numbers within both pairs."""
    x = Scale(xs[0], xs[1] if xs[1] > xs[0] else xs[0] + 1, LEFT, drawing.width - RIGHT)
    return Plot(drawing, x, Scale(ys[0], ys[1], drawing.height - BOTTOM, TOP))


def draw_upward(made: Plot, unit: str, count: int = 5) -> None:
    """Draws level lines with their numbers, and the unit above them."""
    ticks = round_ticks(made.y.low, made.y.high, count)
    decimals = _decimals(ticks)
    for value in ticks:
        height = made.y(value)
        look = "zero" if value == 0 and made.y.low < 0 else "grid"
        made.drawing.add(Line(points_text([(made.x.start, height), (made.x.end, height)]), look))
        made.drawing.add(Text(LEFT - 6, height + 4, number(value, decimals), "end"))
    made.drawing.add(Text(4, 13, unit, look="unit"))


def draw_numbers(made: Plot, unit: str, count: int = 6) -> None:
    """Draws the numbers below, with their unit."""
    ticks = round_ticks(made.x.low, made.x.high, count)
    decimals = _decimals(ticks)
    base = made.y.start
    for value in ticks:
        place = made.x(value)
        made.drawing.add(Line(points_text([(place, base), (place, base + 4)]), "axis"))
        made.drawing.add(Text(place, base + 17, number(value, decimals), "middle"))
    made.drawing.add(Line(points_text([(made.x.start, base), (made.x.end, base)]), "axis"))
    made.drawing.add(Text(made.x.end, base + 33, unit, "end", "unit"))


def draw_dates(made: Plot) -> None:
    """Draws the dates below: days, months or years, as many as there is room for."""
    first, last = date.fromordinal(int(made.x.low)), date.fromordinal(math.ceil(made.x.high))
    base = made.y.start
    made.drawing.add(Line(points_text([(made.x.start, base), (made.x.end, base)]), "axis"))
    for day, above, below in date_ticks(first, last, made.x.end - made.x.start):
        place = made.x(day.toordinal())
        made.drawing.add(Line(points_text([(place, base), (place, base + 4)]), "axis"), Text(place, base + 17, above, "middle"))
        if below:
            made.drawing.add(Text(place, base + 31, below, "middle", "year"))


def date_ticks(first: date, last: date, room: float) -> List[Tuple[date, str, str]]:
    """Days with two lines of words each: the month or the day, and the year or the month where it changes."""
    months = (last - first).days / DAYS_OF_A_MONTH
    most = max(1.0, room / ROOM_OF_A_DATE)
    if months < 1.5:
        return _day_ticks(first, last, most)
    step = next((it for it in MONTH_STEPS if months / it <= most), MONTH_STEPS[-1])
    starts = [day for day in _months(first, last) if (day.year * 12 + day.month - 1) % step == 0]
    if step >= 12:
        return [(day, str(day.year), "") for day in starts]
    years = [None, *(day.year for day in starts)]
    return [(day, MONTHS[day.month - 1][:3], str(day.year) if day.year != before else "") for day, before in zip(starts, years)]


def _day_ticks(first: date, last: date, most: float) -> List[Tuple[date, str, str]]:
    """Days with the month below where it changes."""
    count = (last - first).days
    step = max(1, math.ceil(count / most))
    days = [first + timedelta(days=it) for it in range(0, count + 1, step)]
    months = [None, *(day.month for day in days)]
    words = [f"{MONTHS[day.month - 1][:3]} {day.year}" if day.month != before else "" for day, before in zip(days, months)]
    return [(day, str(day.day), word) for day, word in zip(days, words)]


def _months(first: date, last: date) -> List[date]:
    """The first days of months within both."""
    count = (last.year - first.year) * 12 + last.month - first.month
    places = [first.year * 12 + first.month - 1 + it for it in range(count + 1)]
    days = [date(it // 12, it % 12 + 1, 1) for it in places]
    return [day for day in days if first <= day <= last]
