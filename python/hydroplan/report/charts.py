"""The drawings of the page: bars, blocks and shares by date, lines over iterations, volumes or dates, and fans of quantiles."""
from __future__ import annotations

import math
from collections import Counter
from dataclasses import dataclass
from typing import Any, List, Optional, Sequence, Tuple

from .content import Key
from .drawing import (
    Area, Box, Dot, Drawing, Line, Plot, Point, Scale, Shape, Text, between, draw_dates, draw_numbers, draw_upward, plot, points_text, round_step,
    span, without_peaks,
)

MOST_BARS = 40
ROW_HEIGHT, HEAT_LEFT, HEAT_TOP, HEAT_BOTTOM = 24.0, 128.0, 8.0, 40.0
LEAST_CELL_WITH_WORD = 17.0
LONGEST_NAME = 18
# how dark the cell of a very small share is, which has to be seen too
LEAST_DEPTH = 0.12


@dataclass(frozen=True)
class Layer:
    """A part of a stack: its look, its words, and a number for each stage."""

    look: str
    words: str
    values: Sequence[float]


@dataclass(frozen=True)
class Stack:
    """Layers above 0 and below it, the first next to 0, and a line over them."""

    title: str
    unit: str
    above: Sequence[Layer]
    below: Sequence[Layer]
    line: Sequence[Optional[float]]

    @property
    def keys(self) -> List[Key]:
        """The legend, from above to below."""
        return [Key(it.look, it.words) for it in [*reversed(self.above), *self.below]]


def draw_stack(stack: Stack, edges: Sequence[Tuple[float, float]], words: str, is_wide: bool = False) -> Drawing:
    """The stack by stage; edges have the first and last day of each, as ordinals."""
    drawing = Drawing(*((WIDE, TALL + 40) if is_wide else (WIDTH, HEIGHT)), stack.title, words)
    heights = [_totals(layers, len(edges)) for layers in (stack.above, stack.below)]
    values = [*heights[0][-1], *(-it for it in heights[1][-1]), *stack.line]
    made = plot(drawing, (edges[0][0], edges[-1][1]), span(values))
    draw_upward(made, stack.unit)
    for sign, layers, totals in ((1, stack.above, heights[0]), (-1, stack.below, heights[1])):
        _add_layers(made, edges, layers, totals, sign)
    drawing.add(Line(points_text(made.steps(edges, stack.line)), "demand"))
    draw_dates(made)
    return drawing


def _totals(layers: Sequence[Layer], count: int) -> List[List[float]]:
    """The sums of no layer, the first one, the first two, and so on."""
    found = [[0.0] * count]
    for layer in layers:
        found.append([before + it for before, it in zip(found[-1], layer.values)])
    return found


def _add_layers(made: Plot, edges: Sequence[Tuple[float, float]], layers: Sequence[Layer], totals: List[List[float]], sign: int) -> None:
    for layer, inner, outer in zip(layers, totals, totals[1:]):
        lines = [made.steps(edges, [sign * it for it in heights]) for heights in (outer, inner)]
        made.drawing.add(Area(between(*lines), f"{layer.look} layer", layer.words))


def draw_histogram(title: str, values: Sequence[float], unit: str, marks: Sequence[Tuple[str, float, str]], words: str) -> Drawing:
    """How many values lie where; marks are further lines upright, each with its look, its place and its word."""
    drawing = Drawing(WIDE, TALL, title, words)
    low, high = min([*values, *(it[1] for it in marks)]), max([*values, *(it[1] for it in marks)])
    step = round_step(high - low or abs(high) or 1, min(MOST_BARS, max(8, round(2 * len(values) ** 0.5))))
    first, last = math.floor(low / step), math.floor(high / step) + 1
    found = Counter(math.floor(value / step) for value in values)
    counts = [found[it] for it in range(first, last)]
    made = plot(drawing, (first * step, last * step), (0, max(counts) * 1.18))
    draw_upward(made, "scenarios")
    draw_numbers(made, unit, 10)
    drawing.add(*_bars(made, counts, first, step, unit))
    for place, (look, value, word) in enumerate(marks):
        _add_mark(made, look, value, word, place)
    return drawing


def _bars(made: Plot, counts: Sequence[int], first: int, step: float, unit: str) -> List[Box]:
    places = [(made.x((first + it) * step), made.x((first + it + 1) * step)) for it in range(len(counts))]
    words = [f"{count} scenarios from {(first + it) * step:,.6g} to {(first + it + 1) * step:,.6g} {unit}" for it, count in enumerate(counts)]
    tops = [made.y(it) for it in counts]
    drawn = [it for it in zip(places, tops, words) if it[1] < made.y.start]
    return [Box(left + 0.5, top, right - left - 1, made.y.start - top, "bar", word) for (left, right), top, word in drawn]


def _add_mark(made: Plot, look: str, value: float, word: str, place: int) -> None:
    """A line upright with its word; the words stand below one another."""
    x, height = made.x(value), made.y.end + 13.0 * place
    is_right = x > made.x.start + 0.72 * (made.x.end - made.x.start)
    made.drawing.add(Line(points_text([(x, made.y.start), (x, height - 9)]), look))
    made.drawing.add(Text(x + (-5 if is_right else 5), height, word, "end" if is_right else "start", "word"))


@dataclass(frozen=True)
class Group:
    """A bar with a whisker: a mean, and between what most of its values lie."""

    look: str
    mean: float
    low: float
    high: float
    words: str


def draw_groups(title: str, unit: str, groups: Sequence[Group], level: float, ends: Tuple[str, str], words: str) -> Drawing:
    """A bar for each group from left to right, a line at a level, and words at both ends below."""
    drawing = Drawing(WIDTH, HEIGHT, title, words)
    made = plot(drawing, (0, len(groups)), span([*(it.low for it in groups), *(it.high for it in groups), level]))
    draw_upward(made, unit)
    zero = made.y(max(0.0, made.y.low))
    for place, group in enumerate(groups):
        top, middle = made.y(group.mean), made.x(place + 0.5)
        width = made.x(1) - made.x(0)
        drawing.add(Box(made.x(place) + 0.12 * width, min(top, zero), 0.76 * width, abs(zero - top), group.look, group.words))
        drawing.add(Line(points_text([(middle, made.y(group.low)), (middle, made.y(group.high))]), "whisker"))
    drawing.add(Line(points_text([(made.x.start, made.y(level)), (made.x.end, made.y(level))]), "level"))
    base = made.y.start
    drawing.add(Line(points_text([(made.x.start, base), (made.x.end, base)]), "axis"))
    drawing.add(Text(made.x.start + 2, base + 17, ends[0]), Text(made.x.end - 2, base + 17, ends[1], "end"))
    return drawing


def draw_heat(rows: Sequence[Tuple[str, Sequence[float]]], edges: Sequence[Tuple[float, float]], words: str) -> Drawing:
    """A row for each name and a cell for each pair of edges, the darker the greater its share (0 to 1), with it in per cent."""
    drawing = Drawing(WIDE, HEAT_TOP + HEAT_BOTTOM + ROW_HEIGHT * len(rows), "", words)
    x = Scale(edges[0][0], edges[-1][1], HEAT_LEFT, drawing.width - 14)
    made = Plot(drawing, x, Scale(0, 1, drawing.height - HEAT_BOTTOM, HEAT_TOP))
    for row, (name, line) in enumerate(rows):
        top = HEAT_TOP + row * ROW_HEIGHT
        drawing.add(Text(HEAT_LEFT - 8, top + 16, _shortened(name), "end", "name"))
        drawing.add(*(shape for edge, it in zip(edges, line) for shape in _cell(x, top, edge, it)))
    draw_dates(made)
    return drawing


def _cell(x: Scale, top: float, edge: Tuple[float, float], value: float) -> List[Shape]:
    """The cell of a share; its number where there is room and it is not 0."""
    left, width = x(edge[0]), x(edge[1]) - x(edge[0])
    look, depth = ("heat", round(LEAST_DEPTH + (1 - LEAST_DEPTH) * value, 3)) if value else ("heat-none", None)
    found: List[Shape] = [Box(left, top + 1, max(width - 1, 0.5), ROW_HEIGHT - 2, look, f"{100 * value:.0f} %", depth)]
    if value and width >= LEAST_CELL_WITH_WORD:
        text = f"{100 * value:.0f}" if value >= 0.005 else "<1"
        found.append(Text(left + (width - 1) / 2, top + 16, text, "middle", "heat-word-light" if value > 0.45 else "heat-word"))
    return found


def _shortened(name: str) -> str:
    return name if len(name) <= LONGEST_NAME else name[: LONGEST_NAME - 1] + "…"


HALF = 540.0
LINE_LOOKS = ("line-1", "line-2", "line-3", "line-4", "line-5")


@dataclass(frozen=True)
class Curve:
    """A line through points, with its look and a word at its end."""

    look: str
    xs: Sequence[float]
    ys: Sequence[Optional[float]]
    word: str = ""


@dataclass(frozen=True)
class Convergence:
    """Bounds by iteration, and where scenarios were simulated also the mean of their costs with half of its interval."""

    iterations: Sequence[float]
    bounds: Sequence[float]
    simulated: Sequence[Tuple[float, float, float]]
    final: Optional[Tuple[float, float]]


def draw_curves(title: str, units: Tuple[str, str], curves: Sequence[Curve], words: str) -> Drawing:
    """Curves over numbers; the units are those upwards and to the right."""
    drawing = Drawing(WIDTH, HEIGHT + 14, title, words)
    xs = [it for curve in curves for it in curve.xs]
    low, high = min(xs), max(xs)
    made = plot(drawing, (low, high if high > low else low + 1), span(without_peaks(it for curve in curves for it in curve.ys)))
    draw_upward(made, units[0])
    draw_numbers(made, units[1])
    _add_curves(made, curves)
    return drawing


def draw_over_dates(title: str, unit: str, curves: Sequence[Curve], dates: Tuple[float, float], words: str) -> Drawing:
    """Curves over dates (ordinals)."""
    drawing = Drawing(WIDTH, HEIGHT, title, words)
    made = plot(drawing, dates, span(without_peaks(it for curve in curves for it in curve.ys)))
    draw_upward(made, unit)
    draw_dates(made)
    _add_curves(made, curves)
    return drawing


def _add_curves(made: Plot, curves: Sequence[Curve]) -> None:
    for curve in curves:
        points = made.points(curve.xs, curve.ys)
        made.drawing.add(Line(points_text(points), curve.look, curve.word))
        if curve.word and points:
            made.drawing.add(Text(points[0][0] + 4, points[0][1] - 4, curve.word, "start", f"word {curve.look}-word"))


def draw_convergence(run: Convergence, unit: str, words: str) -> List[Drawing]:
    """The whole way of the bound, and its end, where the bound moves least, as a drawing of its own."""
    whole = _convergence(run, unit, "All iterations", words, 0)
    start = _where_it_converges(run)
    return [whole] if not start else [whole, _convergence(run, unit, f"From iteration {run.iterations[start]:.0f} on", words, start)]


def _where_it_converges(run: Convergence) -> int:
    """The place from which on the bound lies within the last twentieth of its way; 0 where that is the beginning."""
    first, last = run.bounds[0], run.bounds[-1]
    near = [place for place, it in enumerate(run.bounds) if it >= last - 0.05 * (last - first)]
    return near[0] if near and len(run.bounds) - near[0] > 2 else 0


def _convergence(run: Convergence, unit: str, title: str, words: str, start: int) -> Drawing:
    drawing = Drawing(HALF, HEIGHT + 30, title, words)
    xs, bounds = run.iterations[start:], run.bounds[start:]
    simulated = [it for it in run.simulated if it[0] >= xs[0]]
    ends = [mean + side * half for _, mean, half in simulated for side in (-1, 1)]
    final = [] if run.final is None else [run.final[0] - run.final[1], run.final[0] + run.final[1]]
    made = plot(drawing, (xs[0], xs[-1]), span([*bounds, *ends, *final], with_zero=False))
    draw_upward(made, unit)
    draw_numbers(made, "iteration")
    if final:
        _add_band(made, final, run.final[0] if run.final else 0)
    _add_simulated(made, simulated)
    steps = [point for (x, y), (further, _) in zip(zip(xs, bounds), zip([*xs[1:], xs[-1]], bounds)) for point in ((x, y), (further, y))]
    drawing.add(Line(points_text([(made.x(x), made.y(y)) for x, y in steps]), "certified-line"))
    return drawing


def _add_band(made: Plot, ends: Sequence[float], mean: float) -> None:
    """The interval of the mean of the scenarios at the end, over the whole width."""
    sides = (made.x.start, made.x.end)
    above, below = ([(x, made.y(end)) for x in sides] for end in (ends[1], ends[0]))
    made.drawing.add(Area(between(above, below), "estimate-band"), Line(points_text([(x, made.y(mean)) for x in sides]), "estimate-line"))


def _add_simulated(made: Plot, simulated: Sequence[Tuple[float, float, float]]) -> None:
    for x, mean, half in simulated:
        ends = [(made.x(x), made.y(mean - half)), (made.x(x), made.y(mean + half))]
        made.drawing.add(Line(points_text(ends), "estimate-bar"), Dot(made.x(x), made.y(mean), "estimate-dot"))


BANDS = (("p05", "p95", "band-1"), ("p10", "p90", "band-2"), ("p25", "p75", "band-3"))
FAN_KEYS = (
    Key("band-1", "9 of 10 scenarios (5 to 95 %)"), Key("band-2", "8 of 10 (10 to 90 %)"), Key("band-3", "half (25 to 75 %)"),
    Key("median", "median", "line"), Key("extreme", "least and greatest", "line"),
)
CUT_OFF = "What stands far above nine tenths of the numbers is cut off at the upper edge."
LIMIT_KEY = Key("limit", "least and greatest volume allowed (given)", "line")
WIDTH, HEIGHT = 400.0, 216.0
WIDE, TALL = 1080.0, 310.0


@dataclass(frozen=True)
class Fan:
    """Quantiles of one thing: `rows` is a mapping (or table) from `p05`, `p50`, .. to numbers in the order of the stages.

    `edges` has the first and last day of each stage, as ordinals; at the same day twice where a number is of that moment. `limits`
    are further lines with their look.
    """

    title: str
    unit: str
    edges: Sequence[Tuple[float, float]]
    rows: Any
    limits: Sequence[Tuple[str, Sequence[Optional[float]]]] = ()


def draw_fan(fan: Fan, dates: Tuple[float, float], words: str, is_wide: bool = False) -> Drawing:
    """The fan over these dates (ordinals); `words` tell it to whoever does not see it."""
    drawing = Drawing(*((WIDE, TALL) if is_wide else (WIDTH, HEIGHT)), fan.title, words)
    within = [it for which in ("p05", "p95") for it in _numbers(fan.rows[which])]
    outside = without_peaks([*within, *(it for which in ("least", "greatest") for it in _numbers(fan.rows[which]))])
    made = plot(drawing, dates, span([*without_peaks(within), *outside, *(it for _, line in fan.limits for it in line)]))
    draw_upward(made, fan.unit)
    for low, high, look in BANDS:
        above, below = (made.steps(fan.edges, _numbers(fan.rows[it])) for it in (high, low))
        drawing.add(Area(between(_once(above), _once(below)), look))
    lines = [*(("extreme", _numbers(fan.rows[it])) for it in ("least", "greatest")), *fan.limits, ("median", _numbers(fan.rows["p50"]))]
    drawing.add(*(Line(points_text(_once(made.steps(fan.edges, line))), look) for look, line in lines))
    draw_dates(made)
    return drawing


def _once(points: Sequence[Point]) -> List[Point]:
    """The points without those that repeat the one before."""
    return [it for it, before in zip(points, [None, *points]) if it != before]


def _numbers(column: Any) -> List[float]:
    return [float(it) for it in column]
