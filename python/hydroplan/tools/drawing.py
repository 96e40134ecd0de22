"""Draws series with matplotlib, as PNG and SVG. The one module that needs matplotlib; `plot` alone imports it.

Outside the proved core. Exact numbers become floats here, to be drawn, and are used for nothing else. Names from files are escaped, and
stand for themselves: a `$` begins no formula.
"""
from __future__ import annotations

from datetime import date
from pathlib import Path
from typing import Any, Optional, Sequence

import matplotlib

matplotlib.use("Agg")
matplotlib.rcParams["svg.hashsalt"] = "hydroplan"
from matplotlib.dates import AutoDateLocator, ConciseDateFormatter  # noqa: E402  (the backend is chosen before)
from matplotlib.figure import Figure  # noqa: E402
from matplotlib.ticker import FuncFormatter, MaxNLocator  # noqa: E402

from .series import SHARES, Fan, Point, PolicyCost, Series, converging  # noqa: E402
from .shown_names import shown_in_picture as shown  # noqa: E402

COLOUR = "tab:blue"
BANDS = ("#d6e6f4", "#abcfe6", "#6aaed6")


def save(figure: Figure, prefix: Path) -> list[Path]:
    """Writes PREFIX.png and PREFIX.svg."""
    paths = [prefix.with_name(prefix.name + ending) for ending in (".png", ".svg")]
    figure.savefig(paths[0], dpi=120, pil_kwargs={"compress_level": 3})
    figure.savefig(paths[1], metadata={"Date": None})
    return paths


def draw_bounds(
    series: Series, cost: Optional[PolicyCost], word: str, title: str
) -> Figure:
    """Bounds over iterations, one line for each report, and the policy's cost where it is given.

    Where they still move after nineteen parts in twenty of their way, a second panel shows that end alone.
    """
    ends = [converging(bounds) for _, bounds in series]
    panels = 2 if any(ends) else 1
    figure = Figure(figsize=(8, 1 + 4 * panels), layout="tight")
    whole, *closer = figure.subplots(panels, 1, squeeze=False)[:, 0]
    for axes in (whole, *closer):
        _draw_steps(axes, series, cost)
        axes.set_ylabel(word)
    whole.set_title(shown(title))
    whole.legend()
    for axes in closer:
        axes.set_title("where the bounds converge", fontsize="medium")
        axes.set_xlim(min(it[0][0] for it in ends if it), max(it[-1][0] for it in ends if it))
        axes.set_ylim(*_with_margin([float(bound) for it in ends for _, bound in it]))
    (closer or [whole])[-1].set_xlabel("iteration [number]")
    return figure


def _draw_steps(axes: Any, series: Series, cost: Optional[PolicyCost]) -> None:
    for name, bounds in series:
        # a name that begins with `_` would have no entry among the labels
        axes.step([number for number, _ in bounds], [float(bound) for _, bound in bounds], where="post", label=f"\u200b{shown(name)}")
    if cost is not None:
        axes.axhline(float(cost.value), color="black", linestyle="--", label=cost.label)
    axes.xaxis.set_major_locator(MaxNLocator(integer=True))
    axes.yaxis.set_major_formatter(FuncFormatter(lambda value, _: f"{value:,.10g}"))
    axes.grid(alpha=0.3)


def _with_margin(values: Sequence[float]) -> tuple[float, float]:
    """The least and the greatest value, with a margin of a twentieth of what lies between."""
    low, high = min(values), max(values)
    margin = (high - low) / 20 or abs(high) / 20 or 1
    return low - margin, high + margin


def _panels(count: int) -> tuple[Figure, Sequence[Any]]:
    """A figure of so many panels above one another, three inches each; their places are given, since looking for them takes long."""
    height = 1 + 3 * count
    figure = Figure(figsize=(8, height))
    places = {"left": 0.14, "right": 0.98, "bottom": 0.55 / height, "top": 1 - 0.45 / height, "hspace": 0.22}
    return figure, figure.subplots(count, 1, squeeze=False, gridspec_kw=places)[:, 0]


def draw_fans(fans: Sequence[Fan], word: str, title: str, logarithmic: bool = False, dates: Sequence[str] = ()) -> Figure:
    """A panel for each fan: the median as a line, half, four fifths and all of the scenarios as bands.

    `dates` has the first day of each stage from 1, where it is known.
    """
    figure, panels = _panels(max(1, len(fans)))
    for axes, it in zip(panels, fans):
        _draw_fan(axes, it, [date.fromisoformat(dates[stage - 1]) for stage in it.stages] if dates else it.stages)
        _set_places(axes, bool(dates))
        axes.set_ylabel(f"{shown(it.name)}: {word}")
        axes.grid(alpha=0.3)
        if logarithmic and any(float(row[-1]) > 0 for row in it.quantiles):
            axes.set_yscale("symlog", linthresh=1e-7)
    panels[0].set_title(shown(title))
    panels[0].legend(fontsize="small", title="shares of the scenarios", title_fontsize="small")
    panels[-1].set_xlabel("stage [by its first day]" if dates else "stage [number, from 0]")
    return figure


def _set_places(axes: Any, are_dates: bool) -> None:
    """Marks stages by dates, or by whole numbers."""
    if not are_dates:
        axes.xaxis.set_major_locator(MaxNLocator(integer=True))
        return
    places = AutoDateLocator()
    axes.xaxis.set_major_locator(places)
    axes.xaxis.set_major_formatter(ConciseDateFormatter(places))


def _draw_fan(axes: Any, it: Fan, places: Sequence[Any]) -> None:
    """A fan; `places` has where each stage stands."""
    middle = len(SHARES) // 2
    columns = [[float(row[at]) for row in it.quantiles] for at in range(len(SHARES))]
    for at in range(middle):
        label = f"{SHARES[at]} to {SHARES[-1 - at]}"
        axes.fill_between(places, columns[at], columns[-1 - at], color=BANDS[at], linewidth=0, label=label)
    axes.plot(places, columns[middle], color=COLOUR, marker="o", markersize=3, label="median")


def _labels(points: Sequence[Point]) -> dict[tuple[int, float], str]:
    """The names of the nodes at each point; none where there are too many to be read."""
    found: dict[tuple[int, float], str] = {}
    for it in points if len(points) <= 40 else ():
        place = (it.stage, float(it.value))
        found[place] = f"{found[place]}, {shown(it.node)}" if place in found else shown(it.node)
    return found


def draw_points(points: dict[str, list[Point]], word: str, by_stage: bool, title: str) -> Figure:
    """A panel for each state: its water value at each node, by stage or by the nodes' numbers."""
    figure, panels = _panels(max(1, len(points)))
    for axes, (name, own) in zip(panels, points.items()):
        axes.scatter([it.stage for it in own], [float(it.value) for it in own], color=COLOUR)
        axes.xaxis.set_major_locator(MaxNLocator(integer=True))
        for place, names in _labels(own).items():
            axes.annotate(names, place, fontsize="x-small", xytext=(4, 3), textcoords="offset points")
        axes.set_ylabel(f"{shown(name)}: {word}")
        axes.grid(alpha=0.3)
    panels[0].set_title(shown(title))
    panels[-1].set_xlabel("stage [number, from 0]" if by_stage else "node [number]")
    return figure
