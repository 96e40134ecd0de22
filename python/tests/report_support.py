"""What the tests of reports share: a small folder of results whose numbers were chosen by hand, and a reader of the page.

Two lakes, `upper` and `lower`, over four half-years from March 2026 on, in four scenarios. What a page has to show of it is worked out in
the tests, from the tables below.
"""
from __future__ import annotations

import csv
import json
from html.parser import HTMLParser
from pathlib import Path
from typing import Dict, Iterator, List, Optional, Tuple

import model_support
from model_support import TOP, needs, needs_numpy, needs_pandas

from hydroplan.tools.shown_names import shown_name

needs_jinja2 = needs("jinja2")
DATES = ("2026-03-01", "2026-09-01", "2027-03-01", "2027-09-01")
NAMES = ("summer 2026", "winter 2026", "summer 2027", "winter 2027")
HOURS = ({"peak": 1000, "base": 3416}, {"peak": 1000, "base": 3344}, {"peak": 1000, "base": 3416}, {"peak": 1000, "base": 3368})
SCENARIOS = (1, 2, 3, 4)

# by scenario, for each stage; volumes and inflows in hm3, costs in EUR
UPPER_INFLOW = ((10, 20, 30, 40), (40, 30, 20, 10), (20, 20, 20, 20), (50, 50, 10, 10))
UPPER_VOLUME = ((50, 5, 30, 0), (60, 40, 5, 20), (70, 3, 30, 30), (90, 80, 70, 60))
COSTS = ((400, 300, 200, 100), (100, 200, 300, 400), (250, 250, 250, 250), (50, 50, 500, 600))
UPPER_GENERATION = ((0, 0, 300, 300), (300,) * 4, (300,) * 4, (300,) * 4)
COAL_GENERATION = ((600, 600, 200, 200), (200,) * 4, (200,) * 4, (200,) * 4)
WATER_VALUES = {
    ("upper", 1): {0: 90, 10: 80, 50: 40, 90: 20, 100: 10}, ("upper", 3): {0: 91, 10: 81, 50: 41, 90: 21, 100: 11},
    ("lower", 1): {10: 7, 20: 3}, ("lower", 3): {10: 6, 20: 2},
}
PRICES = {("north", "peak"): (50, 60, 70, 80), ("north", "base"): (20,) * 4, ("south", "peak"): (40,) * 4, ("south", "base"): (10,) * 4}
QUANTILES = ("mean", "least", "p05", "p10", "p25", "p50", "p75", "p90", "p95", "greatest")
# of upper by stage: the numbers of each of these columns, which a reader of the file takes as they are
UPPER_QUANTILES = (
    (67.5, 50, 52, 53, 57, 65, 75, 84, 87, 90), (32, 3, 3, 4, 4, 22, 50, 68, 74, 80),
    (34, 5, 9, 12, 24, 30, 40, 58, 64, 70), (27, 0, 3, 6, 15, 25, 37, 51, 55, 60),
)


class ReportFolder(model_support.Folder):
    """A folder with the small results, which a test may change before the page is made."""

    def setUp(self):
        super().setUp()
        self.results = self.folder / "results"
        write_small_results(self.results)

    def page(self):
        """The page of the folder, made and read."""
        from hydroplan.report import write

        return read_page(write(self.results))

    def change_summary(self, **members):
        """Puts other members into summary.json."""
        path = self.results / "summary.json"
        path.write_text(json.dumps({**json.loads(path.read_text(encoding="utf-8")), **members}), encoding="utf-8")

    def rows(self, name, change):
        """Writes a table anew with what a function makes of each of its rows, a mapping by column."""
        with (self.results / name).open(encoding="utf-8", newline="") as file:
            rows = [change(dict(it)) for it in csv.DictReader(file)]
        write_rows(self.results / name, list(rows[0]), [list(it.values()) for it in rows])


def small_page(folder: Path) -> "Page":
    """The page of the small results, written into a folder that is not there yet."""
    from hydroplan.report import write

    write_small_results(folder)
    return read_page(write(folder))


def write_rows(path, head, rows):
    """A CSV file with these rows."""
    with path.open("w", encoding="utf-8", newline="") as file:
        csv.writer(file).writerows([head, *rows])


def write_small_results(folder: Path) -> None:
    """All files of a folder of results but the page."""
    folder.mkdir()
    (folder / "summary.json").write_text(json.dumps(_summary()), encoding="utf-8")
    (folder / "ledger.txt").write_text("inflow of upper: rounded by at most 0.05 hm3\nall prices: exact\n", encoding="utf-8")
    bounds = [[1, 500, "", "", "", 0.1], [2, 900, 1100, 90, 200, 0.2], [3, 990, "", "", "", 0.3], [4, 1000.25, 1050, 60, 49.75, 0.4]]
    write_rows(folder / "bounds.csv", ["iteration", "bound", "mean", "half_width", "gap", "seconds"], bounds)
    costs = [[it, stage + 1, DATES[stage], COSTS[it - 1][stage]] for it in SCENARIOS for stage in range(4)]
    write_rows(folder / "costs.csv", ["scenario", "stage", "date", "cost"], costs)
    decisions = [row for it in SCENARIOS for stage in range(4) for row in _decisions(it, stage)]
    write_rows(folder / "decisions.csv", ["scenario", "stage", "date", "block", "element", "quantity", "value"], decisions)
    lines = {"upper": UPPER_QUANTILES, "lower": ((12,) * len(QUANTILES),) * 4}
    stored = [[stage + 1, DATES[stage], name, "hm3", *lines[name][stage]] for stage in range(4) for name in lines]
    write_rows(folder / "storage_quantiles.csv", ["stage", "date", "reservoir", "unit", *QUANTILES], stored)
    _write_rest(folder)


def _write_rest(folder: Path) -> None:
    prices = [
        [stage + 1, DATES[stage], block, bus, "EUR/MWh", means[stage], 0, 1, 2, 3, 30, 40, 45, 100 if block == "peak" else 50, 200]
        for (bus, block), means in PRICES.items() for stage in range(4)
    ]
    write_rows(folder / "price_quantiles.csv", ["stage", "date", "block", "bus", "unit", *QUANTILES], prices)
    values = [[stage, f"node {stage}", name, volume, value] for (name, stage), line in WATER_VALUES.items() for volume, value in line.items()]
    write_rows(folder / "water_values.csv", ["stage", "node", "reservoir", "volume", "value"], values)
    deficits = [[stage + 1, DATES[stage], block, bus, 0, 0, 0, 0] for stage in range(4) for bus, block in PRICES]
    deficits[2][4:] = [0.25, 10, 34, 40]
    write_rows(folder / "deficits.csv", ["stage", "date", "block", "bus", "share_of_scenarios", "mean", "p95", "greatest"], deficits)
    residuals = [[1, 4, 0, 0], [2, 4, 0.5, 1], [3, 4, 0, 0], [4, 4, 0, 0]]
    write_rows(folder / "residuals.csv", ["stage", "scenarios", "greatest", "missed"], residuals)


def _decisions(scenario: int, stage: int) -> Iterator[List[object]]:
    def row(element: str, quantity: str, value: float, block: str = "") -> List[object]:
        return [scenario, stage + 1, DATES[stage], block, element, quantity, value]

    yield row("upper", "volume", UPPER_VOLUME[scenario - 1][stage])
    yield row("lower", "volume", 12)
    yield row("upper", "inflow", UPPER_INFLOW[scenario - 1][stage])
    yield row("lower", "inflow", 1)
    for block, part in (("peak", 1 / 3), ("base", 2 / 3)):
        yield row("upper", "generation", UPPER_GENERATION[scenario - 1][stage] * part, block)
    for block in ("peak", "base"):
        yield row("coal", "generation", COAL_GENERATION[scenario - 1][stage] / 2, block)
    yield row("ridge", "taken", 80, "base")
    yield row("cable", "exported", 20 if (scenario, stage) == (2, 2) else 0, "base")
    yield row("south", "deficit", 40 if (scenario, stage) == (1, 0) else 0, "peak")
    yield row("upper", "missing_outflow", 2 if (scenario, stage) == (3, 1) else 0)


def _summary() -> dict:
    return {
        "title": "Two lakes", "made_by": "hydroplan 9.9",
        "units": {"money": "EUR", "money_scale": 1, "energy": "MWh", "volume": "hm3", "power": "MW"},
        "calendar": [{"stage": it + 1, "date": DATES[it], "name": NAMES[it], "hours": HOURS[it]} for it in range(4)],
        "elements": [
            {"name": "upper", "kind": "reservoir", "bus": "north", "minimum": [0] * 4, "maximum": [100] * 4},
            {"name": "lower", "kind": "reservoir", "bus": "south", "minimum": [10] * 4, "maximum": [20] * 4},
            {"name": "coal", "kind": "thermal", "bus": "north", "minimum": [0] * 4, "maximum": [50, 40, 50, 45.5]},
            {"name": "ridge", "kind": "renewable", "bus": "south"}, {"name": "cable", "kind": "export", "bus": "south"},
        ],
        "buses": ["north", "south"], "inflow": {"method": "4 groups of years", "stations": ["upper"], "note": "by hand"},
        "training": {"iterations": 4, "seconds": 0.4, "unanswered": 0, "stopped": "enough", "seed": 7},
        "certified": {"bound": 1000.2567, "bound_text": "no policy of the compiled problem costs less"},
        "estimated": {"mean": 1050, "half_width": 60, "confidence": 0.95, "gap": 49.7433, "gap_share": 0.0497, "scenarios": 4, "seed": 11},
        "upper": {"cost": 1100.0012, "text": "the trained policy costs at most"},
        "demand": [
            {"stage": it + 1, "block": block, "bus": bus, "power": power}
            for it in range(4) for block, bus, power in (("peak", "north", 0.3), ("base", "south", 0.05))
        ],
        "prices": {"scenarios": 3, "unsolved": 2}, "simulation_unanswered": 1, "ledger_lines": 2, "data_digest": "abc", "options_digest": "def",
    }


class Node:
    """An element of the page: its name, attributes, and children, which are elements and texts."""

    def __init__(self, name: str, attributes: Dict[str, Optional[str]]) -> None:
        self.name, self.attributes, self.children = name, attributes, []

    @property
    def looks(self) -> List[str]:
        """The classes of the element."""
        return (self.attributes.get("class") or "").split()

    @property
    def text(self) -> str:
        """All text within, without what stands in `style` elements, each run of white space as one space."""
        return " ".join("".join(self._texts()).split())

    def _texts(self) -> Iterator[str]:
        for it in self.children if self.name != "style" else ():
            if isinstance(it, str):
                yield it
            else:
                yield from it._texts()

    def all(self, name: str = "", look: str = "") -> List["Node"]:
        """The elements within of this name and class, in their order."""
        found = []
        for it in (it for it in self.children if isinstance(it, Node)):
            if (not name or it.name == name) and (not look or look in it.looks):
                found.append(it)
            found += it.all(name, look)
        return found


class _PageReader(HTMLParser):
    VOID = {"meta", "br", "hr", "img", "input", "link", "line", "rect", "circle"}

    def __init__(self) -> None:
        super().__init__(convert_charrefs=True)
        self.open = [Node("page", {})]

    def handle_starttag(self, tag, attrs):
        self.handle_startendtag(tag, attrs)
        if tag not in ("meta", "link", "br"):
            self.open.append(self.open[-1].children[-1])

    def handle_startendtag(self, tag, attrs):
        if len(dict(attrs)) != len(attrs):
            raise AssertionError(f"{tag} has an attribute twice")
        self.open[-1].children.append(Node(tag, dict(attrs)))

    def handle_endtag(self, tag):
        if self.open[-1].name != tag:
            raise AssertionError(f"{tag} ends where {self.open[-1].name} is open")
        self.open.pop()

    def handle_data(self, data):
        self.open[-1].children.append(data)


class Page:
    """A page as its reader sees it."""

    def __init__(self, text: str) -> None:
        self.source = text
        reader = _PageReader()
        reader.feed(text)
        reader.close()
        if len(reader.open) != 1:
            raise AssertionError(f"{reader.open[-1].name} never ends")
        self.top = reader.open[0]

    def table(self, caption: str) -> Dict[str, List[str]]:
        """The cells of a table by the head of their row; the caption is without its mark."""
        return {row[0]: row[1:] for row in self.rows(caption)}

    def rows(self, caption: str) -> List[List[str]]:
        """The rows of a table, with their heads."""
        found = [it for it in self.top.all("table") if _without_mark(it.all("caption")[0]) == caption]
        if len(found) != 1:
            raise AssertionError(f"{len(found)} tables are called {caption}")
        body = found[0].all("tbody")[0]
        return [[_without_mark(cell) for cell in row.all() if cell.name in ("th", "td")] for row in body.all("tr")]

    def figure(self, caption: str) -> Node:
        """A figure by its caption, without its mark."""
        found = [it for it in self.top.all("figure") if _without_mark(it.all("figcaption")[0]) == caption]
        if len(found) != 1:
            raise AssertionError(f"{len(found)} figures are called {caption}")
        return found[0]

    def drawing(self, caption: str, title: str = "") -> Node:
        """The drawing of a figure that has this title, or the only one."""
        found = [it for it in self.figure(caption).all("div", "drawing") if [head.text for head in it.all("h4")] == ([title] if title else [])]
        if len(found) != 1:
            raise AssertionError(f"{len(found)} drawings of {caption} are called {title}")
        return found[0]

    def has(self, name: str) -> bool:
        """Whether the name stands in the text as names are shown."""
        return shown_name(name) in self.top.text


def _without_mark(node: Node) -> str:
    words = node.text
    for mark in node.all("span", "mark"):
        words = words.replace(mark.text, "").strip()
    return words


def heights(drawing: Node, look: str, place: int = 0) -> List[float]:
    """The numbers upwards of a line's or an area's points, read off the ticks of the drawing."""
    ticks = [it for it in drawing.all("text", "tick") if it.attributes["text-anchor"] == "end" and float(it.attributes["x"]) < 58]
    pairs = [(float(it.attributes["y"]) - 4, float(it.text.replace(",", ""))) for it in ticks]
    return [_between(pairs, y) for _, y in points(drawing.all(look=look)[place])]


def points(shape: Node) -> List[Tuple[float, float]]:
    """The points of a line or an area."""
    pairs = [it.split(",") for it in shape.attributes["points"].split()]
    return [(float(x), float(y)) for x, y in pairs]


def _between(pairs: List[Tuple[float, float]], place: float) -> float:
    """The number at a place, along the line through the first and the last pair of a place and a number."""
    (first, low), (last, high) = pairs[0], pairs[-1]
    return low + (place - first) * (high - low) / (last - first)


def read_page(path: Path) -> Page:
    """A page that was written."""
    return Page(path.read_text(encoding="utf-8"))


__all__ = ["TOP", "Node", "Page", "ReportFolder", "heights", "needs_jinja2", "needs_numpy", "needs_pandas", "points", "read_page", "small_page"]
