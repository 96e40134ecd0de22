"""A second reading of a folder with study.toml and CSV files, by docs/use/STUDIES.md and docs/use/PLANTS.md alone: a case for the extensive form.

Nothing here goes through `hydroplan.study` or the tables of `hydroplan.plants`: files are read by `tomllib` and `csv`, defaults stand here
again, and each number becomes a list with an entry for each stage. Classes of `hydroplan.plants` hold what was read, as `extensive_plants`
expects it, and read nothing.
"""
from __future__ import annotations

import calendar
import csv
import datetime
from fractions import Fraction
from importlib.util import find_spec
from types import SimpleNamespace

import model_support  # noqa: F401
from random_plants import Case
from hydroplan.plants import As, Flow, Random, Tiers, Way

KINDS = ("bus", "reservoir", "thermal", "line", "renewable", "import", "export", "pump", "battery")
TEXTS = ("name", "bus", "source", "target", "to", "random", "file", "column", "profile", "downstream", "spilled")
NEEDS = ("minimum_outflow", "evaporation", "irrigation", "target", "alert")
PENALTIES = ("outflow_penalty", "evaporation_penalty", "irrigation_penalty", "target_penalty", "alert_penalty")
DEFAULTS = {
    "bus": {"demand": 0, "deficit": None},
    "thermal": {"maximum": None, "minimum": 0, "availability": 1},
    "line": {"reverse": 0, "arriving": 1},
    "renewable": {},
    "import": {"minimum": 0},
    "export": {"minimum": 0},
    "pump": {"efficiency": 1},
    "battery": {"initial": 0, "charging": 1, "discharging": 1},
    "reservoir": {
        "minimum": 0, "inflow": None, "bus": None, "turbine": 0, "productivity": 0, "spill_penalty": 0, "downstream": None,
        "spilled": As.TURBINED, "end_value": None, **{it: None for it in (*NEEDS, *PENALTIES)},
    },
}


def read_case(folder):
    """The case that a folder says."""
    return StudyReading(folder).case()


def fraction(given):
    """A number of the file."""
    return Fraction(given)


class StudyReading:
    """A folder as it is read the second time. `TOML` says whether TOML can be read: since Python 3.11."""

    TOML = find_spec("tomllib") is not None
    DEFAULTS = DEFAULTS

    def __init__(self, folder):
        import tomllib

        self.folder = folder
        self.document = tomllib.loads((folder / "study.toml").read_text(encoding="utf-8"), parse_float=Fraction)
        self.dates, self.hours = self.times(self.document["calendar"])
        self.stages = len(self.dates)
        self.blocks = self.hours_of_blocks(self.document.get("blocks", {}))

    def case(self):
        """The system with its outcomes."""
        discount = self.document.get("discount", {})
        in_a_year = {"month": 12, "week": 52, None: 1}[self.step]
        elements = [self.element(kind, name, members) for kind in KINDS for name, members in self.of_kind(kind)]
        return Case(
            self.stages, self.blocks, elements, self.outcomes(), fraction(discount.get("yearly_rate", 0)),
            discount.get("stages_per_year", in_a_year), fraction(discount.get("resolution", "0.000001")),
        )

    def times(self, table):
        """The first day and the hours of each stage; `step` is none where hours are given."""
        start, stages = table["start"], table["stages"]
        self.step = None if "hours" in table else table.get("step", "month")
        if self.step == "week":
            return [start + datetime.timedelta(days=7 * at) for at in range(stages)], [Fraction(168)] * stages
        if self.step == "month":
            months = [(start.year + (start.month - 1 + at) // 12, (start.month - 1 + at) % 12 + 1) for at in range(stages)]
            return [datetime.date(*it, 1) for it in months], [Fraction(24 * calendar.monthrange(*it)[1]) for it in months]
        hours = table["hours"] if isinstance(table["hours"], list) else [table["hours"]] * stages
        begins = [start + datetime.timedelta(days=float(sum(hours[:at])) // 24) for at in range(stages)]
        return begins, [fraction(it) for it in hours]

    def hours_of_blocks(self, table):
        """The hours of each block by stage."""
        found = {}
        for name, given in table.items():
            if isinstance(given, dict):
                hours = given["hours"] if isinstance(given["hours"], list) else [given["hours"]] * self.stages
                found[name] = [fraction(it) for it in hours]
            elif given != "rest":
                found[name] = [fraction(given) * it for it in self.hours]
        rest = [whole - sum(own[at] for own in found.values()) for at, whole in enumerate(self.hours)]
        return {name: found.get(name, rest) for name in table} or {"all": self.hours}

    def rows(self, name):
        """The rows of a CSV file, as mappings."""
        with (self.folder / name).open(newline="", encoding="utf-8-sig") as file:
            rows = [[cell.strip() for cell in row] for row in csv.reader(file) if row]
        return [dict(zip(rows[0], row)) for row in rows[1:]]

    # numbers

    def number(self, given):
        """A number, or one for each block."""
        return {name: fraction(it) for name, it in given.items()} if isinstance(given, dict) else fraction(given)

    def series(self, given):
        """An entry for each stage: a number, one for each block, or none."""
        if isinstance(given, list):
            return [self.number(it) for it in given]
        if not isinstance(given, dict):
            return [fraction(given)] * self.stages
        if set(given) & {"file", "months", "weeks", "profile", "at"}:
            times = fraction(given.get("times", 1))
            return [None if it is None else it * times for it in self.form(given)]
        by_block = {name: self.series(it) for name, it in given.items()}
        return [{name: it[at] for name, it in by_block.items()} for at in range(self.stages)]

    def form(self, given):
        """A column, a profile of a year or of another name, or numbers of some stages."""
        if "file" in given:
            return self.column(given)
        if "months" in given:
            profile = self.yearly(given["months"])
            return [profile[it.month - 1] for it in self.dates]
        if "weeks" in given:
            profile = self.yearly(given["weeks"])
            return [profile[min(51, (it - datetime.date(it.year, 1, 1)).days // 7)] for it in self.dates]
        if "profile" in given:
            return self.series(self.document["profiles"][given["profile"]])
        return [fraction(given["at"][str(it)]) if str(it) in given["at"] else None for it in range(1, self.stages + 1)]

    def column(self, given):
        """The numbers of a column, none where a cell is empty."""
        cells = [row[given["column"]] for row in self.rows(given["file"])]
        return [fraction(it) if it else None for it in cells]

    def yearly(self, given):
        """The numbers of a year."""
        return self.column(given) if isinstance(given, dict) else [fraction(it) for it in given]

    def value(self, given):
        """What a member is given."""
        if isinstance(given, dict) and "flow" in given:
            return Flow(self.value(given["flow"]))
        if isinstance(given, dict) and "random" in given:
            return Random(given["random"], self.series(given.get("factor", 1)))
        if isinstance(given, list) and isinstance(given[0], dict) and "size" in given[0]:
            return Tiers(*((self.series(it["size"]), self.series(it["cost"] if "cost" in it else it["value"])) for it in given))
        return self.series(given)

    # elements

    def of_kind(self, kind):
        """The names and members of the elements of a kind, those of its table too."""
        yield from self.document.get(kind, {}).items()
        if kind in self.document.get("tables", {}):
            for row in self.rows(self.document["tables"][kind]):
                members = nested({key: False if (key, cell) == ("spilled", "false") else cell for key, cell in row.items() if cell})
                yield members.pop("name"), members

    def element(self, kind, name, members):
        """An element, with what is not given as its page says."""
        given = {key: self.member(kind, key, it) for key, it in members.items()}
        return SimpleNamespace(KIND=kind, name=name, **{**DEFAULTS[kind], **given})

    def member(self, kind, key, given):
        """A member: a name, a way, a number or several."""
        if key in ("downstream", "spilled"):
            return self.way(given)
        if key in ("bus", "source") or (key == "target" and kind != "reservoir"):
            return given
        return fraction(given) if key == "initial" else self.value(given)

    def way(self, given):
        """Where water goes."""
        if isinstance(given, dict):
            return Way(given["to"], int(given.get("travel", 0)), tuple(map(fraction, given.get("under_way", ()))))
        return Way(given) if given else None

    # outcomes

    def outcomes(self):
        """The outcomes of each stage: weights, and the values of stations."""
        table = self.document.get("inflow", {})
        if table.get("method") != "listed":
            return self.years(table) if table else [[] for _ in range(self.stages)]
        if "file" not in table:
            return [[weighted(it) for it in table["outcomes"]]] * self.stages
        rows = self.rows(table["file"])
        return [[weighted(it, "stage") for it in rows if int(it["stage"]) == stage] for stage in range(1, self.stages + 1)]

    def years(self, table):
        """Each year of the record with the same probability, from the step of the first stage on."""
        records = [self.record(it["file"], it) for it in table.get("records", ())] or [self.record(table["record"], table)]
        kind, steps = records[0][0], max(step for _, step in records[0][1])
        start = table.get("start", 1 if kind == "step" or self.step is None else self.step_of_the_first_stage(kind))
        years = sorted(set.intersection(*({year for year, _ in rows} for _, rows in records)))
        found = []
        for stage in range(self.stages):
            step = (start - 1 + stage) % steps + 1
            found.append([(1, {name: it for _, rows in records for name, it in rows[year, step].items()}) for year in years])
        return found

    def step_of_the_first_stage(self, kind):
        """The month or the week of the year."""
        first = self.dates[0]
        return first.month if kind == "month" else min(52, (first - datetime.date(first.year, 1, 1)).days // 7 + 1)

    def record(self, name, table):
        """A record: its kind of steps, and values in hm3 by year and step."""
        rows, found = self.rows(name), {}
        kind = next(it for it in ("month", "week", "step") if it in rows[0])
        for row in rows:
            year, step = int(row["year"]), int(row[kind])
            own = calendar.monthrange(year, step)[1] if kind == "month" else 7
            days = fraction(table["days"][step - 1]) if "days" in table else own
            factor = days * Fraction(864, 10000) if table.get("unit", "hm3") == "m3/s" else 1
            found[year, step] = {it: fraction(row[it]) * factor for it in row if it not in ("year", kind)}
        return kind, found


def weighted(row, *others):
    """The weight of an outcome, and the values of its stations."""
    return fraction(row.get("weight", 1)), {name: fraction(it) for name, it in row.items() if name not in ("weight", *others)}


def nested(cells):
    """The members of a row: points lead into tables and lists."""
    found = {}
    for column, cell in cells.items():
        inner, (*way, last) = found, column.split(".")
        for key in way:
            inner = inner.setdefault(key, {})
        inner[last] = cell
    return {key: listed(it) for key, it in found.items()}


def listed(value):
    """The same with lists where keys are 1, 2 and so on; stages that `at` names are none of these."""
    if not isinstance(value, dict):
        return value
    if set(value) == {str(at) for at in range(1, len(value) + 1)}:
        return [listed(value[str(at)]) for at in range(1, len(value) + 1)]
    return {key: it if key == "at" else listed(it) for key, it in value.items()}
