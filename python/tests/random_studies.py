"""Small studies drawn at random, as the files of a folder: each feature of docs/use/PLANTS.md on or off, in every spelling of docs/use/STUDIES.md.

A draw takes a `random.Random`, or what hypothesis has in its place (`drawn_studies`), which makes a wrong study smaller. Numbers have few
decimals, so that hardly any has to be rounded, and fit the hours of a stage: what is turbined is about 10 hm3 whether a stage is ten
hours or a month.
"""
from __future__ import annotations

from dataclasses import dataclass, field
from decimal import Decimal

from toml_spelling import Tables, Text, csv_text

NAMES = (("alp", "lake", "sea"), ("Övre sjön", "lower-lake", "r3"), ("one", "two", "three"))
STARTS = {"month": ("2026-01-01", "2027-11-01", "2028-02-01"), "week": ("2026-01-01", "2026-12-21", "2028-03-05"), "own": ("2026-01-01",)}


def write_study(folder, files):
    """Writes the files of a drawn study."""
    for name, text in files.items():
        (folder / name).write_text(text, encoding="utf-8")


@dataclass
class Times:
    """The calendar of a study: `hours` is about the length of a stage, and `blocks` has the names of load blocks."""

    step: str
    stages: int
    hours: int
    calendar: dict
    blocks: dict = field(default_factory=dict)


class Spellings:
    """Numbers of stages and blocks, each in one of the spellings that a planner may choose."""

    def __init__(self, random, times):
        self.random, self.times = random, times
        self.columns, self.years, self.profiles = {}, {}, {}

    def often(self, chance=0.5):
        """Whether a feature is there."""
        return self.random.random() < chance

    def whole(self, low, high):
        """A whole number."""
        return self.random.randint(low, high)

    def spelled(self, number):
        """A number as it may stand in TOML: a third of them otherwise than as digits."""
        if self.often(0.7) or not isinstance(number, int):
            return number
        spellings = [f"{number}.0", f'"{number}"', f'"{2 * number}/2"', f"{number}e0", f'"{number}.0"']
        return Text(self.random.choice(spellings))

    def numbers(self, low, high, count):
        """Whole numbers, of few draws however many they are."""
        first, step = self.whole(low, high), self.whole(0, 7)
        return [low + (first - low + at * step) % (high - low + 1) for at in range(count)]

    def series(self, low, high, gaps=False):
        """A number for each stage."""
        forms = [self.one, self.one, self.listed, self.listed, self.column, self.months, self.profile]
        if self.times.step == "week":
            forms.append(self.weeks)
        return self.random.choice(forms)(low, high)

    def one(self, low, high):
        """The same number in all stages."""
        return self.spelled(self.whole(low, high))

    def listed(self, low, high):
        """A list."""
        return [self.spelled(self.whole(low, high)) for _ in range(self.times.stages)]

    def column(self, low, high):
        """A column of a file."""
        return self.times_more(self.as_column(self.columns, "columns.csv", low, high, self.times.stages))

    def as_column(self, columns, file, low, high, rows):
        """A further column of a file."""
        name = f"c {len(columns)}"
        columns[name] = self.numbers(low, high, rows)
        return {"file": file, "column": name}

    def months(self, low, high):
        """A profile of a year."""
        inner = self.numbers(low, high, 12) if self.often() else self.as_column(self.years, "months.csv", low, high, 12)
        return self.times_more({"months": inner})

    def weeks(self, low, high):
        """A profile of 52 weeks."""
        return self.times_more({"weeks": self.numbers(low, high, 52)})

    def profile(self, low, high):
        """A form under a name."""
        name = f"p{len(self.profiles)}"
        self.profiles[name] = self.random.choice([self.listed, self.months, self.column])(low, high)
        return self.times_more({"profile": name})

    def times_more(self, given):
        """The same, perhaps times a number."""
        return {**given, "times": self.random.choice([Decimal("1.5"), Text('"5/4"'), 1])} if self.often(0.2) else given

    def by_block(self, low, high):
        """A number for each stage, each block, or both."""
        blocks = self.times.blocks or {"all": None}
        if self.often():
            return self.series(low, high)
        if self.often():
            return {name: self.series(low, high) for name in blocks}
        return [{name: self.whole(low, high) for name in blocks} if self.often(0.8) else self.whole(low, high) for _ in range(self.times.stages)]

    def flow(self, low, high, by_block=True):
        """Water in m3/s that is about so many hm3 in a stage."""
        of_a_stage = 1 / (self.times.hours * 0.0036)
        first, last = (round(it * of_a_stage) for it in (low, max(high, low + 1)))
        return {"flow": self.by_block(first, last) if by_block else self.series(first, last)}


class StudyDraw(Spellings):
    """Draws a study."""

    def __init__(self, random):
        super().__init__(random, drawn_times(random))
        self.stations = {}
        self.per_water = max(1, self.times.hours // 10)
        self.elements = {}
        self.files = {}

    def draw(self):
        """The files by their names."""
        buses = ["north", "south"][: self.whole(1, 2)]
        names = list(self.random.choice(NAMES))[: self.whole(1, 3)]
        for bus in buses:
            self.bus(bus)
        for at, name in enumerate(names):
            self.reservoir(at, name, names, buses)
        self.energy(buses)
        self.stores(buses, names)
        return self.written()

    def add(self, kind, name, **members):
        """An element without the members that are not given."""
        self.elements.setdefault(kind, {})[name] = {key: it for key, it in members.items() if it is not None}

    def station(self, name, low, high):
        """A station, whose values are in a range."""
        self.stations[name] = (low, high)
        return name

    def random_value(self, name, low, high, most=1, by_block=True):
        """The value of a station, perhaps times a factor."""
        found = {"random": self.station(name, low, high)}
        return {**found, "factor": (self.by_block if by_block else self.series)(1, most)} if self.often() else found

    def rising(self, size, low, high, cost="cost", sign=1):
        """Two tiers whose costs do not fall, or whose values do not rise."""
        first, further = self.whole(low, high), self.whole(0, 5)
        costs = [first, first + further][::sign]
        return [{"size": self.whole(1, size), cost: self.spelled(costs[0])}, {"size": self.series(1, size), cost: costs[1]}]

    def bus(self, name):
        """A demand and what energy costs that is missing; where nothing may be missing there is a dear thermal for it."""
        demand = self.random_value(f"demand {name}", 20, 30, self.whole(1, 2)) if self.often(0.3) else self.by_block(15, 40)
        blocks = self.times.blocks or {"all": None}
        tiers = [{"size": Decimal("0.1"), "cost": self.series(30, 40)}, {"size": Text('"9/10"'), "cost": {it: self.series(90, 95) for it in blocks}}]
        deficit = self.random.choice([80, tiers, {it: self.series(70, 90) for it in blocks}, None])
        self.add("bus", name, demand=demand, deficit=deficit)
        if deficit is None:
            self.add("thermal", f"last of {name}", bus=name, maximum=300, cost=self.by_block(85, 95))
        for at in range(self.whole(0, 2)):
            self.thermal(f"t{at} {name}", name)

    def thermal(self, name, bus):
        """A thermal with or without tiers, minimum and maintenance."""
        shares = [self.random.choice([1, Decimal("0.5"), 0]) for _ in range(self.times.stages)]
        availability = shares if self.often(0.4) else {"months": [1, Text('"1/2"')] * 6} if self.often(0.2) else None
        if self.often():
            tiers = [{"size": 6, "cost": 10}, {"size": self.by_block(1, 9), "cost": self.by_block(11, 30)}]
            self.add("thermal", name, bus=bus, cost=tiers, minimum=self.random.choice([None, 0, 3]), availability=availability)
        else:
            least = self.random.choice([None, 0, self.by_block(0, 2)])
            self.add("thermal", name, bus=bus, cost=self.by_block(5, 40), maximum=self.by_block(5, 15), minimum=least, availability=availability)

    def reservoir(self, at, name, names, buses):
        """A reservoir with some of its features."""
        bus = self.random.choice([*buses, buses[0], None])
        productivity = None
        if bus is not None:
            per = self.per_water
            productivity = self.random.choice(
                [8 * per, {"flow": self.random.choice([Decimal("0.036"), Decimal("0.018")])}, self.by_block(0, 12 * per)]
            )
        members = dict(
            bus=bus, productivity=productivity, minimum=self.series(0, 4) if self.often(0.2) else None, maximum=self.series(30, 40),
            initial=self.spelled(self.whole(5, 30)), inflow=self.inflow(name), turbine=self.series(4, 12) if self.often(0.6) else self.flow(4, 12),
            spill=self.random.choice([200, [200, 199, 198][: self.times.stages], self.flow(200, 200, False)]),
            spill_penalty=self.random.choice([None, 0, self.series(0, 2)]), **self.needs(),
        )
        if at + 1 < len(names):
            members["downstream"] = self.way(names[at + 1])
            members["spilled"] = self.random.choice([None, None, False, names[-1], {"to": names[-1], "travel": 1}])
        if self.often(0.4):
            value = self.random.choice([1, self.per_water, 10 * self.per_water])
            members["end_value"] = self.random.choice([7 * value, [{"size": 8, "value": 9 * value}, {"size": 10, "value": self.series(0, 4)}]])
        self.add("reservoir", name, **members)

    def inflow(self, name):
        """What comes in: random, as volumes or flows, a number, or nothing."""
        if self.often(0.6):
            return self.random_value(name, -1 if self.often(0.2) else 0, 20, by_block=False)
        flows = round(10 / (self.times.hours * 0.0036))
        return self.random.choice([
            lambda: None, lambda: self.series(0, 15), lambda: self.flow(0, 10), lambda: {"flow": self.random_value(name, 0, 2 * flows)},
        ])()

    def way(self, to):
        """Where turbined water goes."""
        travel = self.random.choice([0, 0, 1, 2])
        under_way = {"under_way": [self.whole(0, 5) for _ in range(travel)]} if self.often() else {}
        return {"to": to, "travel": travel, **under_way} if self.often(0.8) else {"to": to} if self.often(0.3) else to

    def needs(self):
        """What may go short, most of it at a penalty."""
        found = {}
        for member, penalty, needed in (
            ("minimum_outflow", "outflow_penalty", lambda: self.series(0, 14) if self.often(0.7) else self.flow(2, 6)),
            ("evaporation", "evaporation_penalty", lambda: self.series(0, 3)),
            ("irrigation", "irrigation_penalty", lambda: self.series(0, 5) if self.often(0.7) else self.flow(1, 4)),
            ("alert", "alert_penalty", lambda: self.series(1, 15)), ("target", "target_penalty", self.target),
        ):
            if self.often(0.3):
                found[member] = needed()
                if self.often(0.98):
                    found[penalty] = self.penalty()
        return found

    def target(self):
        """Volumes to be reached in some stages alone."""
        stage = self.whole(1, self.times.stages)
        if self.often(0.3):
            self.columns[f"c {len(self.columns)}"] = [self.whole(5, 25) if at == stage else "" for at in range(1, self.times.stages + 1)]
            return {"file": "columns.csv", "column": f"c {len(self.columns) - 1}"}
        return {"at": {str(stage): self.spelled(self.whole(5, 25))}} if self.often(0.7) else self.series(0, 9)

    def penalty(self):
        """Money per hm3, alone or in tiers that cover all."""
        size = self.random.choice([1, self.per_water, 9 * self.per_water])
        tiers = [{"size": 2, "cost": self.whole(1, 9) * size}, {"size": self.series(50, 60), "cost": 9 * size}]
        return self.random.choice([self.series(0, 20), 15 * size, tiers])

    def energy(self, buses):
        """A line, wind and contracts."""
        shares = [None, 1, Decimal("0.9"), [Decimal("0.95"), 1, Decimal("0.5")][: self.times.stages], 0]
        if len(buses) == 2:
            back = self.by_block(0, 9) if self.often() else None
            self.add("line", "tie", source="north", target="south", maximum=self.by_block(0, 20), reverse=back, arriving=self.random.choice(shares))
        bus = self.random.choice(buses)
        if self.often(0.4):
            wind = self.random_value("wind", 0, 10, 2) if self.often(0.7) else self.by_block(0, 10)
            self.add("renewable", "ridge", bus=bus, available=wind)
        imports = self.often(0.3)
        if imports:
            self.add("import", "market", bus=bus, maximum=self.by_block(2, 9), cost=self.by_block(10, 50), minimum=self.random.choice([None, 0, 1]))
        if self.often(0.3):
            least = self.listed(0, 1) if imports and self.often() else None
            self.add("export", "neighbour", bus=bus, maximum=self.by_block(1, 9), price=self.by_block(5, 20), minimum=least)

    def stores(self, buses, names):
        """A battery and a pump."""
        bus = self.random.choice(buses)
        if self.often(0.4):
            per = self.per_water
            self.add(
                "battery", "cells", bus=bus, capacity=self.series(20 * per, 30 * per), charge=self.by_block(2, 4), discharge=self.by_block(4, 10),
                initial=self.random.choice([None, 3]), charging=self.random.choice([None, 1, Decimal("0.9")]),
                discharging=self.random.choice([None, Decimal("0.8"), [Decimal("0.5"), 1, 1][: self.times.stages]]),
            )
        if self.often(0.4) and len(names) > 1:
            self.add(
                "pump", "lift", bus=bus, source=names[-1], target=names[0], maximum=self.series(1, 4) if self.often() else self.flow(1, 4),
                energy=self.by_block(1, 9 * self.per_water), efficiency=self.random.choice([None, 1, Decimal("0.75")]),
            )

    # files

    def written(self):
        """All files; tables in any order."""
        tables = Tables(self.random)
        tables.add(("calendar",), self.times.calendar)
        tables.add(("blocks",), self.times.blocks)
        tables.add(("stop",), {"iterations": 20})
        tables.add(("simulation",), {"scenarios": 3, "prices": 0})
        if self.often(0.5):
            rest = {"stages_per_year": self.random.choice([1, 2])} if self.times.step == "own" or self.often(0.3) else {}
            tables.add(("discount",), {"yearly_rate": Decimal("0.1"), "resolution": Decimal("0.01"), **rest})
        self.inflow_table(tables)
        self.element_tables(tables)
        tables.add(("profiles",), self.profiles)
        for name, columns in (("columns.csv", self.columns), ("months.csv", self.years)):
            if columns:
                self.files[name] = csv_text(list(columns), list(zip(*columns.values())))
        return {"study.toml": tables.text(), **self.files}

    def element_tables(self, tables):
        """Elements as tables of study.toml, or as rows of a CSV file for their kind."""
        files = {}
        for kind, elements in self.elements.items():
            in_file = {name: it for name, it in elements.items() if self.often(0.6)} if self.often(0.3) else {}
            if in_file:
                files[kind] = f"{kind}s.csv"
                self.files[files[kind]] = element_rows(in_file)
            for name, members in elements.items():
                if name not in in_file:
                    tables.add((kind, name), members)
        tables.add(("tables",), files)

    def values(self):
        """A value for each station."""
        return {name: self.whole(low, high) for name, (low, high) in self.stations.items()}

    def inflow_table(self, tables):
        """Listed outcomes or a record, where an element asks for one."""
        if not self.stations:
            return
        if self.often(0.3):
            tables.add(("inflow",), self.record())
        elif self.often():
            tables.add(("inflow",), {"method": "listed", "outcomes": [{**self.weight(), **self.values()} for _ in range(self.whole(1, 3))]})
        else:
            stages = [stage for stage in range(1, self.times.stages + 1) for _ in range(self.whole(1, 3))]
            rows = [(stage, self.weight().get("weight", 1), *self.values().values()) for stage in stages]
            self.files["outcomes.csv"] = csv_text(["stage", "weight", *self.stations], rows)
            tables.add(("inflow",), {"method": "listed", "file": "outcomes.csv"})

    def weight(self):
        """The weight of an outcome, which may be left out."""
        return {"weight": self.random.choice([1, 2, 3, Decimal("0.5")])} if self.often(0.8) else {}

    def record(self):
        """A record of a few years, or two with a part of the stations each."""
        kinds = {"month": ["month", "step"], "week": ["week", "step"], "own": ["step", "month"]}[self.times.step]
        kind, names = self.random.choice(kinds), list(self.stations)
        steps = {"month": 12, "week": 52, "step": self.whole(2, 4)}[kind]
        more = {"start": self.whole(1, steps)} if self.often(0.3) else {}
        if len(names) > 1 and self.often():
            parts = ((f"record {at}.csv", part) for at, part in enumerate((names[:1], names[1:])))
            records = [{"file": file, **self.unit(file, kind, steps, part)} for file, part in parts]
            return {"records": records, "resolution": Decimal("0.0001"), **more}
        return {"method": "years", "record": "record.csv", "resolution": Decimal("0.0001"), **self.unit("record.csv", kind, steps, names), **more}

    def unit(self, file, kind, steps, names):
        """Writes a record; in which unit it is."""
        flows = self.often(0.3) and not any(name.startswith("demand") or name == "wind" for name in names)
        years = [[self.numbers(*self.stations[name], steps) for name in names] for _ in range(self.whole(2, 3))]
        if flows:
            days = {"month": 30, "week": 7, "step": 5}[kind]
            years = [[[max(0, round(it / days / 0.0864)) for it in own] for own in year] for year in years]
        rows = [(2001 + at, step + 1, *(own[step] for own in year)) for at, year in enumerate(years) for step in range(steps)]
        self.files[file] = csv_text(["year", kind, *names], rows)
        given = {"days": [5] * steps} if flows and kind == "step" else {}
        return {"unit": "m3/s", **given} if flows else {"unit": self.random.choice(["hm3", "as it is"])} if self.often() else {}


def drawn_times(random):
    """The calendar and the load blocks."""
    step, stages = random.choice(["own", "own", "month", "week"]), random.choice([2, 2, 3])
    table = {"start": Text(random.choice(STARTS[step])), "stages": stages}
    if step == "own":
        table["hours"] = random.choice([10, [10] * stages, [10, 8, 9][:stages]])
    elif step == "week" or random.random() < 0.5:
        table["step"] = step
    found = Times(step, stages, {"own": 10, "month": 720, "week": 168}[step], table)
    blocks = [
        {}, {"peak": Decimal("0.25"), "base": "rest"}, {"base": "rest", "peak": {"hours": [2, 3, 4][:stages]}},
        {"peak": {"hours": 4}, "base": "rest"},
    ]
    found.blocks = random.choice([*blocks, {"night": Decimal("0.5"), "1st": "rest", "x": Decimal("0.25")}])
    return found


def element_rows(elements):
    """A CSV file of elements: a column for each point that one of them has."""
    rows = {name: dict(flattened(members)) for name, members in elements.items()}
    columns = list(dict.fromkeys(column for row in rows.values() for column in row))
    return csv_text(["name", *columns], [(name, *(row.get(it, "") for it in columns)) for name, row in rows.items()])


def flattened(members, before=""):
    """The cells of members: points lead into tables and lists."""
    pairs = members.items() if isinstance(members, dict) else ((str(at), it) for at, it in enumerate(members, 1))
    for key, value in pairs:
        if isinstance(value, (dict, list)):
            yield from flattened(value, f"{before}{key}.")
        else:
            yield f"{before}{key}", "false" if value is False else value.strip('"') if isinstance(value, Text) else value
