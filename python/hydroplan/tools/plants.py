"""A description of hydro plants: what it holds, and what is refused first of it, as the page on the formats has it.

Outside the proved core: it reads the file again on its own, and the program's line decides.
"""
from __future__ import annotations

import re
from dataclasses import dataclass
from typing import NoReturn, Optional, Union

from .located_json import Cursor
from .likeness import unknown_word

MOST = 1 << 20
MOST_TRAVEL = 3
MOST_STATES = 50
MOST_INFLOWS = 100
MOST_WEIGHT = 65_535
NAME = re.compile(r"[A-Za-z0-9_-]{1,16}\Z")

# a table, the part that its entries are, whether it has to be there, and the least and the greatest count
TABLES = (
    ("buses", "bus", True, 1, 20), ("reservoirs", "reservoir", False, 0, 20), ("thermals", "thermal", False, 0, 40),
    ("lines", "line", False, 0, 40),
)
STAGES = ("stages", 1, 100)

AMOUNT = "amount"
AMOUNT_OR_NONE = "amount that may be absent"
# the members of an entry in the order in which they are read: an amount, one that may be absent, or a name of a table
MEMBERS = {
    "bus": (("deficit_cost", AMOUNT),),
    "reservoir": (
        ("bus", "buses"), ("low", AMOUNT), ("high", AMOUNT), ("initial", AMOUNT), ("turbine", AMOUNT), ("spill", AMOUNT),
        ("factor", AMOUNT), ("spill_cost", AMOUNT_OR_NONE),
    ),
    "thermal": (("bus", "buses"), ("high", AMOUNT), ("cost", AMOUNT)),
    "line": (("from", "buses"), ("to", "buses"), ("high", AMOUNT)),
}


@dataclass(frozen=True)
class Place:
    """A part of a description and its two numbers."""

    part: str
    first: int = 0
    second: int = 0


WHOLE = Place("whole")

MEANINGS = {
    "NotJson": "the bytes are no JSON of at most 127 levels",
    "Shape": "a member is absent or of the wrong type",
    "NotWhole": "a number with a point, an exponent, or outside 64 bits",
    "Limit": "a number outside its range, a name that has not the form of names, or a count or a total past its limit",
    "UnknownName": "no such bus or reservoir",
    "States": "more than 50 states: one for each reservoir, and one for each stage of a travel",
}


class Fault(Exception):
    """A refusal: its kind, its place, the value that makes it, and a word on it."""

    def __init__(self, kind: str, place: Place, cursor: Cursor, reason: str) -> None:
        super().__init__(f"{kind} at {place.part} {place.first} {place.second}")
        self.kind = kind
        self.place = place
        self.cursor = cursor
        self.reason = reason


def is_description(root: Cursor) -> bool:
    """Whether a file looks like a description rather than like a problem."""
    if not root.is_object() or any(key in root.keys() for key in ("root", "nodes", "subproblems")):
        return False
    return any(key in root.keys() for key in ("buses", "reservoirs", "thermals", "lines", "stages"))


def first_fault(root: Cursor) -> Optional[Fault]:
    """What is refused first of a description, none where nothing is."""
    try:
        _tables(root)
        travels = 0
        for table, part, *_ in TABLES:
            for number, (name, entry) in enumerate(_entries(root, table)):
                travels += _entry(root, Place(part, number), name, entry)
        states = len(names_of(root, "reservoirs")) + travels
        if states > MOST_STATES:
            _refuse("States", WHOLE, root, f"reservoirs and travels are {states} together, above {MOST_STATES}")
        for number, stage in enumerate(root.member("stages").items()):
            _stage(root, number, stage)
    except Fault as fault:
        return fault
    return None


def names_of(root: Cursor, table: str) -> list[str]:
    """The names in a table in their numbers' order, none where the file has no such table."""
    found = root.find(table) if root.is_object() else None
    return found.keys() if found is not None and found.is_object() else []


def _refuse(kind: str, place: Place, cursor: Cursor, reason: str) -> NoReturn:
    raise Fault(kind, place, cursor, reason)


def _entries(root: Cursor, table: str) -> list[tuple[str, Cursor]]:
    found = root.find(table)
    return [] if found is None else list(found.members())


def _tables(root: Cursor) -> None:
    """The types of all tables, and then their counts."""
    _typed(WHOLE, root, "an object")
    for table, _, required, _, _ in TABLES:
        if required or root.find(table) is not None:
            _member(WHOLE, root, table, "an object")
    stages = _member(WHOLE, root, STAGES[0], "an array")
    for table, _, _, least, most in TABLES:
        _count(WHOLE, root.find(table) or root, len(names_of(root, table)), table, least, most)
    _count(WHOLE, stages, len(stages.items()), *STAGES)


def _count(place: Place, cursor: Cursor, count: int, what: str, least: int, most: int) -> None:
    if not least <= count <= most:
        _refuse("Limit", place, cursor, f"{count} {what}, and {least} to {most} are read")


def _typed(place: Place, cursor: Cursor, kind: str) -> None:
    if cursor.value.kind() != kind:
        _refuse("Shape", place, cursor, f"{kind} is expected, not {cursor.value.kind()}")


def _member(place: Place, owner: Cursor, key: str, kind: str) -> Cursor:
    found = owner.find(key)
    if found is None:
        _refuse("Shape", place, owner, f"the key `{key}` is missing")
    _typed(place, found, kind)
    return found


def _number(place: Place, owner: Cursor, key: str, least: int = 0, most: int = MOST) -> int:
    found = _member(place, owner, key, "a number")
    content = found.number_text()
    if not content.is_whole():
        _refuse("NotWhole", place, found, f"{content.text} is not whole, or outside 64 bits")
    number = int(content.text)
    if not least <= number <= most:
        _refuse("Limit", place, found, f"{number} is outside {least} to {most}")
    return number


def _named(place: Place, owner: Cursor, key: str, known: list[str]) -> None:
    found = _member(place, owner, key, "a string")
    if found.text() not in known:
        _refuse("UnknownName", place, found, unknown_word(found.text(), known))


def _entry(root: Cursor, place: Place, name: str, entry: Cursor) -> int:
    """A bus, a reservoir, a thermal or a line; the stages of its travel."""
    if NAME.match(name) is None:
        _refuse("Limit", place, entry, f'the name "{name[:140]}" is not 1 to 16 letters, digits, `_` or `-`')
    _typed(place, entry, "an object")
    for key, kind in MEMBERS[place.part]:
        if kind == AMOUNT or kind == AMOUNT_OR_NONE and entry.find(key) is not None:
            _number(place, entry, key)
        elif kind != AMOUNT_OR_NONE:
            _named(place, entry, key, names_of(root, kind))
    return _reservoir(root, place, entry) if place.part == "reservoir" else 0


def _reservoir(root: Cursor, place: Place, entry: Cursor) -> int:
    """Where the water of a reservoir goes, and its levels; the stages of its travel."""
    travel = 0
    if entry.find("downstream") is not None:
        _named(place, entry, "downstream", names_of(root, "reservoirs"))
        travel = _number(place, entry, "travel", 0, MOST_TRAVEL)
    low, initial, high = (int(entry.member(key).written()) for key in ("low", "initial", "high"))
    if not low <= initial <= high:
        _refuse("Limit", place, entry, f"`low` {low}, `initial` {initial} and `high` {high} do not rise")
    return travel


def _stage(root: Cursor, number: int, stage: Cursor) -> None:
    place = Place("stage", number)
    _typed(place, stage, "an object")
    demand = _member(place, stage, "demand", "an object")
    inflows = _member(place, stage, "inflows", "an array")
    _count(place, inflows, len(inflows.items()), "inflows", 1, MOST_INFLOWS)
    for bus in names_of(root, "buses"):
        _number(place, demand, bus)
    total = sum(_inflow(root, Place("stage", number, at + 1), item) for at, item in enumerate(inflows.items()))
    if total > MOST_WEIGHT:
        _refuse("Limit", place, inflows, f"the weights are {total} together, above {MOST_WEIGHT}")


def _inflow(root: Cursor, place: Place, inflow: Cursor) -> int:
    """One inflow of a stage; its weight."""
    _typed(place, inflow, "an object")
    weight = _number(place, inflow, "weight", 1)
    water = _member(place, inflow, "inflow", "an object")
    for reservoir in names_of(root, "reservoirs"):
        _number(place, water, reservoir, -MOST)
    return weight


def place_of(root: Cursor, place: Place) -> tuple[tuple[Union[str, int], ...], str]:
    """The path of a place, and the place in words: names where it is an entry of a table."""
    for table, part, *_ in TABLES:
        if place.part == part:
            names = names_of(root, table)
            name: Union[str, int] = names[place.first] if place.first < len(names) else place.first
            return (table, name), f'{part} "{name}"'
    if place.part != "stage":
        return (), "the description as a whole"
    path: tuple[Union[str, int], ...] = ("stages", place.first)
    if place.second == 0:
        return path, f"stage {place.first}, counted from 0"
    return (*path, "inflows", place.second - 1), f"inflow {place.second - 1} of stage {place.first}, both counted from 0"
