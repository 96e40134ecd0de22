"""The elements of a study: tables of study.toml by kind and name, and rows of CSV files."""
from __future__ import annotations

import re
from contextlib import suppress
from dataclasses import fields
from decimal import Decimal
from typing import Any, Dict, Iterator, List, Mapping, Tuple, Type, cast

from ..code_places import CodePlace, standing_at
from ..errors import ModelError
from ..exact import is_number
from ..plants import Battery, Bus, Export, Import, Line, Pump, Renewable, Reservoir, System, Thermal, Way
from ..plants.elements import Element
from ..tools.shown_names import shown_name
from .numbers import CsvFile, CsvFiles, NumberReader, refuse_formula
from .document import Document, StudyError, Table, shown

ELEMENTS: Tuple[Type[Element], ...] = (Bus, Reservoir, Thermal, Line, Renewable, Import, Export, Pump, Battery)
KINDS: Dict[str, Type[Element]] = {it.KIND: it for it in ELEMENTS}
WAYS = ("downstream", "spilled")
# of a CSV file; a reservoir of that name is named by `spilled.to`
GONE = ("spilled", "false")
MEMBER = re.compile(r'^(?:tier \d+ of |the size of |block "[^"]*" of |stage \d+ of )*"(\w+)" of ')
TEXTS = {"name", "bus", "source", "target", "to", "random", "file", "column", "profile"}


def add_elements(system: System, top: Table, files: CsvFiles, reader: NumberReader) -> None:
    """Adds the elements of all kinds; StudyError where one is wrong."""
    for kind, made in KINDS.items():
        for table in [*top.tables(kind), *_of_files(top, kind, files)]:
            _add(system, made, table, reader)
    reservoirs = {it.name for it, _ in system.of_kind(Reservoir)}
    for it, _ in system.of_kind(Thermal):
        if it.name in reservoirs:
            words = f'{it.place}: thermal "{it.name}" has the name of a reservoir: results would not tell their generation apart'
            raise StudyError(shown_name(words))


def _add(system: System, kind: Type[Element], table: Table, reader: NumberReader) -> None:
    """Makes an element of a table, and adds it."""
    name = str(table.path[-1])
    refuse_formula(table, name)
    table.only([it.name for it in fields(kind) if it.name != "name"])
    members = {key: _member(kind, table, key, reader) for key in table.members}
    try:
        with standing_at(table.place()):
            system.add(cast(Any, kind)(name, **members))
    except ModelError as fault:
        raise _placed(table, str(fault)) from None


def _placed(table: Table, words: str) -> StudyError:
    """A refusal of `hydroplan.plants` with the line of the key that it is about."""
    words = words.replace(f" ({table.place()})", "")
    found = MEMBER.match(words)
    key = [found[1]] if found is not None and found[1] in table.members else []
    return StudyError(shown_name(f"{table.place(*key)}: {words}"))


def _member(kind: Type[Element], table: Table, key: str, reader: NumberReader) -> Any:
    """What a member is given, as `hydroplan.plants` takes it."""
    if key in kind.LINKS:
        return table.text(key)
    if key in WAYS and kind is Reservoir:
        return _way(table, key)
    if key == "initial":
        return table.number(key)
    return reader.of(table, key, kind.MEMBERS[key])


def _way(table: Table, key: str) -> Any:
    """Where water goes: a name, a way of so many stages, or false where it is gone."""
    value = table.members[key]
    if value is False:
        return None
    if not isinstance(value, dict):
        return table.text(key)
    way = table.table(key).only(("to", "travel", "under_way"))
    given = way.members.get("under_way", [])
    numbers = given if isinstance(given, list) else [given]
    wrong = next((it for it in numbers if isinstance(it, bool) or not is_number(it)), None)
    if wrong is not None:
        raise way.fault(f"has numbers, and not {shown(wrong)}", "under_way")
    return Way(way.text("to"), way.whole("travel", 0, 40, 0), numbers)


def _of_files(top: Table, kind: str, files: CsvFiles) -> Iterator[Table]:
    """The elements of a kind that stand in CSV files, a row for each."""
    tables = top.table("tables").only(KINDS)
    if kind not in tables.members:
        return
    file = files.named(tables, kind)
    if "name" not in file.names:
        raise tables.fault(f'names {file.path}, which has no column "name"', kind)
    for number, row in enumerate(file.rows):
        members = _nested({key: cell for key, cell in zip(file.names, row) if cell}, file, number)
        name = members.pop("name", "")
        if not name:
            raise file.fault(number, f"the {kind} has no name")
        place = CodePlace(str(file.path), file.lines[number])
        yield Table(Document(str(file.path), {}, {(kind, name): place}), (kind, name), members)


def _nested(cells: Mapping[str, str], file: CsvFile, row: int) -> Dict[str, Any]:
    """The members of a row: `cost.1.size` is the size of the first tier of the cost, `turbine.flow` a turbine in m3/s."""
    found: Dict[str, Any] = {}
    for column, cell in cells.items():
        *way, last = column.split(".")
        inner = found
        for key in way:
            inner = inner.setdefault(key, {})
            if not isinstance(inner, dict):
                raise file.fault(row, f'the column "{column}" stands beside "{key}", which has a value of its own')
        inner[last] = False if (last, cell) == GONE else cell if last in TEXTS or last in WAYS else _value(cell)
    return {key: _listed(it) for key, it in found.items()}


def _value(cell: str) -> Any:
    """The number of a cell; the text itself where it is none, which is refused with its key."""
    with suppress(ArithmeticError, ValueError):
        return int(cell) if cell.lstrip("+-").isdigit() else Decimal(cell)
    return cell


def _listed(value: Any) -> Any:
    """The same with lists in the place of tables whose keys are 1, 2 and so on; those of `at` are stages, and stay a table."""
    if not isinstance(value, dict):
        return value
    inner = {key: it if key == "at" else _listed(it) for key, it in value.items()}
    numbers: List[str] = [str(at) for at in range(1, len(inner) + 1)]
    return [inner[it] for it in numbers] if inner and set(inner) == set(numbers) else inner
