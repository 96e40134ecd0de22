"""Keys of a problem file that the program ignores and that look like known ones, all keys of a description that it ignores, and keys
that come twice.

Outside the proved core. A problem may be written by other tools, which have keys of their own; a description is written for the program
alone, so each key that does not count is told.
"""
from __future__ import annotations

from dataclasses import dataclass
from typing import Iterator, Optional

from .located_json import Cursor
from .likeness import nearest
from .plants import MEMBERS, STAGES, TABLES, is_description, names_of
from .profile import SETS


OF_OTHER_TOOLS = ("name", "author", "date", "description")


@dataclass(frozen=True)
class Keys:
    """An object, the keys that count there, and keys of other tools that are ignored on purpose."""

    cursor: Cursor
    known: tuple[str, ...]
    harmless: tuple[str, ...] = ()


def warnings(root: Cursor) -> list[str]:
    """A line for each suspicious key, in the order of the file's parts."""
    found: list[str] = []
    described = is_description(root)
    for keys in described_objects(root) if described else objects(root):
        found.extend(_ignored(keys, described))
        found.extend(_twice(keys.cursor))
    return [*found, *_unread_travels(root)] if described else found


def _ignored(keys: Keys, all_of_them: bool) -> Iterator[str]:
    for key in keys.cursor.table():
        if key in keys.known or key in keys.harmless:
            continue
        like = nearest(key, keys.known)
        if like is not None:
            yield f"{_place_of(keys.cursor, key)}: the key `{key}` is ignored, and looks like `{like}`"
        elif all_of_them:
            yield f"{_place_of(keys.cursor, key)}: the key `{key}` is ignored"


def _twice(cursor: Cursor) -> Iterator[str]:
    for key, offset in cursor.value.repeated:
        line, column = cursor.document.line_and_column(offset)
        yield f"{cursor.place()}: the key `{key}` comes again at line {line}, column {column}; the last one counts"


def _unread_travels(root: Cursor) -> Iterator[str]:
    for at in _members(root.find("reservoirs")):
        if at.is_object() and at.find("travel") is not None and at.find("downstream") is None:
            yield f"{_place_of(at, 'travel')}: `travel` is not read, since there is no `downstream`"


def _place_of(cursor: Cursor, key: str) -> str:
    line, column = cursor.document.line_and_column(cursor.value.key_offsets[key])
    return f"{cursor.member(key).place().split(' (line')[0]} (line {line}, column {column})"


def objects(root: Cursor) -> Iterator[Keys]:
    """All objects of the file whose keys are known, as far as the file has its form."""
    if not root.is_object():
        return
    known = ("version", "root", "nodes", "subproblems", "validation_scenarios")
    yield Keys(root, known, OF_OTHER_TOOLS)
    yield from _one(root.find("version"), ("major", "minor"))
    origin = root.find("root")
    yield from _one(origin, ("state_variables", "successors"), ("name",))
    for at in _members(_find(origin, "state_variables")):
        yield from _one(at, ("initial_value",))
    for at in _members(root.find("nodes")):
        yield from _node(at, root)
    for at in _members(root.find("subproblems")):
        yield from _subproblem(at)
    for at in _items(root.find("validation_scenarios")):
        yield from _one(at, ("scenario",), ("probability",))
        for step in _items(_find(at, "scenario") if at.is_object() else at):
            yield from _one(step, ("node", "support"))


def described_objects(root: Cursor) -> Iterator[Keys]:
    """All objects of a description whose keys are known, as far as it has its form."""
    yield from _one(root, (*(table for table, *_ in TABLES), STAGES[0]))
    for table, part, *_ in TABLES:
        known = tuple(key for key, _ in MEMBERS[part])
        yield from _twice_alone(root.find(table))
        for at in _members(root.find(table)):
            yield from _one(at, (*known, "downstream", "travel") if part == "reservoir" else known)
    for stage in _items(root.find(STAGES[0])):
        yield from _one(stage, ("demand", "inflows"))
        yield from _numbers_of(_find(stage, "demand"), names_of(root, "buses"))
        for at in _items(_find(stage, "inflows")):
            yield from _one(at, ("weight", "inflow"))
            yield from _numbers_of(_find(at, "inflow"), names_of(root, "reservoirs"))


def _numbers_of(cursor: Optional[Cursor], names: list[str]) -> Iterator[Keys]:
    """An object with a number under each name: a key that is none of them may stand for one that is missing."""
    if cursor is not None and cursor.is_object():
        yield Keys(cursor, tuple(name for name in names if cursor.find(name) is None), tuple(names))


def _find(cursor: Optional[Cursor], key: str) -> Optional[Cursor]:
    return cursor.find(key) if cursor is not None and cursor.is_object() else None


def _members(cursor: Optional[Cursor]) -> list[Cursor]:
    return [at for _, at in cursor.members()] if cursor is not None and cursor.is_object() else []


def _items(cursor: Optional[Cursor]) -> list[Cursor]:
    return cursor.items() if cursor is not None and isinstance(cursor.value.content, list) else []


def _one(cursor: Optional[Cursor], known: tuple[str, ...], harmless: tuple[str, ...] = ()) -> Iterator[Keys]:
    if cursor is not None and cursor.is_object():
        yield Keys(cursor, known, harmless)


def _twice_alone(cursor: Optional[Cursor]) -> Iterator[Keys]:
    """A table whose keys are names of its own, all of which count."""
    if cursor is not None and cursor.is_object():
        yield Keys(cursor, tuple(cursor.keys()))


def _node(cursor: Cursor, root: Cursor) -> Iterator[Keys]:
    yield from _one(cursor, ("subproblem", "realizations", "successors", "stop", "alternatives"))
    for at in _items(_find(cursor, "realizations")):
        yield from _one(at, ("probability", "support"))
        support = _find(at, "support")
        yield from _numbers_of(support, random_names(cursor, root))


def random_names(node: Cursor, root: Cursor) -> list[str]:
    """The names of the random variables at a node, as far as the file gives them."""
    at = _find(node, "subproblem")
    subproblem = _find(root.find("subproblems"), at.text()) if at is not None and at.is_text() else None
    return [it.text() for it in _items(_find(subproblem, "random_variables")) if it.is_text()]


def _subproblem(cursor: Cursor) -> Iterator[Keys]:
    yield from _one(cursor, ("state_variables", "random_variables", "subproblem"))
    for at in _members(_find(cursor, "state_variables")):
        yield from _one(at, ("in", "out"))
    program = _find(cursor, "subproblem")
    yield from _one(program, ("variables", "objective", "constraints"), ("version", "name"))
    for at in _items(_find(program, "variables")):
        yield from _one(at, ("name",), ("primal_start",))
    objective = _find(program, "objective")
    yield from _one(objective, ("sense", "function"))
    yield from _function(_find(objective, "function"))
    for at in _items(_find(program, "constraints")):
        yield from _one(at, ("function", "set"), ("name",))
        yield from _function(_find(at, "function"))
        yield from _set(_find(at, "set"))


def _kind(cursor: Optional[Cursor]) -> str:
    at = _find(cursor, "type")
    return at.text() if at is not None and at.is_text() else ""


def _function(cursor: Optional[Cursor]) -> Iterator[Keys]:
    if _kind(cursor) == "Variable":
        yield from _one(cursor, ("type", "name", "variable"))
    else:
        yield from _one(cursor, ("type", "terms", "constant"), ("name", "variable"))
    for at in _items(_find(cursor, "terms")):
        yield from _one(at, ("coefficient", "variable"))


def _set(cursor: Optional[Cursor]) -> Iterator[Keys]:
    sides = SETS.get(_kind(cursor), ("value", "lower", "upper"))
    yield from _one(cursor, ("type", *sides), ("value", "lower", "upper"))
