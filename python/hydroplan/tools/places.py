"""Places of refusals: a part and three numbers become names and a path in the problem file.

Outside the proved core. A place is followed as far as the file has it; what is missing there, or of the wrong type, is named.
"""
from __future__ import annotations

import re
from dataclasses import dataclass
from typing import Callable, Iterator, Optional, Union

from .likeness import unknown_word
from .located_json import Cursor, Refused
from .misspellings import random_names
from .profile import MOST_NUMBER, SETS


@dataclass(frozen=True)
class Member:
    """A member by its path below the part, the kind of value that it has, and whether it has to be there."""

    path: tuple[str, ...]
    kind: str
    required: bool = True


OBJECT, ARRAY, STRING, NUMBER = "an object", "an array", "a string", "a number"

MEMBERS = {
    "whole": (
        Member(("root",), OBJECT), Member(("nodes",), OBJECT), Member(("subproblems",), OBJECT),
        Member(("validation_scenarios",), ARRAY, False),
    ),
    "root": (Member(("state_variables",), OBJECT, False), Member(("successors",), OBJECT)),
    "subproblem": (
        Member(("state_variables",), OBJECT, False), Member(("random_variables",), ARRAY, False),
        Member(("subproblem",), OBJECT), Member(("subproblem", "variables"), ARRAY),
        Member(("subproblem", "objective"), OBJECT), Member(("subproblem", "constraints"), ARRAY),
    ),
    "variable": (Member(("name",), STRING),),
    "state": (Member(("in",), STRING), Member(("out",), STRING)),
    "objective": (Member(("sense",), STRING), Member(("function",), OBJECT)),
    "constraint": (Member(("function",), OBJECT), Member(("set",), OBJECT)),
    "term": (Member(("coefficient",), NUMBER), Member(("variable",), STRING)),
    "node": (
        Member(("subproblem",), STRING), Member(("realizations",), ARRAY, False),
        Member(("successors",), OBJECT, False), Member(("stop",), NUMBER, False),
    ),
    "realization": (Member(("support",), OBJECT, False), Member(("probability",), NUMBER)),
    "scenario": (Member(("scenario",), ARRAY),),
    "step": (Member(("node",), STRING), Member(("support",), OBJECT, False)),
    "Variable": (Member(("name",), STRING),),
    "ScalarAffineFunction": (Member(("terms",), ARRAY), Member(("constant",), NUMBER, False)),
}


def wrong_shape(cursor: Cursor, part: str) -> Optional[tuple[Cursor, str]]:
    """The value that is of the wrong type, or in which a member is missing, with a word on it; none where none shows.

    `part` is a key of MEMBERS, or `number`, `string` or `initial` for the values themselves.
    """
    plain = {"number": NUMBER, "string": STRING, "initial": "a number, or an object with the number `initial_value`,"}
    if part in plain:
        kind = cursor.value.kind()
        return None if kind == plain[part] else (cursor, f"{plain[part]} is expected, not {kind}")
    if part not in MEMBERS or (part == "scenario" and not cursor.is_object()):
        return None
    if not cursor.is_object():
        return cursor, f"an object is expected, not {cursor.value.kind()}"
    return _first_fault(cursor, MEMBERS[part]) or _inside(cursor, part)


def _first_fault(cursor: Cursor, members: tuple[Member, ...]) -> Optional[tuple[Cursor, str]]:
    for member in members:
        at: Optional[Cursor] = cursor
        for key in member.path[:-1]:
            at = at.find(key) if at is not None and at.is_object() else None
        if at is None or not at.is_object():
            continue
        found = at.find(member.path[-1])
        if found is None and member.required:
            return at, f"the key `{member.path[-1]}` is missing"
        if found is not None and found.value.kind() != member.kind:
            return found, f"{member.kind} is expected, not {found.value.kind()}"
    return None


def _inside(cursor: Cursor, part: str) -> Optional[tuple[Cursor, str]]:
    """A fault in the function or the set of an objective or a constraint."""
    if part not in ("objective", "constraint"):
        return None
    function = cursor.find("function")
    if function is None:
        return None
    fault = _typed(function, {name: MEMBERS[name] for name in ("Variable", "ScalarAffineFunction")})
    if fault is not None or part == "objective":
        return fault
    sides = {name: tuple(Member((side,), NUMBER) for side in own) for name, own in SETS.items()}
    chosen = cursor.find("set")
    return None if chosen is None else _typed(chosen, sides)


def _typed(cursor: Cursor, members: dict[str, tuple[Member, ...]]) -> Optional[tuple[Cursor, str]]:
    fault = _first_fault(cursor, (Member(("type",), STRING),))
    if fault is not None:
        return fault
    kind = cursor.member("type").text()
    if kind == "Variable" and cursor.find("name") is None and cursor.find("variable") is not None:
        return _first_fault(cursor, (Member(("variable",), STRING),))
    return _first_fault(cursor, members.get(kind, ()))


def unsupported(cursor: Cursor, part: str) -> Optional[tuple[Cursor, str]]:
    """The sense, or the type of a function or a set, that the profile does not have."""
    if not cursor.is_object():
        return None
    sense = cursor.find("sense")
    if part == "objective" and sense is not None and sense.is_text() and sense.text() not in ("min", "feasibility"):
        return sense, f'the sense "{sense.text()}" is not read'
    for key, known in (("function", ("Variable", "ScalarAffineFunction")), ("set", tuple(SETS))):
        at = cursor.find(key)
        kind = at.find("type") if at is not None and at.is_object() else None
        if kind is not None and kind.is_text() and kind.text() not in known:
            return kind, f'the type "{kind.text()}" is not read; {", ".join(known)} are'
    return None


Path = tuple[Union[str, int], ...]
REFUSAL = re.compile(r"problem refused: (\w+) at (\w+) (\d+) (\d+) (\d+)")

MEANINGS = {
    "NotJson": "the bytes are no JSON of at most 127 levels",
    "Version": "`version.major` is not the whole number 1",
    "Shape": "a member is absent or of the wrong type",
    "NotWhole": "a number with a point, an exponent, or outside 64 bits",
    "Unsupported": "a sense, a function or a set that the profile does not have",
    "Duplicate": "a name or a variable that was used before",
    "UnknownName": "no such variable, node or subproblem",
    "Weight": "a weight below 1, a stop weight below 0, or a total above 65,535",
    "Unbounded": "a decision without a lower or an upper bound",
    "EmptyBox": "a lower bound above the upper one",
    "States": "the subproblem's states are not those of the root",
    "Scenario": "a stored scenario that is empty or does not follow the graph",
    "TooLarge": "a number above 2^40, a name above 128 bytes, or a count past its limit",
    "Cycle": "a node that can reach itself",
    "Unreachable": "a node that the root does not reach",
    "BoxGap": "bounds of the incoming state that leave out a value which can come in",
    "Range": "numbers so large that the base cut leaves 128 bits",
}


@dataclass(frozen=True)
class Refusal:
    """A refusal as the program says it."""

    kind: str
    part: str
    numbers: tuple[int, int, int]


@dataclass(frozen=True)
class Located:
    """The deepest value of the file that a place leads to, what is missing below it, and the place in words."""

    cursor: Cursor
    missing: Path
    words: str


def read_refusal(line: str) -> Optional[Refusal]:
    """The refusal in a line, none where there is none."""
    found = REFUSAL.search(line)
    if found is None:
        return None
    first, second, third = (int(number) for number in found.groups()[2:])
    return Refusal(found.group(1), found.group(2), (first, second, third))


def key_at(cursor: Optional[Cursor], at: int) -> Union[str, int]:
    """The key of this number in byte order, the number itself where there is none."""
    if cursor is None or not cursor.is_object():
        return at
    keys = cursor.keys()
    return keys[at] if at < len(keys) else at


def descend(root: Cursor, path: Path) -> tuple[Cursor, Path]:
    """The deepest value along a path, and the rest of the path."""
    for done, part in enumerate(path):
        found = _step(root, part)
        if found is None:
            return root, path[done:]
        root = found
    return root, ()


def _step(cursor: Cursor, part: Union[str, int]) -> Optional[Cursor]:
    if isinstance(part, str):
        return cursor.find(part) if cursor.is_object() else None
    items = cursor.items() if isinstance(cursor.value.content, list) else []
    return items[part] if part < len(items) else None


def locate(root: Cursor, refusal: Refusal) -> Located:
    """Where a refusal points to. Parts that are not known are the whole file."""
    finder: Callable[[Cursor, Refusal], tuple[Path, str]] = FINDERS.get(refusal.part, _whole)
    path, words = finder(root, refusal)
    return Located(*descend(root, path), words)


def _whole(root: Cursor, refusal: Refusal) -> tuple[Path, str]:
    return (), "the file as a whole"


def _root(root: Cursor, refusal: Refusal) -> tuple[Path, str]:
    which, at, _ = refusal.numbers
    if which == 0:
        return ("root",), "the root as a whole"
    table = "state_variables" if which == 1 else "successors"
    key = key_at(descend(root, ("root", table))[0], at)
    return ("root", table, key), f'{"state" if which == 1 else "successor"} "{key}" of the root'


def _subproblem_path(root: Cursor, at: int) -> tuple[Path, str]:
    key = key_at(root.find("subproblems"), at)
    return ("subproblems", key), f'subproblem "{key}"'


def _subproblem(root: Cursor, refusal: Refusal) -> tuple[Path, str]:
    return _subproblem_path(root, refusal.numbers[0])


def _variable(root: Cursor, refusal: Refusal) -> tuple[Path, str]:
    path, words = _subproblem_path(root, refusal.numbers[0])
    path = (*path, "subproblem", "variables", refusal.numbers[1])
    return path, f"variable{_called(root, path)} of {words}"


def _called(root: Cursor, path: Path) -> str:
    """The name at a path in quotation marks: the value itself or its member `name`; its number where there is none."""
    found, missing = descend(root, path)
    if not missing and found.is_object():
        found = found.find("name") or found
    return f' "{found.text()}"' if not missing and found.is_text() else f" {path[-1]}"


def _state(root: Cursor, refusal: Refusal) -> tuple[Path, str]:
    path, words = _subproblem_path(root, refusal.numbers[0])
    key = key_at(descend(root, (*path, "state_variables"))[0], refusal.numbers[1])
    return (*path, "state_variables", key), f'state "{key}" of {words}'


def _random(root: Cursor, refusal: Refusal) -> tuple[Path, str]:
    path, words = _subproblem_path(root, refusal.numbers[0])
    path = (*path, "random_variables", refusal.numbers[1])
    return path, f"random variable{_called(root, path)} of {words}"


def _term(path: Path, words: str, term: int) -> tuple[Path, str]:
    if term == 0:
        return path, words
    return (*path, "function", "terms", term - 1), f"term {term - 1} of {words}"


def _objective(root: Cursor, refusal: Refusal) -> tuple[Path, str]:
    path, words = _subproblem_path(root, refusal.numbers[0])
    return _term((*path, "subproblem", "objective"), f"the objective of {words}", refusal.numbers[1])


def _constraint(root: Cursor, refusal: Refusal) -> tuple[Path, str]:
    path, words = _subproblem_path(root, refusal.numbers[0])
    path = (*path, "subproblem", "constraints", refusal.numbers[1])
    return _term(path, f"constraint{_called(root, path)} of {words}", refusal.numbers[2])


def node_path(root: Cursor, at: int) -> tuple[Path, str]:
    """The path of a node by its number, and the node in words."""
    key = key_at(root.find("nodes"), at)
    return ("nodes", key), f'node "{key}"'


def _node(root: Cursor, refusal: Refusal) -> tuple[Path, str]:
    path, words = node_path(root, refusal.numbers[0])
    if refusal.kind == "BoxGap":
        state = key_at(descend(root, ("root", "state_variables"))[0], refusal.numbers[1])
        return path, f'state "{state}" as it comes into {words}'
    return path, words


def _realization(root: Cursor, refusal: Refusal) -> tuple[Path, str]:
    path, words = node_path(root, refusal.numbers[0])
    return (*path, "realizations", refusal.numbers[1]), f"realization {refusal.numbers[1]} of {words}"


def _random_at(root: Cursor, node: Path, at: int) -> Union[str, int]:
    found, missing = descend(root, node)
    names = [] if missing else random_names(found, root)
    return names[at] if at < len(names) else at


def _support(root: Cursor, refusal: Refusal) -> tuple[Path, str]:
    path, words = _realization(root, refusal)
    name = _random_at(root, path[:2], refusal.numbers[2])
    return (*path, "support", name), f'the value of "{name}" in {words}'


def _successor(root: Cursor, refusal: Refusal) -> tuple[Path, str]:
    path, words = node_path(root, refusal.numbers[0])
    key = key_at(descend(root, (*path, "successors"))[0], refusal.numbers[1])
    return (*path, "successors", key), f'successor "{key}" of {words}'


def _alternative(root: Cursor, refusal: Refusal) -> tuple[Path, str]:
    """The member as a whole, one of its arrays, or, where a weight itself is refused, that weight; arrays count from 1."""
    path, words = node_path(root, refusal.numbers[0])
    path = (*path, "alternatives")
    alternative, realization = refusal.numbers[1:]
    if alternative == 0:
        return path, f"the alternatives of {words}"
    path, words = (*path, alternative - 1), f"alternative {alternative} of {words}"
    found, missing = descend(root, (*path, realization))
    if missing or (refusal.kind == "Shape" and realization == 0 and found.is_number()):
        return path, words
    return (*path, realization), f"weight {realization} of {words}"


def _scenario(root: Cursor, refusal: Refusal) -> tuple[Path, str]:
    return ("validation_scenarios", refusal.numbers[0]), f"stored scenario {refusal.numbers[0]}"


def _step_of_scenario(root: Cursor, refusal: Refusal) -> tuple[Path, str]:
    """A step, or the value of a random variable in it: a step without a fault of its own has the latter."""
    path, words = _scenario(root, refusal)
    at, random = refusal.numbers[1:]
    if descend(root, (*path, "scenario"))[1] == ():
        path = (*path, "scenario")
    path = (*path, at)
    words = f"step {at} of {words}"
    found, missing = descend(root, (*path, "node"))
    support = descend(root, (*path, "support"))
    sound = not missing and found.is_text() and (support[1] or support[0].is_object())
    if refusal.kind in ("NotWhole", "TooLarge") or (refusal.kind == "Shape" and sound):
        name = _random_at(root, ("nodes", found.text()) if found.is_text() else (), random)
        return (*path, "support", name), f'the value of "{name}" in {words}'
    return path, words


FINDERS: dict[str, Callable[[Cursor, Refusal], tuple[Path, str]]] = {
    "whole": _whole, "root": _root, "subproblem": _subproblem, "variable": _variable, "state": _state,
    "random": _random, "objective": _objective, "constraint": _constraint, "node": _node, "realization": _realization,
    "support": _support, "successor": _successor, "scenario": _scenario, "step": _step_of_scenario,
    "alternative": _alternative,
}


def culprit(root: Cursor, refusal: Refusal, located: Located) -> Optional[tuple[Cursor, str]]:
    """A closer look: the value at the place that makes the refusal, with a word on it; none where none shows."""
    if located.missing:
        return None
    if refusal.kind in NUMBER_TESTS:
        test, word = NUMBER_TESTS[refusal.kind]
        found = next((it for it in _numbers(located.cursor) if test(it)), None)
        return None if found is None else (found, f"{found.number_text().text} {word}")
    if refusal.kind == "UnknownName":
        return _unknown(root, refusal, located)
    if refusal.kind == "Shape":
        return wrong_shape(located.cursor, _shape_of(refusal, located)) or _without_realizations(root, refusal, located)
    if refusal.kind == "Unsupported":
        return unsupported(located.cursor, refusal.part)
    if refusal.kind == "Duplicate" and refusal.part == "variable":
        return _earlier(root, located)
    return None


def _without_realizations(root: Cursor, refusal: Refusal, located: Located) -> Optional[tuple[Cursor, str]]:
    """A node without realizations whose subproblem has random variables."""
    if refusal.part != "node" or not located.cursor.is_object():
        return None
    realizations = located.cursor.find("realizations")
    if (realizations is None or not realizations.items()) and random_names(located.cursor, root):
        return realizations or located.cursor, "its subproblem has random variables, and it has no realizations"
    return None


def _shape_of(refusal: Refusal, located: Located) -> str:
    """What is expected at a place, in the words of `wrong_shape`."""
    first, second, third = refusal.numbers
    if (refusal.part, second > 0) == ("objective", True) or (refusal.part, third > 0) == ("constraint", True):
        return "term"
    if refusal.part == "root" and first > 0:
        return "initial" if first == 1 else "number"
    if refusal.part == "step" and located.cursor.path[-2] == "support":
        return "number"
    return {"successor": "number", "support": "number", "random": "string"}.get(refusal.part, refusal.part)


NUMBER_KEYS = (
    "initial_value", "probability", "coefficient", "function", "constant", "set", "value", "lower", "upper", "stop",
)


def _numbers(cursor: Cursor) -> Iterator[Cursor]:
    """The numbers that belong to a place itself: not those of parts that have places of their own."""
    if cursor.is_number():
        yield cursor
    elif cursor.is_object():
        for key in NUMBER_KEYS:
            found = cursor.find(key)
            if found is not None:
                yield from _numbers(found)


def _is_below_one(cursor: Cursor) -> bool:
    least = 0 if cursor.path[-1] == "stop" else 1
    return cursor.number_text().is_whole() and int(cursor.number_text().text) < least


def _is_too_large(cursor: Cursor) -> bool:
    content = cursor.number_text()
    return content.is_whole() and abs(int(content.text)) > MOST_NUMBER


NUMBER_TESTS: dict[str, tuple[Callable[[Cursor], bool], str]] = {
    "NotWhole": (lambda it: not it.number_text().is_whole(), "is not whole, or outside 64 bits"),
    "TooLarge": (_is_too_large, "is above 2^40 in absolute value"),
    "Weight": (_is_below_one, "is too small for a weight"),
}


def _unknown(root: Cursor, refusal: Refusal, located: Located) -> Optional[tuple[Cursor, str]]:
    """The name that is not known, with the nearest that is."""
    known = _known_names(root, refusal)
    if refusal.part in ("root", "successor"):
        return located.cursor, unknown_word(str(located.cursor.path[-1]), known)
    keys = ("subproblem", "node", "in", "out", "name", "variable")
    spots = [located.cursor] if located.cursor.is_text() else []
    for at in (located.cursor, located.cursor.find("function") if located.cursor.is_object() else None):
        if at is not None and at.is_object():
            spots.extend(found for found in map(at.find, keys) if found is not None and found.is_text())
    wrong = next((at for at in spots if at.text() not in known), None)
    return None if wrong is None else (wrong, unknown_word(wrong.text(), known))


def _known_names(root: Cursor, refusal: Refusal) -> list[str]:
    table = "subproblems" if refusal.part == "node" else "nodes"
    if refusal.part in ("root", "successor", "step", "node"):
        found = root.find(table)
        return found.keys() if found is not None and found.is_object() else []
    path, _ = _subproblem_path(root, refusal.numbers[0])
    variables, missing = descend(root, (*path, "subproblem", "variables"))
    items = [] if missing else [it.find("name") for it in variables.items() if it.is_object()]
    return [it.text() for it in items if it is not None and it.is_text()]


def _earlier(root: Cursor, located: Located) -> Optional[tuple[Cursor, str]]:
    name = located.cursor.find("name") if located.cursor.is_object() else None
    variables, _ = descend(root, located.cursor.path[:-1])
    if name is None or not name.is_text():
        return None
    for item in variables.items():
        first = item.find("name")
        if first is not None and first.is_text() and first.text() == name.text():
            return first, f'"{name.text()}" stands here already'
    return None


def rows_of(root: Cursor, node: int) -> list[Path]:
    """The paths of the constraints that are rows at a node: all but bounds of variables that are not random."""
    found, missing = descend(root, node_path(root, node)[0])
    if missing or not found.is_object():
        return []
    subproblem = found.find("subproblem")
    randoms = random_names(found, root)
    name: Union[str, int] = subproblem.text() if subproblem is not None and subproblem.is_text() else 0
    path: Path = ("subproblems", name, "subproblem", "constraints")
    constraints, missing = descend(root, path)
    items = [] if missing else constraints.items()
    return [it.path for it in items if not _is_bound(it, randoms)]


def _is_bound(constraint: Cursor, randoms: list[str]) -> bool:
    try:
        function = constraint.member("function")
        kind = function.member("type").text()
        return kind == "Variable" and function.member("name", "variable").text() not in randoms
    except Refused:
        return False


def states_of(root: Cursor) -> list[str]:
    """The names of the states in their numbers' order."""
    found, missing = descend(root, ("root", "state_variables"))
    return found.keys() if not missing and found.is_object() else []
