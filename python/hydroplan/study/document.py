"""The file study.toml as tables whose keys are looked at: each refusal names file, line and key.

`tomllib` reads the values, and says nothing of where they stand. So the lines of keys are found in a text that it has read without a
fault: it is enough to tell keys, strings and brackets apart.
"""
from __future__ import annotations

import datetime
import importlib
import re
from bisect import bisect_left
from dataclasses import dataclass, field
from decimal import Decimal
from pathlib import Path as FilePath
from typing import Any, Dict, Iterable, List, Mapping, Optional, Sequence, Tuple, Union

from ..code_places import CodePlace
from ..errors import HydroplanError, MissingPackage
from ..exact import MOST_DIGITS, is_number
from ..plants.amounts import suggestion
from ..tools.bounded_files import MOST_TOML_BYTES, whole_file
from ..tools.shown_names import shown_name


class StudyError(HydroplanError, ValueError):
    """A study that is wrong; the message names file, line and key."""


Path = Tuple[Union[str, int], ...]

BLANK = re.compile(r"(?:[ \t\r\n]|#[^\n]*)*")
DOTTED = re.compile(r"""[ \t]*(?:"((?:[^"\\\n]|\\.)*)"|'([^'\n]*)'|([A-Za-z0-9_-]+))[ \t]*(\.?)""")
TEXT = re.compile(r'"""(?:[^\\]|\\.)*?"{3,5}|\'\'\'.*?\'{3,5}|"(?:[^"\\\n]|\\.)*"|\'[^\'\n]*\'', re.DOTALL)
PLAIN = re.compile(r"[^,\]}\n#]*")
ESCAPES = {"b": "\b", "t": "\t", "n": "\n", "f": "\f", "r": "\r", '"': '"', "\\": "\\"}
ESCAPE = re.compile(r"\\(u[0-9A-Fa-f]{4}|U[0-9A-Fa-f]{8}|.)")


def lines_of(text: str) -> Dict[Path, int]:
    """The line, from 1, of each key and of each entry of a list, by its path: keys, and numbers of entries from 0."""
    found = _Scanner(text)
    found.scan()
    return found.lines


def _unescaped(text: str) -> str:
    """A key between double quotes, with its escapes read."""
    return ESCAPE.sub(lambda it: ESCAPES[it[1]] if it[1] in ESCAPES else chr(int(it[1][1:], 16)), text)


class _Scanner:
    """Goes through a text once."""

    def __init__(self, text: str) -> None:
        self.text = text
        self.at = 0
        self.lines: Dict[Path, int] = {}
        self._tables: Dict[Path, int] = {}
        self._ends = [it.start() for it in re.finditer("\n", text)]

    def scan(self) -> None:
        """Notes the line of each key."""
        here: Path = ()
        self._blank()
        while self.at < len(self.text):
            if self.text[self.at] == "[":
                here = self._header()
            else:
                self._pair(here)
            self._blank()

    def _blank(self) -> None:
        found = BLANK.match(self.text, self.at)
        self.at = found.end() if found else self.at

    def _note(self, path: Path) -> None:
        self.lines.setdefault(path, bisect_left(self._ends, self.at) + 1)

    def _keys(self) -> List[str]:
        """A key, or several with dots between them."""
        found: List[str] = []
        while True:
            key = DOTTED.match(self.text, self.at)
            if key is None:
                return found
            self.at = key.end()
            found.append(_unescaped(key[1]) if key[1] is not None else key[2] if key[2] is not None else key[3])
            if not key[4]:
                return found

    def _header(self) -> Path:
        """The table that begins; of a list of tables the next one."""
        is_list = self.text.startswith("[[", self.at)
        start = self.at
        self.at += 2 if is_list else 1
        path: Path = ()
        keys = self._keys()
        end, self.at = self.at, start
        for number, key in enumerate(keys, 1):
            path = (*path, key)
            self._note(path)
            if is_list and number == len(keys):
                self._tables[path] = self._tables.get(path, -1) + 1
            if path in self._tables:
                path = (*path, self._tables[path])
                self._note(path)
        self.at = end + (2 if is_list else 1)
        return path

    def _pair(self, here: Path) -> None:
        """A key and its value."""
        path = here
        start = self.at
        keys = self._keys()
        end, self.at = self.at, start
        for key in keys:
            path = (*path, key)
            self._note(path)
        self.at = self.text.index("=", end) + 1
        self._value(path)

    def _value(self, path: Path) -> None:
        self._blank()
        opening = self.text[self.at]
        if opening == "[":
            self._list(path)
        elif opening == "{":
            self._inline(path)
        else:
            found = TEXT.match(self.text, self.at) or PLAIN.match(self.text, self.at)
            self.at = found.end() if found else len(self.text)

    def _list(self, path: Path) -> None:
        number = 0
        self._step()
        while self.text[self.at] != "]":
            self._note((*path, number))
            self._value((*path, number))
            number += 1
            self._comma()
        self.at += 1

    def _inline(self, path: Path) -> None:
        self._step()
        while self.text[self.at] != "}":
            self._pair(path)
            self._comma()
        self.at += 1

    def _step(self) -> None:
        self.at += 1
        self._blank()

    def _comma(self) -> None:
        self._blank()
        if self.text[self.at] == ",":
            self._step()


MOST_LEVELS = 32
MARK = re.compile(rf"""(?P<text>{TEXT.pattern})|\#[^\n]*|(?P<word>[A-Za-z0-9_]+)|(?P<sign>[-.\[\]{{}}])|(?P<end>[^ \t])""", re.DOTALL)
LONG_NUMBER = re.compile(rf"(?:[0-9_]{{{MOST_DIGITS + 1},}}|0[box][0-9A-Fa-f_]{{{MOST_DIGITS + 1},}})\Z")


def refuse_extremes(text: str, called: str) -> None:
    """Refuses what no study has and no reader gets through: brackets or keys of very many levels, and very long numbers.

    It is enough to tell strings, comments, words and brackets apart. StudyError names the line.
    """
    levels = dots = 0
    for found in MARK.finditer(text):
        sign = found["sign"]
        levels += (sign in ("[", "{")) - (sign in ("]", "}")) if sign else 0
        dots = dots + 1 if sign == "." else dots if found["text"] or found["word"] or sign == "-" else 0
        wrong = (
            f"brackets stand at most {MOST_LEVELS} deep" if levels > MOST_LEVELS
            else f"a key has at most {MOST_LEVELS} parts" if dots >= MOST_LEVELS
            else f"a number has at most {MOST_DIGITS} digits" if found["word"] and LONG_NUMBER.match(found["word"]) else None
        )
        if wrong is not None:
            raise StudyError(shown_name(f"{called}:{text.count(chr(10), 0, found.start()) + 1}: {wrong}"))


FAULT_LINE = re.compile(r" \(at line (\d+), column (\d+)\)")


def _read_toml(text: str) -> Dict[str, Any]:
    """The values of a TOML text; numbers with a point are exact decimals."""
    for name in ("tomllib", "tomli"):
        try:
            reader = importlib.import_module(name)
        except ImportError:
            continue
        found: Dict[str, Any] = reader.loads(text, parse_float=Decimal)
        return found
    raise MissingPackage("tomli is needed for studies by Python before 3.11: Debian has it as python3-tomli")


@dataclass
class Document:
    """The values of a study's file, and the place of each key."""

    name: str
    values: Dict[str, Any]
    places: Dict[Path, CodePlace] = field(default_factory=dict)

    @classmethod
    def read(cls, path: FilePath) -> Document:
        """The document in a file, or StudyError where it cannot be read or is no TOML."""
        try:
            text = whole_file(path, MOST_TOML_BYTES).decode("utf-8-sig").replace("\r\n", "\n")
        except OSError as fault:
            raise StudyError(shown_name(f"{path}: {fault.strerror}")) from None
        except UnicodeDecodeError as fault:
            line = fault.object.count(b"\n", 0, fault.start) + 1
            raise StudyError(shown_name(f"{path}: no UTF-8: {fault.reason} at byte {fault.start}, in line {line}")) from None
        values = _parsed(text, str(path))
        return cls(str(path), values, {key: CodePlace(str(path), line) for key, line in lines_of(text).items()})

    def override(self, words: Sequence[str]) -> None:
        """Sets keys by words as in `stop.gap=0.02`: a key of the file, with a value as it would stand there."""
        for number, word in enumerate(words, 1):
            place = CodePlace("--set", number)
            values = _parsed(word, str(place))
            self.places.update({key: place for key in lines_of(word)})
            _merge(self.values, values)

    def top(self) -> Table:
        """The whole document as a table."""
        return Table(self, (), self.values)

    def place(self, path: Path) -> CodePlace:
        """Where a key stands, or else the nearest table around it."""
        while path and path not in self.places:
            path = path[:-1]
        return self.places.get(path, CodePlace(self.name, 1))


def _parsed(text: str, called: str) -> Dict[str, Any]:
    refuse_extremes(text, called)
    try:
        return _read_toml(text)
    except ValueError as fault:
        found = FAULT_LINE.search(str(fault))
        line, words = (f":{found[1]}", str(fault).replace(found[0], "")) if found else ("", str(fault))
        raise StudyError(shown_name(f"{called}{line}: no TOML: {words}")) from None


def _merge(values: Dict[str, Any], others: Mapping[str, Any]) -> None:
    for key, value in others.items():
        if isinstance(value, dict) and isinstance(values.get(key), dict):
            _merge(values[key], value)
        else:
            values[key] = value


def dotted(path: Path) -> str:
    """A key as messages have it, with dots; entries of lists count from 1."""
    return ".".join(str(it + 1) if isinstance(it, int) else it for it in path)


@dataclass(frozen=True)
class Table:
    """A table of the document."""

    document: Document
    path: Path
    members: Mapping[str, Any]

    def fault(self, reason: str, *keys: object) -> StudyError:
        """A refusal of a key of this table, or of the table itself."""
        path = (*self.path, *keys)
        called = f'"{dotted(path)}" ' if path else ""  # type: ignore[arg-type]
        return StudyError(shown_name(f"{self.document.place(path)}: {called}{reason}"))  # type: ignore[arg-type]

    def place(self, *keys: object) -> CodePlace:
        """Where a key of this table stands."""
        return self.document.place((*self.path, *keys))  # type: ignore[arg-type]

    def only(self, known: Iterable[str]) -> Table:
        """This table, or StudyError where it has another key than those that are known."""
        names = list(known)
        for key in self.members:
            if key not in names:
                raise self.fault(f"is not known: {suggestion(key, names)}", key)
        return self

    def table(self, key: str) -> Table:
        """The table of a key; an empty one where it is not there."""
        value = self.members.get(key, {})
        if not isinstance(value, dict):
            raise self.fault(f"is a table, and not {shown(value)}", key)
        return Table(self.document, (*self.path, key), value)

    def tables(self, key: str) -> List[Table]:
        """The tables of a key, by their own keys."""
        outer = self.table(key)
        return [outer.table(it) for it in outer.members]

    def needed(self, key: str) -> Any:
        """The value of a key that has to be there."""
        if key not in self.members:
            raise self.fault("is needed", key)
        return self.members[key]

    def text(self, key: str, default: Optional[str] = None) -> str:
        """A text; the default where it is not there, and StudyError where there is none."""
        value = self.needed(key) if default is None else self.members.get(key, default)
        if not isinstance(value, str) or not value:
            raise self.fault(f"is a text, and not {shown(value)}", key)
        return value

    def choice(self, key: str, known: Sequence[str], default: str) -> str:
        """One of some words."""
        value = self.text(key, default)
        if value not in known:
            raise self.fault(f"is one of {', '.join(known)}, and not {shown(value)}", key)
        return value

    def whole(self, key: str, least: int, most: int, default: Optional[int] = None) -> int:
        """A whole number within its range."""
        value = self.needed(key) if default is None else self.members.get(key, default)
        if isinstance(value, bool) or not isinstance(value, int) or not least <= value <= most:
            raise self.fault(f"is a whole number from {least} to {most}, and not {shown(value)}", key)
        return value

    def number(self, key: str, default: Any = None) -> Any:
        """A number, exactly as it stands there."""
        value = self.needed(key) if default is None else self.members.get(key, default)
        if isinstance(value, (bool, float)) or not is_number(value):
            raise self.fault(f"is a number, and not {shown(value)}", key)
        return value

    def share(self, key: str, default: float) -> float:
        """A number above 0 and below 1."""
        value = float(self.number(key, default if isinstance(default, Decimal) else Decimal(repr(default))))
        if not 0 < value < 1:
            raise self.fault(f"is above 0 and below 1, and not {shown(self.members[key])}", key)
        return value

    def positive(self, key: str) -> Optional[float]:
        """A number above 0, none where it is not there."""
        if key not in self.members:
            return None
        value = float(self.number(key))
        if value <= 0:
            raise self.fault(f"is above 0, and not {shown(self.members[key])}", key)
        return value

    def date(self, key: str) -> datetime.date:
        """A date."""
        value = self.needed(key)
        if not isinstance(value, datetime.date) or isinstance(value, datetime.datetime):
            raise self.fault(f"is a date, as in 2026-01-01, and not {shown(value)}", key)
        return value


MOST_SHOWN = 100


def shown(value: object) -> str:
    """A value as messages show it; of a long one the beginning."""
    if isinstance(value, bool):
        return "true" if value else "false"
    text = f'"{value}"' if isinstance(value, str) else str(value)
    return text if len(text) <= MOST_SHOWN else f"{text[:MOST_SHOWN]}.. of {len(text):,} characters"
