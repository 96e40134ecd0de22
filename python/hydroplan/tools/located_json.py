"""JSON whose values know where they stand: the text of each number as written, and the place of each value and key.

Outside the proved core. It accepts what the program's reader accepts (at most 127 levels, no number that rounds to an
infinity, the last of equal keys stays) and says at which line and column a text is no JSON. A cursor is a value together with its
path: readers step from it to members and items, and refuse with a place.
"""
from __future__ import annotations

import re
from bisect import bisect_right
from dataclasses import dataclass, field
from fractions import Fraction
from typing import Iterator, Optional, Union

MOST_LEVELS = 127

BLANKS = re.compile(r"[ \t\n\r]*")
PLAIN_TEXT = re.compile(r'[^"\\\x00-\x1f]*')
NUMBER = re.compile(r"-?(?:0|[1-9][0-9]*)(?:\.[0-9]+)?(?:[eE][+-]?[0-9]+)?")
FOUR_DIGITS = re.compile(r"[0-9a-fA-F]{4}")
ESCAPES = {'"': '"', "\\": "\\", "/": "/", "b": "\b", "f": "\f", "n": "\n", "r": "\r", "t": "\t"}
WORDS = {"true": True, "false": False, "null": None}
PLAIN_KEY = re.compile(r"[A-Za-z_][A-Za-z0-9_]*\Z")


class NotJson(Exception):
    """The text is no JSON, or none that the program reads."""

    def __init__(self, reason: str, line: int, column: int) -> None:
        super().__init__(f"line {line}, column {column}: {reason}")
        self.reason = reason
        self.line = line
        self.column = column


class _Fault(Exception):
    """What is wrong, and the offset where it is seen."""

    def __init__(self, reason: str, offset: int) -> None:
        super().__init__(reason)
        self.reason = reason
        self.offset = offset


@dataclass(frozen=True)
class NumberText:
    """A number as it was written."""

    text: str

    def exact(self) -> Fraction:
        """Its value, exactly."""
        return Fraction(self.text)

    def is_whole(self) -> bool:
        """Whether the program takes it for whole: no point, no exponent, not `-0`, from -2^63 to 2^64 - 1."""
        written = self.text.lstrip("-").isdigit() and self.text != "-0" and len(self.text) < 25
        return written and -(1 << 63) <= int(self.text) < 1 << 64


@dataclass
class Value:
    """A value with the offset of its first character. `members` of an object are in the order of the text."""

    offset: int
    content: Union[dict[str, Value], list[Value], str, bool, None, NumberText]
    key_offsets: dict[str, int] = field(default_factory=dict)
    repeated: list[tuple[str, int]] = field(default_factory=list)

    def kind(self) -> str:
        """The kind in words."""
        if isinstance(self.content, dict):
            return "an object"
        if isinstance(self.content, list):
            return "an array"
        if isinstance(self.content, str):
            return "a string"
        if isinstance(self.content, NumberText):
            return "a number"
        return "null" if self.content is None else "a truth value"


@dataclass(frozen=True)
class Document:
    """A text and its value."""

    text: str
    root: Value
    line_starts: tuple[int, ...]

    def line_and_column(self, offset: int) -> tuple[int, int]:
        """The line and the column, from 1, in characters."""
        return _line_and_column(self.line_starts, offset)


def _line_starts(text: str) -> tuple[int, ...]:
    return (0, *(found.end() for found in re.finditer("\n", text)))


def _line_and_column(starts: tuple[int, ...], offset: int) -> tuple[int, int]:
    line = bisect_right(starts, offset)
    return line, offset - starts[line - 1] + 1


def parse(data: bytes) -> Document:
    """The document of these bytes, or NotJson."""
    try:
        text = data.decode("utf-8")
    except UnicodeDecodeError as fault:
        before = data[: fault.start].decode("utf-8")
        line, column = _line_and_column(_line_starts(before), len(before))
        raise NotJson("bytes that are no UTF-8", line, column) from None
    starts = _line_starts(text)
    try:
        root, end = _value(text, _blanks(text, 0), MOST_LEVELS)
        end = _blanks(text, end)
        if end < len(text):
            raise _Fault("something stands behind the value", end)
    except _Fault as fault:
        raise NotJson(fault.reason, *_line_and_column(starts, fault.offset)) from None
    return Document(text, root, starts)


def _blanks(text: str, offset: int) -> int:
    found = BLANKS.match(text, offset)
    return offset if found is None else found.end()


def _value(text: str, offset: int, levels: int) -> tuple[Value, int]:
    head = text[offset : offset + 1]
    if head in ("{", "["):
        if levels == 0:
            raise _Fault(f"more than {MOST_LEVELS} levels", offset)
        return _object(text, offset, levels - 1) if head == "{" else _array(text, offset, levels - 1)
    if head == '"':
        content, end = _string(text, offset)
        return Value(offset, content), end
    for word, meaning in WORDS.items():
        if text.startswith(word, offset):
            return Value(offset, meaning), offset + len(word)
    found = NUMBER.match(text, offset)
    if found is None:
        raise _Fault("a value is expected" if head else "the text ends where a value is expected", offset)
    _finite(found.group(), offset)
    return Value(offset, NumberText(found.group())), found.end()


def _finite(number: str, offset: int) -> None:
    """Refuses a number that rounds to an infinity. The float is looked at for this alone."""
    if float(number) in (float("inf"), float("-inf")):
        raise _Fault("a number that is too large for any double", offset)


def _object(text: str, start: int, levels: int) -> tuple[Value, int]:
    members: dict[str, Value] = {}
    value = Value(start, members)
    offset = _blanks(text, start + 1)
    if text.startswith("}", offset):
        return value, offset + 1
    while True:
        if not text.startswith('"', offset):
            raise _Fault("a key in quotation marks is expected", offset)
        key_offset = offset
        key, offset = _string(text, offset)
        offset = _blanks(text, offset)
        if not text.startswith(":", offset):
            raise _Fault("a colon is expected", offset)
        member, offset = _value(text, _blanks(text, offset + 1), levels)
        if key in members:
            value.repeated.append((key, key_offset))
        members[key] = member
        value.key_offsets[key] = key_offset
        offset = _blanks(text, offset)
        if text.startswith("}", offset):
            return value, offset + 1
        if not text.startswith(",", offset):
            raise _Fault("a comma or the end of the object is expected", offset)
        offset = _blanks(text, offset + 1)


def _array(text: str, start: int, levels: int) -> tuple[Value, int]:
    items: list[Value] = []
    offset = _blanks(text, start + 1)
    if text.startswith("]", offset):
        return Value(start, items), offset + 1
    while True:
        item, offset = _value(text, offset, levels)
        items.append(item)
        offset = _blanks(text, offset)
        if text.startswith("]", offset):
            return Value(start, items), offset + 1
        if not text.startswith(",", offset):
            raise _Fault("a comma or the end of the array is expected", offset)
        offset = _blanks(text, offset + 1)


def _string(text: str, start: int) -> tuple[str, int]:
    pieces: list[str] = []
    offset = start + 1
    while True:
        plain = PLAIN_TEXT.match(text, offset)
        pieces.append(plain.group() if plain else "")
        offset = plain.end() if plain else offset
        if text.startswith('"', offset):
            return "".join(pieces), offset + 1
        if not text.startswith("\\", offset):
            reason = "the text ends inside a string" if offset == len(text) else "a control character in a string"
            raise _Fault(reason, offset)
        piece, offset = _escape(text, offset)
        pieces.append(piece)


def _escape(text: str, offset: int) -> tuple[str, int]:
    letter = text[offset + 1 : offset + 2]
    if letter in ESCAPES:
        return ESCAPES[letter], offset + 2
    if letter != "u":
        raise _Fault("an escape that JSON does not have", offset)
    unit, end = _unit(text, offset)
    if 0xD800 <= unit < 0xDC00 and text.startswith("\\u", end):
        low, end = _unit(text, end)
        if 0xDC00 <= low < 0xE000:
            return chr(0x10000 + ((unit - 0xD800) << 10) + (low - 0xDC00)), end
    if 0xD800 <= unit < 0xE000:
        raise _Fault("half of a pair of surrogates", offset)
    return chr(unit), end


def _unit(text: str, offset: int) -> tuple[int, int]:
    digits = FOUR_DIGITS.match(text, offset + 2)
    if digits is None:
        raise _Fault("four hexadecimal digits are expected", offset)
    return int(digits.group(), 16), digits.end()


def byte_order(names: Iterator[str]) -> list[str]:
    """The names in the order of their bytes, by which the program numbers states, nodes, subproblems and successors."""
    return sorted(names, key=lambda name: name.encode("utf-8"))


def path_text(path: tuple[Union[str, int], ...]) -> str:
    """A path in JSONPath's spelling, such as `$.nodes["summer dry"].realizations[0]`."""
    pieces = ["$"]
    for part in path:
        if isinstance(part, int):
            pieces.append(f"[{part}]")
        elif PLAIN_KEY.match(part):
            pieces.append(f".{part}")
        else:
            pieces.append('["' + part.replace("\\", "\\\\").replace('"', '\\"') + '"]')
    return "".join(pieces)


MOST_LENGTH = 1_000
MOST_EXPONENT = 400


class Refused(Exception):
    """What was read has no counterpart, or is wrong: a kind by name, and where."""

    def __init__(self, kind: str, reason: str, place: str) -> None:
        super().__init__(f"{kind} at {place}: {reason}")
        self.kind = kind
        self.reason = reason
        self.place = place


@dataclass(frozen=True)
class Cursor:
    """A value, its path from the root, and its document."""

    document: Document
    value: Value
    path: tuple[Union[str, int], ...] = ()

    def place(self) -> str:
        """The path with line and column."""
        line, column = self.document.line_and_column(self.value.offset)
        return f"{path_text(self.path)} (line {line}, column {column})"

    def refuse(self, kind: str, reason: str) -> Refused:
        """A refusal at this place, to be raised."""
        return Refused(kind, reason, self.place())

    def is_number(self) -> bool:
        """Whether the value is a number."""
        return isinstance(self.value.content, NumberText)

    def is_text(self) -> bool:
        """Whether the value is a string."""
        return isinstance(self.value.content, str)

    def is_object(self) -> bool:
        """Whether the value is an object."""
        return isinstance(self.value.content, dict)

    def is_null(self) -> bool:
        """Whether the value is null."""
        return self.value.content is None

    def text(self) -> str:
        """The string, else a refusal of kind Shape."""
        if not isinstance(self.value.content, str):
            raise self.refuse("Shape", f"a string is expected, not {self.value.kind()}")
        return self.value.content

    def name(self) -> str:
        """A name: a string, or the text of a number, as tools write that name nodes by numbers."""
        if isinstance(self.value.content, NumberText):
            return self.value.content.text
        return self.text()

    def number_text(self) -> NumberText:
        """The number as it is written, else a refusal of kind Shape."""
        if not isinstance(self.value.content, NumberText):
            raise self.refuse("Shape", f"a number is expected, not {self.value.kind()}")
        return self.value.content

    def number(self) -> Fraction:
        """The number, exactly, else a refusal of kind Shape or TooLong."""
        number = self.number_text().text
        _, _, exponent = number.lower().partition("e")
        if len(number) > MOST_LENGTH or abs(int(exponent or "0")) > MOST_EXPONENT:
            raise self.refuse("TooLong", "a number of so many digits is not read")
        return self.number_text().exact()

    def written(self) -> str:
        """The text of the number."""
        self.number()
        return self.number_text().text

    def table(self) -> dict[str, Value]:
        """The members' values by key, in the order of the text, else a refusal of kind Shape."""
        if not isinstance(self.value.content, dict):
            raise self.refuse("Shape", f"an object is expected, not {self.value.kind()}")
        return self.value.content

    def keys(self) -> list[str]:
        """The keys of the object in byte order, else a refusal of kind Shape."""
        return byte_order(iter(self.table()))

    def find(self, key: str) -> Optional[Cursor]:
        """The member of this key, none where the key is missing."""
        member = self.table().get(key)
        return None if member is None else Cursor(self.document, member, (*self.path, key))

    def find_any(self, *keys: str) -> Optional[Cursor]:
        """The member of the first of these keys that is there."""
        return next((found for found in map(self.find, keys) if found is not None), None)

    def member(self, *keys: str) -> Cursor:
        """The member of the first of these keys that is there, else a refusal of kind Shape."""
        found = self.find_any(*keys)
        if found is None:
            raise self.refuse("Shape", f"the key `{keys[0]}` is missing")
        return found

    def members(self) -> Iterator[tuple[str, Cursor]]:
        """The members of the object in byte order of their keys."""
        return ((key, self.member(key)) for key in self.keys())

    def items(self) -> list[Cursor]:
        """The items of the array, else a refusal of kind Shape."""
        if not isinstance(self.value.content, list):
            raise self.refuse("Shape", f"an array is expected, not {self.value.kind()}")
        return [Cursor(self.document, item, (*self.path, at)) for at, item in enumerate(self.value.content)]
