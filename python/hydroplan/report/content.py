"""What stands on the page: sections with paragraphs, figures and tables, each marked as certified, estimated or given."""
from __future__ import annotations

from dataclasses import dataclass, field
from typing import List, Sequence, Tuple, Union

from .drawing import Drawing

CERTIFIED, ESTIMATED, GIVEN, BOTH = "certified", "estimated", "given", "both"


@dataclass(frozen=True)
class Column:
    """A column of a table: its head, its unit, whether it has numbers, and its mark where the table has several."""

    head: str
    unit: str = ""
    is_number: bool = True
    mark: str = ""


def word_column(head: str) -> Column:
    """A column of words."""
    return Column(head, is_number=False)


@dataclass
class Table:
    """A table: the first cell of each row is its head.

    `groups` are heads over several columns each, behind the first one; `row_marks` has a mark for each row where rows differ.
    """

    caption: str
    mark: str
    columns: Sequence[Column]
    rows: Sequence[Sequence[str]]
    note: str = ""
    groups: Sequence[Tuple[str, int]] = ()
    row_marks: Sequence[str] = ()
    is_folded: bool = False
    kind: str = "table"


@dataclass(frozen=True)
class Key:
    """An entry of a legend: a look and what it stands for."""

    look: str
    words: str
    form: str = "box"


@dataclass
class Figure:
    """Drawings beside one another with one caption; `is_wide` where each takes the whole width."""

    caption: str
    mark: str
    drawings: Sequence[Drawing]
    note: str = ""
    keys: Sequence[Key] = ()
    is_wide: bool = False
    kind: str = "figure"


@dataclass(frozen=True)
class Paragraph:
    """Plain words."""

    text: str
    kind: str = "paragraph"


@dataclass(frozen=True)
class Missing:
    """Says that a file is not there, and what would stand here."""

    text: str
    kind: str = "missing"


@dataclass(frozen=True)
class Listing:
    """Lines as they are in a file."""

    caption: str
    mark: str
    lines: Sequence[str]
    note: str = ""
    kind: str = "listing"


Block = Union[Table, Figure, Paragraph, Missing, Listing]


@dataclass
class Section:
    """A part of the page; `key` is its anchor."""

    key: str
    title: str
    blocks: List[Block] = field(default_factory=list)


@dataclass(frozen=True)
class Answer:
    """One of the questions that the page answers at a glance."""

    question: str
    answer: str
    words: str
    mark: str
    anchor: str
