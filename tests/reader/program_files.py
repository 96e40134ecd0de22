"""Files of programs in the form of crates/test_golden/data, whose README says what they hold, and answers as that crate prints them."""
from __future__ import annotations

from pathlib import Path
from typing import Any, Dict, List, Optional, Tuple

from second_reading.ladder import Trace, answer_of, begin, start
from second_reading.program import UNIT, Answer, Program
from reader_rows import program_of

GOLDEN = Path(__file__).resolve().parents[2] / "crates" / "test_golden"

REFUSED = ("empty-box", "another-cut")
"""The rows whose programs no solver takes."""

Sides = List[Optional[int]]


def number(word: str) -> int:
    """A number: raw ones stand for themselves, others count units."""
    return int(word[:-3]) if word.endswith("raw") else UNIT * int(word)


def side(word: str) -> Optional[int]:
    """A side of a row, which may be absent."""
    return None if word == "-" else number(word)


def term(word: str) -> Tuple[int, int]:
    """COLUMN:FACTOR."""
    column, factor = word.split(":")
    return int(column), number(factor)


def row_of_text(text: str) -> Dict[str, Any]:
    """A file as a row of data: its program, and for each program of its chain the sides that come in the place of the first rows'."""
    row: Dict[str, Any] = {"name": "the file", "columns": [], "rows": [], "solve": []}
    for line in text.splitlines():
        first, *words = line.split()
        if first in ("decisions", "own"):
            row[first] = int(words[0])
        elif first == "column":
            row["columns"].append([number(it) for it in words])
        elif first == "row":
            row["rows"].append((side(words[0]), side(words[1]), [term(it) for it in words[2:]]))
        elif first == "solve":
            row["solve"].append([side(it) for it in words])
        else:
            raise ValueError(line)
    return row


def with_first_sides(program: Program, sides: Sides) -> Program:
    """The program whose first own rows have other sides."""
    written = [it for row in program.own for it in (row.low, row.high)]
    if len(sides) > len(written):
        raise ValueError("sides of cuts stay as they are")
    made = [*sides, *written[len(sides):]]
    return program.with_sides(list(zip(made[::2], made[1::2])))


def answers_of(text: str) -> List[Tuple[Answer, Trace]]:
    """The answers to the programs of a file, in one chain from the start of its own rows, each with what happened."""
    row = row_of_text(text)
    program = program_of(row)
    programs = [with_first_sides(program, sides) for sides in row["solve"]]
    chain, answers = begin(start(program, []), programs[0]), []
    for it in programs:
        trace: Trace = []
        answer, chain = answer_of(chain, it, trace)
        answers.append((answer, trace))
    return answers


def printed(answer: Answer) -> List[str]:
    """The lines of an answer."""
    return [answer.kind, *(" ".join([label, *map(str, numbers)]) for label, numbers in (("point", answer.point), ("duals", answer.duals)))]


def solve_rows() -> List[Tuple[str, str]]:
    """The lines of the index by which the program's own solver solves a file, each with the file's name."""
    lines = (GOLDEN / "data" / "rows.txt").read_text(encoding="utf-8").splitlines()
    return [(line, line.split()[2]) for line in lines if line.startswith("solve ") and line.split()[1] not in REFUSED]


def expected_lines(file: str) -> List[str]:
    """Returns the lines expected of a file of programs."""
    text = (GOLDEN / "data" / file).read_text(encoding="utf-8")
    return [line for answer, _ in answers_of(text) for line in printed(answer)]
