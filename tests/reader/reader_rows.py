"""Parts that the tests of the second reading share. `python3 -m unittest discover -s tests/reader` at the top of the repository runs them.

The rows in data come from outside: other readings of the same rules gave these answers. A row is a program in raw numbers, 2^32 for
one, whose first `own` rows are its own and whose others are cuts, each with its successor's column last.
"""
from __future__ import annotations

import json
from pathlib import Path
from typing import Any, Dict, List

from second_reading.making import first, widen
from second_reading.program import FINER, UNIT, Column, Cut, Program, Row
from second_reading.table import Table

DATA = Path(__file__).resolve().parent / "data"


def rows_of_chains() -> List[Dict[str, Any]]:
    """The chains of programs with their answers, by name."""
    return [json.loads(file.read_text(encoding="utf-8")) for file in sorted((DATA / "lazy").glob("*.json"))]


def rows_of_ladder() -> List[Dict[str, Any]]:
    """The programs with the answers of wide numbers and of all attempts together."""
    return json.loads((DATA / "ladder.json").read_text(encoding="utf-8"))


def program_of(row: Dict[str, Any]) -> Program:
    """The program of a row. The states are those decisions in which some cut has a slope."""
    decisions, own = row["decisions"], row["own"]
    rows = [Row(low, high, tuple((column, term) for column, term in terms)) for low, high, terms in row["rows"]]
    outs = tuple(sorted({column for cut in rows[own:] for column, _ in cut.terms if column < decisions}))
    pools: List[List[Cut]] = [[] for _ in row["columns"][decisions:]]
    for cut in rows[own:]:
        slopes = dict(cut.terms)
        pools[cut.terms[-1][0] - decisions].append(Cut(cut.low // FINER, tuple(-slopes.get(out, 0) // FINER for out in outs)))
    program = Program(decisions, tuple(Column(*it) for it in row["columns"]), tuple(rows[:own]), outs, tuple(map(tuple, pools)))
    if program.all_rows() != rows:
        raise ValueError(f"{row['name']} is no stage program")
    return program


def table_of_all(program: Program) -> Table:
    """A new table with the rows of all cuts."""
    table = first(program.without_cuts())
    widen(table, program, in_full=True)
    return table


def raw(*numbers: int) -> List[int]:
    """Whole numbers at the scale of programs."""
    return [UNIT * it for it in numbers]
