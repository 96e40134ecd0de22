"""Rows of command lines, of tests/program and crates/test_golden, and what the second reading gives in the program's place.

Only commands that solve, follow a policy or read a journal are read, over problems and journals that are not refused. Rows of
crates/test_measure that measure training are read too.
"""
from __future__ import annotations

import shlex
from dataclasses import dataclass
from pathlib import Path
from typing import List, Optional, Sequence, Tuple

from second_reading.journal import Kept, is_committed, journal_of
from second_reading.problem import problem_of
from second_reading.reports import Tree, bound_line, check_lines, policy_of, train_lines
from second_reading.stages import NoDecision
from second_reading.training import Training
from program_files import GOLDEN

TOP = Path(__file__).resolve().parents[2]
COMMANDS = GOLDEN / "data"
MEASURE = TOP / "crates" / "test_measure"
PROGRAM = TOP / "tests" / "program"

ENDS = ("hydroplan 1", "hydroplan: no stage solution: ", "hydroplan: range: ")
"""How what is expected of a row begins that is read here."""


@dataclass(frozen=True)
class CommandRow:
    """A command line with the files of its problem, of the journal before it, and of what is expected."""

    line: str
    problem: Path
    journal: Optional[Path]
    words: Tuple[str, ...]
    expected: Path

    def before(self) -> bytes:
        """Returns the bytes of the journal before the run."""
        return bytes.fromhex(self.journal.read_text(encoding="utf-8")) if self.journal else b""


def lines_of(folder: Path) -> List[str]:
    """The lines of an index, without remarks."""
    lines = (folder / "rows.txt").read_text(encoding="utf-8").splitlines()
    return [line for line in lines if line and not line.startswith("#")]


def file_of(name: str) -> Path:
    """A file that a row of tests/program names: with a slash from the top of the repository, else among its data."""
    return TOP / name if "/" in name else PROGRAM / "data" / name


def row_of_program(line: str) -> Optional[CommandRow]:
    """A row of tests/program whose problem and journal are plain files; none of another kind."""
    parts = shlex.split(line)
    if parts[0] != "run":
        return None
    colon = parts.index(":")
    options = dict(part.split("=", 1) for part in parts[2:colon])
    if "problem" not in options or options["problem"] == "closed" or set(options) - {"problem", "journal"}:
        return None
    journal = options.get("journal", "empty")
    return CommandRow(line, file_of(options["problem"]), None if journal == "empty" else file_of(journal), tuple(parts[colon + 1:]),
                      file_of(parts[1]))


def row_of_commands(line: str) -> Optional[CommandRow]:
    """A row of crates/test_golden in which the program's own solver goes through a command."""
    kind, name, problem, *rest = line.split()
    if kind not in ("stops", "faults"):
        return None
    return CommandRow(line, COMMANDS / problem, COMMANDS / rest[0], tuple(rest[1:]), COMMANDS / f"{name}.txt")


def command_rows() -> List[CommandRow]:
    """All rows that are read here."""
    rows = [*map(row_of_program, lines_of(PROGRAM)), *map(row_of_commands, lines_of(COMMANDS))]
    return [row for row in rows if row and row.words[0:1] and row.words[0] in ("train", "check", "simulate", "validate", "evaluate")
            and row.problem.is_file() and row.expected.read_text(encoding="utf-8").startswith(ENDS)]


def trained(text: bytes, before: bytes, words: Sequence[str]) -> Tuple[List[str], bytes]:
    """The report of `train JOURNAL SEED COUNT [BATCH]` and the journal afterwards."""
    problem, asked = problem_of(text), int(words[3]) if len(words) > 3 else None
    if is_committed(before):
        kept = Kept(before, problem)
        training, batch = kept.training, kept.batch
    else:
        training, batch = Training(problem, int(words[1]), asked or 1), asked
    training.train(int(words[2]))
    return train_lines(training), journal_of(training, text, batch)


def read(text: bytes, before: bytes) -> List[str]:
    """The report of `check JOURNAL`."""
    kept = Kept(before, problem_of(text))
    return check_lines(kept.training, kept.rest)


def followed(text: bytes, before: bytes, command: str, words: Sequence[str]) -> List[str]:
    """The report of a command that follows the policy of a journal."""
    problem = problem_of(text)
    policy = policy_of(Kept(before, problem).training if is_committed(before) else Training(problem, 0))
    if command == "evaluate":
        return Tree(policy).lines()
    scenarios = problem.scenarios if command == "validate" else policy.drawn(int(words[0]), int(words[1]))
    return policy.scenarios_lines(scenarios)


def outcome(row: CommandRow) -> Tuple[str, bytes]:
    """Returns the outcome of a row: the line of what ended it, or its text, and the bytes of the journal afterwards."""
    text, before, (command, _, *words) = row.problem.read_bytes(), row.before(), row.words
    if command == "train":
        lines, after = trained(text, before, row.words[1:])
    elif command == "check":
        lines, after = read(text, before), before
    else:
        lines, after = followed(text, before, command, words), before
    return "".join(line + "\n" for line in lines), after


def expected(row: CommandRow) -> Tuple[str, bytes]:
    """Returns the stored outcome of a row. Where nothing is said of the journal, it is as it was."""
    text, mark, digits = row.expected.read_text(encoding="utf-8").partition("journal ")
    return text, bytes.fromhex(digits) if mark else row.before()


def measure_rows() -> List[str]:
    """The lines of crates/test_measure by which training with the program's own solver is measured."""
    lines = (MEASURE / "data" / "rows.txt").read_text(encoding="utf-8").splitlines()
    return [line for line in lines if line.startswith("measure ") and line.split()[3].startswith("warm-")]


def measured(line: str) -> List[str]:
    """Returns the lines expected of such a row: for each path how many programs it solved and how many answers were of no use."""
    _, _, name, solver, seed, batch, count = line.split()
    two = {"warm-one-chain": False, "warm-twice": False, "warm-two-chains": True}.get(solver)
    training = Training(problem_of((MEASURE / "data" / name).read_bytes()), int(seed), int(batch), two)
    training.train(int(count))
    lines = [f"iteration {entry.iteration} solves {sum(1 + len(made) for _, made in entry.steps)} unsettled {entry.unanswered}"
             for entries in training.records for entry in entries]
    stopped = training.stopped
    if stopped is not None and isinstance(stopped.cause, NoDecision):
        it = stopped.cause
        values, state, rows = (list(numbers) for numbers in (it.values, it.state, it.rows))
        lines.append(f"no stage run {stopped.iteration} node {it.number} values {values} state {state} rows {rows}")
    return [*lines, bound_line(training.problem, training.pools)]
