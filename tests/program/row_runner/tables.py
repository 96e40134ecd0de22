"""Rows that run the program many times: for each line of a table, with what has to come of it in that line or beside it."""
from __future__ import annotations

import re
from pathlib import Path
from typing import Callable, Iterable, Optional, Tuple

from .expectation import shown, status_of, text_difference
from .program import Ended, Streams, ended, journal_in
from .rows import BadRow, Row, bytes_of, unhexed
from .running import Verdict, journal_before

REPEATED = re.compile(rb"<([^<>*]*)\*(\d+)>")


def replaced(text: bytes, edit: bytes) -> bytes:
    """The text with the first OLD of an edit `OLD => NEW` replaced. BadRow where it has none."""
    old, arrow, new = edit.partition(b" => ")
    if not arrow or old not in text:
        raise BadRow(f"{shown(edit)} is no edit of this problem")
    return text.replace(old, new, 1)


def edited(text: bytes, edits: bytes) -> bytes:
    """The text after edits with ` ; ` between two of them; then its first two `<UNIT*TIMES>` stand for so many units."""
    for edit in edits.split(b" ; "):
        text = replaced(text, edit)
    return REPEATED.sub(lambda found: found[1] * int(found[2]), text, count=2)


def lines_of_table(name: str) -> Iterable[Tuple[bytes, bytes]]:
    """The lines QUESTION -> ANSWER of a table. BadRow where a line is not in this form."""
    for line in bytes_of(name).splitlines():
        question, arrow, answer = line.rpartition(b" -> ")
        if not arrow:
            raise BadRow(f"{name}: {shown(line)} is not `QUESTION -> ANSWER`")
        yield question, answer


def last_line(run: Ended) -> bytes:
    """The line on standard error, or else the last one on standard output."""
    return (run.said or run.written).rpartition(b"\n")[0].rpartition(b"\n")[2]


def without_reads(answer: bytes) -> bytes:
    """The last line of a check, without what the proved program says behind it of the lengths of its reads."""
    return re.sub(rb" short reads (true|false)$", b"", answer)


def fault_of(run: Ended, question: bytes, answer: bytes) -> Optional[str]:
    """Returns the fault of a run whose last line has to be this one."""
    fault = text_difference("the last line", last_line(run), without_reads(answer))
    if fault is None and run.status != status_of(run.said):
        fault = f"ends with {run.status}, expected {status_of(run.said)}"
    return fault and f"at {shown(question[-150:])}: {fault}"


def first_fault(row: Row, run: Callable[[bytes], Ended]) -> Verdict:
    """Returns the fault of the first line of a table whose run is not as expected, and how many lines there are."""
    faults = [fault_of(run(question), question, answer) for question, answer in lines_of_table(row.expected)]
    return Verdict(next((fault for fault in faults if fault), None if faults else "the table is empty"))


def over(row: Row, program: Path, folder: Path, problem: bytes) -> Ended:
    """The run of a row's words over a problem, with the row's journal."""
    (folder / "problem.json").write_bytes(problem)
    journal = journal_before(row)
    if journal is not None:
        (folder / "J").write_bytes(journal)
    return ended(program, row.words, Streams(folder / "problem.json"), folder)


def edits(row: Row, program: Path, folder: Path) -> Verdict:
    """Whether the problem after each edit of a table gives the last line that the table has."""
    text = bytes_of(row.options["problem"])
    return first_fault(row, lambda question: over(row, program, folder, edited(text, question)))


def journal_of(question: bytes) -> bytes:
    """The bytes of a journal in a question `- - MORE HEX`, with so many zeros behind them. BadRow where a device is to fail."""
    disk, sink, more, digits = question.split(b" ")
    if (disk, sink) != (b"-", b"-"):
        raise BadRow("devices that fail at some call are for proved programs")
    return unhexed("a journal", digits) + bytes(int(more))


def journals(row: Row, program: Path, folder: Path) -> Verdict:
    """Whether the run over each journal of a table gives the last line that the table has, and leaves the journal as it was."""
    problem = bytes_of(row.options["problem"])

    def run(question: bytes) -> Ended:
        before = journal_of(question)
        (folder / "J").write_bytes(before)
        found = over(row, program, folder, problem)
        if journal_in(folder) != before:
            raise BadRow(f"the journal of {shown(question[-150:])} was changed")
        return found

    return first_fault(row, run)


def each(row: Row, program: Path, folder: Path) -> Verdict:
    """Whether each line of the problem's file, as a problem by itself, gives as its last line that of the expected file."""
    problems = bytes_of(row.options["problem"]).splitlines()
    answers = bytes_of(row.expected).splitlines()
    if len(problems) != len(answers):
        raise BadRow(f"{len(problems)} problems, and {len(answers)} lines of what has to come")
    faults = [fault_of(over(row, program, folder, problem), problem, answer) for problem, answer in zip(problems, answers)]
    return Verdict(next((fault for fault in faults if fault), None))
