"""`simulate` on a cluster: scenarios are split by seeds, simulated by whoever is free, and joined in order.

Part P of the scenarios is drawn by the seed of part P, so the text depends on the words alone. Nothing checks the decisions that a worker
prints; the coordinator looks at the form of its text, at the head and at the bound.
"""
from __future__ import annotations

import re
import secrets
from dataclasses import dataclass
from pathlib import Path
from typing import Dict, Iterator, List

from .asking import Asking, Came, failure_of
from .checking import Checking
from .errors import FarmError, WorkerFault
from .journals import framed, opened, payloads, read_head
from .program import digest_of
from .rounds import part_seed
from .shape import TOO_MUCH, Shape
from .work import PROGRAM_FAILED, SIMULATED, Order, forget, perform

MOST_OF_A_PART = 50
MOST_LINE = 900
LINE = re.compile(r"(?:stage \d+ node \d+ (?:found|ray|stuck)|in \".*\" -?\d+|random \".*\" -?\d+|value \".*\" -?\d+|row \d+ residual \d+|"
                  r"cost -?\d+|end -?\d+)\Z")


@dataclass(frozen=True)
class Part:
    """Scenarios of one seed: the number of the first of them, how many there are, and the seed."""

    first: int
    count: int
    seed: int


def parts_of(shape: Shape, seed: int, count: int) -> List[Part]:
    """The parts of so many scenarios. FarmError (status 7) where the problem's size does not allow for one."""
    most = min(MOST_OF_A_PART, shape.extent.most_scenarios())
    if most == 0:
        raise FarmError(f"too much: formula 4 gives {shape.extent.numbers()}", TOO_MUCH)
    firsts = range(0, count, most)
    return [Part(first, min(most, count - first), part_seed(seed, number)) for number, first in enumerate(firsts)]


def renumbered(text: str, part: Part, head: List[str], bound: str) -> List[str]:
    """The lines of the scenarios in a report, with the numbers that they have in the whole.

    WorkerFault where it is no report of so many scenarios with this head and this bound.
    """
    lines = text.splitlines()
    if lines[:len(head)] != head or lines[-1:] != [bound] or not text.endswith("\n"):
        raise WorkerFault("its report has another head, or another bound")
    found: List[str] = []
    number = 0
    for line in lines[len(head):-1]:
        if line == f"scenario {number}":
            found.append(f"scenario {part.first + number}")
            number += 1
        elif number and LINE.match(line):
            found.append(line)
        else:
            raise WorkerFault("its report has a line that is none of a scenario")
    if number != part.count or sum(it.startswith("end ") for it in found) != number:
        raise WorkerFault(f"its report has not {part.count} scenarios")
    return found


class FarmSimulation:
    """A simulation that goes on: its parts, and what came of those that cannot be written yet."""

    def __init__(self, problem: bytes, shape: Shape, program: Path, journal: Path, parts: List[Part]) -> None:
        self._problem = problem
        self._shape = shape
        self._program = program
        self._parts = parts
        self._found: Dict[int, List[str]] = {}
        self.run_name = secrets.token_hex(8)
        with opened(journal) as file:
            self._head = read_head(file, str(journal))
            self._records = b"".join(b"\x01" + framed(it) for it in payloads(file, str(journal)))
        self._has: Dict[str, bool] = {}
        self._lines: List[str] = []
        self._bound = ""

    def look(self, checking: Checking) -> List[str]:
        """Takes the head and the bound from a check of the journal; the lines of the head."""
        report = checking.verdict()
        if report.refused is not None:
            raise FarmError(report.line.replace("hydroplan: ", "", 1), 6)
        self._lines = [it for it in report.report if it.startswith(("hydroplan ", "scale ", "state ", "node "))]
        self._bound = report.report[-1]
        return self._lines

    def run(self, asking: Asking) -> Iterator[str]:
        """The lines behind the head, as far as they are there in order."""
        for written in range(len(self._parts)):
            yield from self._part(asking, written)
        yield self._bound

    def _part(self, asking: Asking, written: int) -> List[str]:
        """The lines of a part, once they are there; meanwhile later ones are asked for too."""
        while written not in self._found:
            missing = [it for it in range(written, len(self._parts)) if it not in self._found]
            asking.give(missing, self._order)
            asking.wait(0.05)
            self._take_all(asking)
        return self._found.pop(written)

    def _take_all(self, asking: Asking) -> None:
        for came in asking.come():
            self._take(asking, came)

    def _order(self, number: int, address: str) -> Order:
        """The order of a part, with the journal for who has it not."""
        part, is_new = self._parts[number], not self._has.pop(address, False)
        return {
            "kind": "simulate", "run": self.run_name, "program": digest_of(self._program), "place": "", "living": "", "digest": self._shape.digest,
            "seed": self._head.seed, "batch": self._head.batch, "order": str(number), "base": "journal", "name": "journal", "own": "", "parts": [],
            "whole": self._records if is_new else None, "problem": self._problem if is_new else None, "draws": part.seed,
            "scenarios": part.count, "most": part.count * (self._shape.extent.numbers() + 2) * MOST_LINE + (1 << 20), "seconds": 3600.0,
        }

    def _take(self, asking: Asking, came: Came) -> None:
        """Takes what came of a part, where it is a report of it."""
        found = asking.read(came)
        self._has[came.address] = found is not None and found[0] == SIMULATED
        if found is not None and found[0] == PROGRAM_FAILED:
            self._take_failure(asking, came)
        elif found is not None:
            self._take_report(asking, came, found[1])

    def _take_report(self, asking: Asking, came: Came, text: bytes) -> None:
        try:
            self._found[came.part] = renumbered(text.decode("utf-8"), self._parts[came.part], self._lines, self._bound)
        except WorkerFault as fault:
            asking.refuse(came.name, str(fault))
        except UnicodeDecodeError:
            asking.refuse(came.name, "its report is no text")

    def _take_failure(self, asking: Asking, came: Came) -> None:
        """Does a part itself where a worker says that the program fails on it."""
        answer = perform(dict(self._order(came.part, ""), place=str(self._program)))
        forget(self.run_name)
        if answer[:1] == PROGRAM_FAILED:
            raise failure_of(answer)
        asking.refuse(came.name, "it says that the program fails, which it does not here")
        self._take_report(asking, came, answer[1:])
