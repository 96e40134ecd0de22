"""Rows of which no text is compared: the bounds of a training, what its policy costs, and how many scenarios a simulation has."""
from __future__ import annotations

import re
from pathlib import Path
from typing import List

from .expectation import text_difference
from .program import ended
from .rows import BadRow, Row, bytes_of
from .running import Verdict, run_of, streams

FOLLOWED = ("simulate", "J", "5", "5")

LAST_BOUND = re.compile(rb"^bound (-?\d+)\n\Z", re.M)
COST = re.compile(rb"^upper (-?\d+)$", re.M)
ITERATION = re.compile(rb"^iteration \d+ bound (-?\d+)$", re.M)


def between(row: Row, program: Path, folder: Path) -> Verdict:
    """Whether the last bound of a run is between the numbers of a file `between LEAST GREATEST`."""
    word, least, greatest = bytes_of(row.expected).decode("utf-8").split()
    if word != "between":
        raise BadRow(f"{row.expected} is not `between LEAST GREATEST`")
    found = run_of(row, program, folder)
    bound = LAST_BOUND.search(found.written)
    if found.status or found.said or not bound:
        return Verdict(f"ends with {found.status} and without a bound; standard error has {found.said!r}")
    if not int(least) <= int(bound[1]) <= int(greatest):
        return Verdict(f"the bound is {int(bound[1])}, expected between {least} and {greatest}")
    return Verdict(None)


def upper(row: Row, program: Path, folder: Path) -> Verdict:
    """Whether a training and then `evaluate` give a cost of the whole policy, between the numbers of a file `upper LEAST GREATEST`."""
    word, least, greatest = bytes_of(row.expected).decode("utf-8").split()
    if word != "upper":
        raise BadRow(f"{row.expected} is not `upper LEAST GREATEST`")
    trained = run_of(row, program, folder)
    followed = ended(program, ("evaluate", "J"), streams(row, program, folder), folder)
    cost = COST.search(followed.written)
    if trained.status or followed.status or not cost:
        return Verdict(
            f"ends with {trained.status}, and then with {followed.status} and without a cost; standard error has {trained.said + followed.said!r}"
        )
    if not int(least) <= int(cost[1]) <= int(greatest):
        return Verdict(f"the policy costs {int(cost[1])}, expected between {least} and {greatest}")
    return Verdict(None)


def never_fall(bounds: List[int]) -> bool:
    """Whether each bound is at least the one before."""
    return all(earlier <= later for earlier, later in zip(bounds, bounds[1:]))


def rising(row: Row, program: Path, folder: Path) -> Verdict:
    """Whether a training and then a simulation of five scenarios give what a file tells of them: the first line, how many
    iterations, whether each bound is at least the one before, how many scenarios, and how many stages in all."""
    trained = run_of(row, program, folder)
    followed = ended(program, FOLLOWED, streams(row, program, folder), folder)
    if trained.status or followed.status:
        said = trained.said + followed.said
        return Verdict(f"ends with {trained.status}, and then with {followed.status}; standard error has {said!r}")
    bounds = [int(bound) for bound in ITERATION.findall(trained.written)]
    first = trained.written.partition(b"\n")[0].decode("utf-8", "replace")
    counts = [followed.written.count(word) for word in (b"\nscenario ", b"\nstage ")]
    found = f"{first}\niterations {len(bounds)} rising {str(never_fall(bounds)).lower()}\nscenarios {counts[0]} stages {counts[1]}\n"
    return Verdict(text_difference("of both reports", found.encode(), bytes_of(row.expected)))
