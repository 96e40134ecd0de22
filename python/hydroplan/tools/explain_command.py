"""The command `explain`: refusals of the program in names and places of the problem file, and suspicious keys.

Outside the proved core: it looks at the file again on its own, and the program's line decides.
"""
from __future__ import annotations

import re
import sys
from fractions import Fraction
from pathlib import Path
from typing import Iterable, Optional, Sequence

from .bounded_files import whole_file
from .located_json import Cursor, NotJson, Refused, parse, path_text
from .decimals import decimal_text
from .misspellings import random_names, warnings
from .places import MEANINGS, Refusal, culprit, descend, key_at, locate, node_path, read_refusal, rows_of, states_of
from .plants import MEANINGS as HYDRO_MEANINGS, Place, first_fault, place_of
from .profile import SCALE
from .shown_names import shown_name
from .status_lines import explain_status
from .waiting import in_words, standard_input
from .word_parser import WordParser

DESCRIPTION = """Reads the problem file, or the description of hydro plants, and, on standard input, what hydroplan wrote on
standard error. Writes on standard output for each line of hydroplan what it means, with names, the JSON path, line and
column; and warns of keys that hydroplan ignores and that look like one it knows (of a description: of all that it
ignores), and of keys that come twice. Nothing here is proved."""

HYDRO = re.compile(r"hydro refused: (\w+) at (\w+) (\d+) (\d+)")
RANGE = re.compile(r"range: iteration (\d+) node (\d+) realization (\d+)")
NUMBERS = r"((?: -?\d+)*)"
NO_STAGE = re.compile(rf"no stage solution: run (\d+) node (\d+) values{NUMBERS} state{NUMBERS} rows{NUMBERS}")
CERTIFICATE = re.compile(r"journal refused: BadCertificate iteration (\d+) node (\d+) (\w+)((?: \d+)*)")
LONG = re.compile(r"\d{65}")
FAULTS = {
    "Shape": "not one certificate per realization, or not one multiplier per row and list per successor, at realization {0}",
    "Sign": "row {1} lacks the side on which its multiplier stands, at realization {0}",
    "Cutless": "entry {2} of successor {1} names no cut, is not above the last, or has multiplier 0, at realization {0}",
    "Sum": "the multipliers of successor {1} do not sum to 2^24 times its weight, at realization {0}",
    "Range": "numbers leave 128 bits at realization {0}",
}


def parser() -> WordParser:
    """What the command line may say."""
    found = WordParser(
        prog="explain", description=DESCRIPTION,
        epilog="example: ./hydroplan base < problem.json 2>&1 > report.txt | ./hydroplan explain problem.json; "
        "./hydroplan hydro < plants.json 2>&1 > problem.json | ./hydroplan explain plants.json",
    )
    found.add_argument("problem", type=Path, help="the problem file, or the description of hydro plants")
    found.add_argument("--line", action="append", help="a line of hydroplan, in place of standard input")
    found.add_argument("--keys", action="store_true", help="look at the keys alone, and read nothing else")
    return found


def main(words: Optional[Sequence[str]] = None) -> int:
    """The status: 0, or 1 where the file cannot be read."""
    chosen = parser().parse_args(words)
    try:
        data = whole_file(chosen.problem)
    except OSError as fault:
        print(shown_name(f"explain: {in_words(fault)}"), file=sys.stderr)
        return 1
    lines = [] if chosen.keys else chosen.line or _lines_said()
    for line in explain(data, lines):
        print(shown_name(line))
    return 0


def _lines_said() -> list[str]:
    said = standard_input("explain", "what hydroplan wrote on standard error", "--line LINE gives a line, --keys looks at keys alone")
    return [line for line in said if line.startswith("hydroplan:")]


def explain(data: bytes, lines: Iterable[str]) -> list[str]:
    """All that is said of the bytes of a problem or a description and of lines of the program."""
    try:
        document = parse(data)
    except NotJson as fault:
        said = [f"no JSON at line {fault.line}, column {fault.column}: {fault.reason}"]
        return [it for line in lines for it in _under(line, explain_status(data, line) or [])] + said
    root = Cursor(document, document.root)
    found: list[str] = []
    for line in lines:
        found.extend(_under(line, _explained(root, line)))
    found.extend(f"warning: {it}" for it in warnings(root))
    return found or ["nothing to explain: no line of hydroplan, and no suspicious keys"]


def _under(line: str, said: list[str]) -> list[str]:
    """A line with what is said of it."""
    return [line.strip(), *("  " + it for it in said)]


def _explained(root: Cursor, line: str) -> list[str]:
    try:
        return explain_line(root, line)
    except Refused as fault:
        return [f"this line is not of this file: {fault}"]


def explain_line(root: Cursor, line: str) -> list[str]:
    """What a line of the program means."""
    if LONG.search(line):
        return ["this line is none of the program, whose numbers have at most 64 digits"]
    refusal = read_refusal(line)
    if refusal is not None:
        return _refusal(root, refusal)
    for form, reader in ((HYDRO, _hydro), (RANGE, _range), (NO_STAGE, _no_stage), (CERTIFICATE, _certificate)):
        found = form.search(line)
        if found is not None:
            return reader(root, found)
    said = explain_status(root.document.text.encode("utf-8"), line)
    return said if said is not None else ["this line names no place of the problem; docs/use/FORMAT.md says what each status means"]


def _refusal(root: Cursor, refusal: Refusal) -> list[str]:
    if not root.is_object():
        return ["the file is no object", f"path: {root.place()}"]
    located = locate(root, refusal)
    said = [f"what: {MEANINGS.get(refusal.kind, 'a kind that is not known here')}", f"where: {located.words}"]
    if located.missing and refusal.kind == "Shape":
        missing = path_text(located.missing)[1:].lstrip(".")
        said.append(f"missing: {missing}")
    said.append(f"path: {located.cursor.place()}")
    closer = culprit(root, refusal, located)
    if closer is not None:
        said.append(f"look at: {closer[0].place()}: {closer[1]}")
    if refusal.kind == "Cycle":
        said.extend(_cycle(root, located.cursor))
    return said


def _hydro(root: Cursor, found: re.Match[str]) -> list[str]:
    """A refusal of a description. The closer look is this tool's own reading of the file, where that gives the same."""
    kind, place = found.group(1), Place(found.group(2), int(found.group(3)), int(found.group(4)))
    path, words = place_of(root, place)
    at, missing = descend(root, path)
    said = [f"what: {HYDRO_MEANINGS.get(kind, 'a kind that is not known here')}", f"where: {words}"]
    if missing:
        said.append(f"missing: {path_text(missing)[1:].lstrip('.')}")
    said.append(f"path: {at.place()}")
    fault = first_fault(root)
    if fault is not None and (fault.kind, fault.place) == (kind, place):
        return [*said, f"look at: {fault.cursor.place()}: {fault.reason}"]
    other = "nothing is refused" if fault is None else f"the first refusal is {fault}"
    return [*said, f"this line is not of this file as the tool reads it: {other}"]


def _cycle(root: Cursor, node: Cursor) -> list[str]:
    """A shortest ring through the node, where the file shows one."""
    links: dict[str, list[str]] = {}
    for name, at in root.member("nodes").members():
        successors = at.find("successors") if at.is_object() else None
        links[name] = successors.keys() if successors is not None and successors.is_object() else []
    ring = ring_through(links, str(node.path[-1])) if node.path else None
    return [] if ring is None else ["ring: " + " -> ".join(ring)]


def ring_through(links: dict[str, list[str]], start: str) -> Optional[list[str]]:
    """A shortest way from a node back to itself, with the node at both ends; none where there is none."""
    ways = [[start]]
    seen: set[str] = set()
    for way in ways:
        for follower in links.get(way[-1], []):
            if follower == start:
                return [*way, start]
            if follower not in seen:
                seen.add(follower)
                ways.append([*way, follower])
    return None


def _range(root: Cursor, found: re.Match[str]) -> list[str]:
    iteration, node, realization = (int(number) for number in found.groups())
    path, words = node_path(root, node)
    at, _ = descend(root, (*path, "realizations", realization))
    return [
        f"what: in iteration {iteration} the size of certificates passes 2^127 - 1: use smaller costs or quantities",
        f"where: realization {realization} of {words}", f"path: {at.place()}",
    ]


def _no_stage(root: Cursor, found: re.Match[str]) -> list[str]:
    run, node = int(found.group(1)), int(found.group(2))
    values, states, rows = ([int(number) for number in text.split()] for text in found.groups()[2:])
    path, words = node_path(root, node)
    at, _ = descend(root, path)
    said = [
        f"what: {words} is shown to have no decisions, in iteration or scenario {run}, or in a whole policy after {run} branches",
        f"path: {at.place()}",
    ]
    said.extend(f'random: "{name}" = {value}' for name, value in zip(random_names(at, root), values))
    for name, value in zip(states_of(root), states):
        said.append(f'state: "{name}" = {decimal_text(Fraction(value, SCALE), 6)}')
    for number, (row, multiplier) in enumerate(zip(rows_of(root, node), rows)):
        if multiplier:
            weight = decimal_text(Fraction(multiplier, SCALE), 6)
            place = descend(root, row)[0].place()
            said.append(f"row {number}: {place} weighs {weight}: it asks too much together with the others")
    return [*said, "give such rows a decision that takes up what is missing, at a cost"]


def _certificate(root: Cursor, found: re.Match[str]) -> list[str]:
    node, kind = int(found.group(2)), found.group(3)
    numbers = [*(int(number) for number in found.group(4).split()), 0, 0, 0]
    path, words = node_path(root, node)
    at, _ = descend(root, path)
    meaning = FAULTS.get(kind, "a fault that is not known here").format(*numbers)
    said = [f"what: {meaning}", f"where: {words}", f"path: {at.place()}"]
    if kind == "Sign" and numbers[1] < len(rows_of(root, node)):
        said.append(f"row: {descend(root, rows_of(root, node)[numbers[1]])[0].place()}")
    if kind in ("Cutless", "Sum") and at.is_object():
        said.append(f'successor: "{key_at(at.find("successors"), numbers[1])}"')
    return said


