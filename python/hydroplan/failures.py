"""Exceptions for the statuses of the program, with the words of `explain` and the names of the user's model."""
from __future__ import annotations

import re
from fractions import Fraction
from typing import Dict, List, Optional, Tuple, Type

from .core import Ended
from .errors import (
    JournalDeviceFailed, JournalRefused, NoStageSolution, OutOfMemory, OutOfRange, OutputFailed, ProblemRefused, ProblemTooLong,
    ProblemUnreadable, ProgramKilled, ProgramNotRun, RunFailed, TooMuch, WordsRefused,
)
from .programs import Compiled
from .tools.located_json import Cursor, Refused, byte_order, parse
from .tools.explain_command import NO_STAGE, explain_line
from .tools.places import Refusal, locate, read_refusal
from .tools.profile import SCALE
from .tools.status_lines import IN_WORDS

PLAIN: Dict[int, Type[RunFailed]] = {
    1: ProgramNotRun, 2: WordsRefused, 3: ProblemUnreadable, 4: ProblemTooLong, 8: OutOfRange, 10: JournalDeviceFailed, 11: OutputFailed,
    12: OutOfMemory,
}
OTHER_PROBLEM = "the journal was made for another problem: a model that was changed or compiled otherwise needs a new journal"
TOO_MUCH = re.compile(r"too much: formula (\d+) gives (\d+)")
JOURNAL = re.compile(r"journal refused: (\w+)")


def failure(compiled: Compiled, ended: Ended) -> RunFailed:
    """The exception for a run that ended with a status other than 0."""
    lines = ended.errors.strip().splitlines()
    line = _line(lines) or f"no line, status {ended.status}"
    message, words = line.replace("hydroplan: ", "", 1), lines[lines.index(line) + 1:] if line in lines else []
    if ended.status < 0:
        return ProgramKilled(f"the program was ended by signal {-ended.status}", ended.status, line)
    if ended.status in (5, 9):
        return _of_the_problem(compiled, ended.status, line, message)
    if ended.status == 6:
        return _journal(compiled, line, message)
    if ended.status == 7:
        return _too_much(compiled, line, message)
    if ended.status == 8:
        words = _explained(compiled, line)
    return PLAIN.get(ended.status, RunFailed)(message, ended.status, line, words)


def _line(lines: List[str]) -> Optional[str]:
    """The program's line among those on standard error; that of the script `hydroplan` where it ran no program."""
    ours = [it for it in lines if it.startswith("hydroplan:")] or lines
    return next((it for it in ours if not IN_WORDS.match(it)), ours[0] if ours else None)


def _root(compiled: Compiled) -> Cursor:
    document = parse(compiled.problem)
    return Cursor(document, document.root)


def _explained(compiled: Compiled, line: str) -> List[str]:
    try:
        return explain_line(_root(compiled), line)
    except Refused as fault:
        return [str(fault)]


def _of_the_problem(compiled: Compiled, status: int, line: str, message: str) -> RunFailed:
    words = _explained(compiled, line)
    refusal, found = read_refusal(line), NO_STAGE.search(line)
    if refusal is not None:
        part, made = _part(compiled, refusal)
        where = [] if made is None else [f"made: {made}"]
        return ProblemRefused(f"problem refused: {refusal.kind} at {part}", status, line, [*words, *where], refusal.kind, part)
    return RunFailed(message, status, line, words) if found is None else _no_stage(compiled, status, line, words, found)


def _part(compiled: Compiled, refusal: Refusal) -> Tuple[str, Optional[str]]:
    """The part in the user's names, and where the user made it."""
    words = locate(_root(compiled), refusal).words.replace('subproblem "', 'stage "')
    shared, first, second = compiled.shared, refusal.numbers[0], refusal.numbers[1]
    if refusal.part in ("node", "realization", "support", "successor", "alternative"):
        names = compiled.node_names
        return words, shared.nodes[names[first]].cursor.place() if first < len(names) else None
    names = byte_order(iter(shared.subproblems))
    if refusal.part in ("whole", "root", "scenario", "step") or first >= len(names):
        return words, None
    subproblem = shared.subproblems[names[first]]
    if refusal.part == "constraint" and second < len(subproblem.constraints):
        return words, subproblem.constraints[second].place
    return words, subproblem.cursor.place()


def _no_stage(compiled: Compiled, status: int, line: str, words: List[str], found: "re.Match[str]") -> NoStageSolution:
    values, states, rows = ([int(number) for number in text.split()] for text in found.groups()[2:])
    node = compiled.node_names[int(found.group(2))]
    own = compiled.scales.subproblems[compiled.scales.nodes[node]]
    randoms = compiled.shared.subproblems[compiled.scales.nodes[node]].randoms
    by_random = {name: float(value / own.variables[name]) for name, value in zip(randoms, values)}
    by_state = {
        name: float(Fraction(value, SCALE) / compiled.scales.states[name]) for name, value in zip(compiled.state_names, states)
    }
    asking = [name for name, multiplier in zip(compiled.row_names(node), rows) if multiplier]
    at = ", ".join(f"{name} = {value:g}" for name, value in by_random.items()) or "its realization"
    coming = ", ".join(f"{name} = {value:g}" for name, value in by_state.items())
    message = f'no stage solution: node "{node}" has no decisions at {at}{f" with {coming} coming in" if coming else ""}'
    message += f"; its rows {', '.join(asking)} ask too much together" if asking else ""
    kept = [it for it in words if not it.startswith(("random:", "state:"))]
    return NoStageSolution(message, status, line, kept, node, by_random, by_state, asking)


def _journal(compiled: Compiled, line: str, message: str) -> JournalRefused:
    found = JOURNAL.search(line)
    reason = found.group(1) if found else ""
    words = [OTHER_PROBLEM] if reason == "OtherProblem" else _explained(compiled, line)
    return JournalRefused(message, 6, line, words, reason)


def _too_much(compiled: Compiled, line: str, message: str) -> TooMuch:
    found = TOO_MUCH.search(line)
    formula, value = (int(found.group(1)), int(found.group(2))) if found else (0, 0)
    return TooMuch(message, 7, line, _explained(compiled, line), formula, value)
