"""The verdict on an edit from rattle's answer to the edited crate."""
import re
from typing import Dict, Iterable, List, NamedTuple

from wrong_edits.places import paths_at

# Matches the errors of a text that cannot be read, as opposed to one that states something false.
UNREAD = re.compile(r"is not in scope|has no field|is no name|operand is missing|expected the end|cannot continue")
STALE = re.compile(r"module .Rattle-(\w+)-.*Run the lower steps again")
NAMES_WHAT_IS_GONE = re.compile(r"(\./)?proofs/.*(has no field|is not in scope|has no `|was not admitted)")
ONLY_BY_A_NAME = ("only because a proof file names what the edit took away, so this says little of the contract: "
                  "change a value and keep the names")
PLACE = re.compile(r"(note: )?\S+:\d+:\d+:")
OPEN_GOAL = re.compile(r"fn \S+: .*did not prove")
SAYS_WHY = re.compile(r": error|^note: |^fn ")


class Verdict(NamedTuple):
    """Whether the prover refused an edit, and why, or why not."""

    refused: bool
    why: str


def is_unread(line: str, changed: Iterable[str]) -> bool:
    """Returns whether a line says that a text of src/, specs/ or a changed file could not be read."""
    found = re.match(r"(?:\./)?(\S+?):\d+:\d+: error: (?:(`[^`]*`): )?(.*)", line)
    if not found or found[1] not in changed and not found[1].startswith(("src/", "specs/")):
        return False
    return not found[2] or bool(UNREAD.search(re.sub(r"`[^`]*`", "", found[3])))


def verdict_of(status: int, said: str, changed: Iterable[str]) -> Verdict:
    """Returns the verdict on an edit of these files, from the status and the output of the check of the edited crate."""
    lines = said.rstrip("\n").split("\n")
    unread = next((it for it in lines if is_unread(it, changed)), "")
    if unread:
        return Verdict(False, f"BAD EDIT: the prover cannot read the edited text, so no contract was tried: {unread[:200]}")
    if STALE.search(said):
        return Verdict(False, "BAD EDIT: a library that the crate stands on was built over another one")
    if status == 0:
        return Verdict(False, "NOT REFUSED: what was checked is still proved with this edit")
    if status != 1 or not lines[-1].startswith(("logic=not-proved", "only=")):
        return Verdict(False, "BAD EDIT: it did not reach the prover: " + " / ".join(lines[:6])[:600])
    return Verdict(True, reason_of(lines))


def reason_of(lines: List[str]) -> str:
    """Returns by which line the prover refused, or that it did only since a proof file names what is gone."""
    told = [it for it in lines if PLACE.match(it) or OPEN_GOAL.match(it)]
    told = [it for it in told if SAYS_WHY.search(it)] or told
    first = next((it for it in told if not NAMES_WHAT_IS_GONE.match(it)), "")
    if told and not first:
        return f"refused ({ONLY_BY_A_NAME}): {told[0][:160]}"
    return f"refused: {first[:160]}" if first else "refused"


def names_of(function: str) -> "re.Pattern[str]":
    """Returns a pattern of the names under which rattle lists a function and the closures in it."""
    module, _, name = function.rpartition("::")
    before = re.escape(module + "::") if module else ""
    return re.compile(rf"{re.escape(function)}|{before}fn::{re.escape(name)}::.*")


def own_failures(lines: Iterable[str], crate: str) -> Dict[str, str]:
    """Returns the functions with a line that says more against them than that they call what is not proved, each with that line."""
    found = {}
    for line in lines:
        told = re.match(rf"fn {crate}::(\S+): (?:not proved|no proof)(?:[:;] )?(.*)", line)
        if told and (not told[2].startswith("it calls") or "did not prove" in told[2]):
            found[told[1]] = line
    return found


def refused_answers(lines: Iterable[str], function: str) -> List[str]:
    """Returns the errors in a function's own folder of proofs, without those that stem from what another function lacks."""
    place = re.compile(rf"(\./)?proofs/{re.escape(function.replace('::', '/'))}/\w+\.antt:\d+:\d+: error")
    return [it for it in lines if place.match(it) and "was not admitted" not in it]


def open_goals(lines: Iterable[str], function: str, texts: Dict[str, str]) -> List[str]:
    """Returns the notes on goals that are not proved in a function, by where they lie in the changed texts."""
    found = []
    for line in lines:
        place = re.match(r"note: (?:\./)?(src/\S+?):(\d+):\d+: it is not proved", line)
        if place and place[1] in texts and function in paths_at(place[1], texts[place[1]], int(place[2]) - 1):
            found.append(line)
    return found


def verdict_on_bodies(status: int, said: str, texts: Dict[str, str], crate: str, own: List[str], others: List[str]) -> Verdict:
    """Returns the verdict on an edit of its own functions' bodies, from a check in which edits of others may stand too.

    It is refused where one of its own functions has a goal that is not proved or an answer that is refused. That a function
    calls another one that is not proved says nothing of it. Where a function fails that no edit touches, nothing is believed.
    """
    whole = verdict_of(status, said, texts)
    if not whole.refused:
        return whole
    lines = said.split("\n")
    failed, edited = own_failures(lines, crate), [names_of(it) for it in [*own, *others]]
    stray = [name for name in failed if not any(it.fullmatch(name) for it in edited)]
    if stray:
        return Verdict(False, f"BAD EDIT: {stray[0]} is not proved, which it does not change: name it by 'only:' if the edit breaks it")
    for function in own:
        why = refused_answers(lines, function) + [line for name, line in failed.items() if names_of(function).fullmatch(name)]
        if why:
            return Verdict(True, reason_of(open_goals(lines, function, texts) + why) if others else whole.why)
    return Verdict(False, "NOT REFUSED: the functions that it changes are still proved")
