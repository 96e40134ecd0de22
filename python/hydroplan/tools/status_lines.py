"""What the program's lines mean that name no place of the problem: words, streams, journals, and sizes.

Outside the proved core: it looks at the problem again on its own, and the program's line decides.
"""
from __future__ import annotations

import hashlib
import json
import re
from typing import Callable, Iterator, Optional

from .limits import GREATEST, MEANINGS, Extent, extent_of
from .word_table import read_table

# what each line means that has no numbers, by its beginning behind `hydroplan: `
PLAIN = {
    "problem could not be read": "standard input failed, or was closed: give the problem by `< FILE` or `--problem FILE`",
    "problem is longer than": "no problem and no description has more than 16,777,216 bytes",
    "journal device failed": "the journal could not be opened, read or written: look at its name, its permissions and the room on its disk",
    "the journal is no regular file": "JOURNAL names a folder, a pipe or a device, and has to name a file",
    "the journal's folder cannot be opened": "the folder of JOURNAL is not there, or may not be opened: make it, or name another",
    "another run writes this journal": "a training on this journal goes on: wait for it, or name another JOURNAL; `check` may read it meanwhile",
    "the journal was removed or changed while it was written": "the file of that name is no longer the one that was written: "
    "let nothing else write, move or cut JOURNAL, look whether it is still there, and train again",
    "output failed": "standard output was closed, or its disk is full",
    "memory": "memory was refused: free some, or train with fewer iterations or a smaller problem",
}
TOO_MUCH = re.compile(r"too much: formula (\d) gives (\d{1,60})\b")
REFUSED = re.compile(r"journal refused: (\w+)((?: \w+)*)")
# lines of the script, which say in words what they mean
IN_WORDS = re.compile(
    r"hydroplan: (too much: (?!formula)|with COUNT |what would fit |waiting for |training cuts |warning: |cannot open |there is no |"
    r"(base|train|check|simulate|validate|evaluate|robust|hydro|gen): )"
)

# what each refusal of a journal means; {0} and so on are the numbers or digests of its line
JOURNALS = {
    "NotAJournal": "the file does not begin as a journal does: name another JOURNAL, one that is not there yet for a new training",
    "OtherVersion": "the journal has the version {0}, and 1 and 2 are read",
    "BadBatch": "the journal's head says {0} paths an iteration, and 1 to 64 are possible: its head was changed",
    "Short": "the file ends inside the part that begins at byte {0}: it was cut off, or copied in part",
    "TooMany": "behind 2,000 records stands one more, and no training writes it: the journal was changed",
    "BadLength": "the record of iteration {0} says that it has {1} bytes, above 67,108,864: the journal was changed there",
    "BadRecord": "the record of iteration {0} is none of this problem, from byte {1} of its payload on: the journal was changed there",
    "OtherSeed": "the journal was made with SEED {0}, and {1} was asked for: go on with {0}, or name another JOURNAL",
    "OtherBatch": "the journal was made with BATCH {0}, and {1} was asked for: leave BATCH out, or name another JOURNAL",
    "OtherProblem": "the journal was made for another problem, byte for byte: each change of the file, also of a blank, makes another",
}


def explain_status(data: bytes, line: str) -> Optional[list[str]]:
    """What a line means that names no place, beside the bytes of a problem; none where it is no such line."""
    if IN_WORDS.match(line):
        return []
    if "hydroplan: usage: " in line:
        return usage()
    for form, reader in ((TOO_MUCH, too_much), (REFUSED, refused)):
        found = form.search(line)
        if found is not None:
            return reader(data, found)
    text = line.partition("hydroplan: ")[2]
    return next(([f"what: {meaning}"] for start, meaning in PLAIN.items() if text.startswith(start)), None)


def usage() -> list[str]:
    """What the words of a command line may be."""
    table = read_table()
    said = ["what: the words are of none of these forms, or a number is outside its range"]
    said += [f"form: {it.form()}" for it in table.commands if it.is_of_the_program()]
    own = {word.strip("[]") for it in table.commands if it.is_of_the_program() for word in it.words}
    ranges = (it for it in table.words if it.range() is not None and it.name in own and " " not in it.command)
    said += [f"range: {it.name}{' of ' + it.command if it.command else ''}, {it.allowed}" for it in ranges]
    return [*said, "numbers are digits alone, without a sign and without a leading zero"]


def too_much(data: bytes, found: re.Match[str]) -> list[str]:
    """What is too much, and what would fit of the problem at hand."""
    formula, value = int(found[1]), int(found[2])
    if formula not in MEANINGS:
        return ["what: a formula that is not known here"]
    said = ["what: " + MEANINGS[formula].format(value=value, greatest=GREATEST[formula])]
    try:
        extent = extent_of(json.loads(data))
    except (KeyError, TypeError, AttributeError, ValueError, RecursionError):
        return [*said, "fits: not told, since this file is no problem"]
    return [*said, *(f"fits: {it}" for it in FITS[formula](extent))]


def _iterations(extent: Extent) -> Iterator[str]:
    for batch in (1, 2, 4, 8, 16, 32, 64):
        yield f"with BATCH {batch} at most {extent.most_iterations(batch):,} iterations"


def _scenarios(extent: Extent) -> Iterator[str]:
    yield f"at most {extent.most_scenarios():,} scenarios"


def _drawn(extent: Extent) -> Iterator[str]:
    yield "`simulate` follows drawn scenarios of the policy, up to 1,000"


def _smaller(extent: Extent) -> Iterator[str]:
    yield "divide each list of weights by what its numbers share; or follow drawn scenarios by `simulate`"


def _coarser(extent: Extent) -> Iterator[str]:
    yield "use greater units of money or of quantities; or follow drawn scenarios by `simulate`"


FITS: dict[int, Callable[[Extent], Iterator[str]]] = {
    1: _iterations, 2: _iterations, 3: _iterations, 4: _scenarios, 5: _drawn, 6: _smaller, 7: _coarser,
}


def refused(data: bytes, found: re.Match[str]) -> list[str]:
    """Why a journal is refused."""
    kind = found[1]
    if kind not in JOURNALS:
        return ["what: a refusal that is not known here"]
    told = [word for word in found[2].split() if not word.isalpha() or len(word) == 64]
    said = ["what: " + JOURNALS[kind].format(*told, "?", "?")]
    return [*said, *other_problem(data, *told)] if kind == "OtherProblem" and len(told) == 2 else said


def other_problem(data: bytes, kept: str, asked: str) -> list[str]:
    """Which of the two problems a file is, and whether it would be the other one with other ends of lines."""
    digest = hashlib.sha256(data).hexdigest()
    if digest == kept:
        return ["this file: is the one that the journal was made for; another was on standard input"]
    said = ["this file: is the one on standard input"] if digest == asked else [f"this file: is neither, its SHA-256 is {digest}"]
    likes = [how for how, other in variants(data) if hashlib.sha256(other).hexdigest() == kept]
    return [*said, *(f"look at: the journal was made for this file {how}" for how in likes[:1])]


def variants(data: bytes) -> Iterator[tuple[str, bytes]]:
    """The same text as editors and copies leave it."""
    plain = data.replace(b"\r\n", b"\n")
    windows = plain.replace(b"\n", b"\r\n")
    for how, text, end in (("", plain, b"\n"), ("with a carriage return at the end of each line", windows, b"\r\n")):
        if not how and plain != data:
            how = "without carriage returns"
        behind = how and f", {how}"
        yield f"without a newline at its end{behind}", text.rstrip(b"\r\n")
        yield f"with one newline at its end{behind}", text.rstrip(b"\r\n") + end
        yield how, text
