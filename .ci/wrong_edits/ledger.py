"""The ledger of edits that were refused: of which sources, in how many seconds of a processor, and on which day each was tried last."""
import os
import re
import tempfile
from pathlib import Path
from typing import Dict, Iterable, NamedTuple

# Matches a line: CRATE/NAME.edit, the digest, the seconds and the day.
LINE = re.compile(r"(\w+/[\w.-]+\.edit) ([0-9a-f]{20}) (\d+\.\d) (\d{4}-\d\d-\d\d)")


class Entry(NamedTuple):
    """When an edit was refused last: the digest of what was tried, the seconds of a processor that it took, and the day."""

    digest: str
    seconds: float
    day: str


def read(file: Path) -> Dict[str, Entry]:
    """Returns the entries of a ledger by edit, `CRATE/NAME.edit`, none where there is no such file.

    A line that is none, as a merge may leave one, is passed over. Of two lines of one edit the one of the later day counts.
    """
    entries: Dict[str, Entry] = {}
    try:
        lines = file.read_text(encoding="utf-8", errors="replace").split("\n")
    except FileNotFoundError:
        return entries
    for line in lines:
        found = LINE.fullmatch(line)
        if found:
            entry = Entry(found[2], float(found[3]), found[4])
            entries[found[1]] = max(entry, entries.get(found[1], entry), key=lambda it: it.day)
    return entries


def write(file: Path, entries: Dict[str, Entry]) -> None:
    """Writes a ledger, sorted by edit. Whoever reads the file meanwhile finds the former one or this one."""
    text = "".join(f"{name} {it.digest} {it.seconds:.1f} {it.day}\n" for name, it in sorted(entries.items()))
    handle, made = tempfile.mkstemp(prefix=".ledger-", dir=file.parent)
    try:
        with os.fdopen(handle, "w", encoding="utf-8") as out:
            out.write(text)
        os.chmod(made, 0o644)
        os.replace(made, file)
    except BaseException:
        os.unlink(made)
        raise


def renew(file: Path, there: Iterable[str], tried: Iterable[str], refused: Dict[str, Entry]) -> None:
    """Rewrites the ledger after some edits were tried: those refused get their new line, and the others of them lose theirs.

    The lines of edits that are not among those that are there are dropped; all other lines stay.
    """
    gone = set(tried)
    entries = {name: it for name, it in read(file).items() if name not in gone}
    entries.update(refused)
    kept = set(there)
    write(file, {name: it for name, it in entries.items() if name in kept})
