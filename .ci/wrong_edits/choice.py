"""Which edits a run tries: all whose sources differ from those of the ledger, and those that have waited longest."""
import hashlib
import math
from pathlib import Path
from typing import Dict, Iterable, List, NamedTuple

from wrong_edits.ledger import Entry

PARTS = ("src", "specs", "proofs")
# The minutes that a run is to take, and the part of them that waiting edits have however many others changed.
MINUTES = 15.0
SHARE = 1 / 3
# What an edit without a line is taken to last, in seconds.
SECONDS = 20.0


def digest_of(texts: Iterable[bytes]) -> str:
    """Returns the first twenty hexadecimal digits of a digest of texts, each with its length."""
    made = hashlib.sha256()
    for text in texts:
        made.update(b"%d\n" % len(text) + text)
    return made.hexdigest()[:20]


def digest_of_crate(crate: Path) -> str:
    """Returns the digest of the paths and bytes of a crate's own src/, specs/ and proofs/."""
    files = sorted(
        (path.relative_to(crate).as_posix().encode(), path)
        for part in PARTS for path in (crate / part).rglob("*.*") if path.suffix in (".rt", ".antt") and path.is_file()
    )
    return digest_of(text for name, path in files for text in (name, path.read_bytes()))


def digests_of(files: Dict[str, Path]) -> Dict[str, str]:
    """Returns by edit the digest of its text and of its crate, from the paths crates/CRATE/wrong/NAME.edit by edit."""
    crates: Dict[Path, bytes] = {}
    found = {}
    for name, file in files.items():
        crate = file.parent.parent
        if crate not in crates:
            crates[crate] = digest_of_crate(crate).encode()
        found[name] = digest_of([crates[crate], file.read_bytes()])
    return found


class Choice(NamedTuple):
    """The edits of a run: those that changed, those that waited longest, and those left for later, the longest-waiting first."""

    changed: List[str]
    waiting: List[str]
    later: List[str]

    def reason(self, entries: Dict[str, Entry], lanes: int, minutes: float) -> str:
        """Returns a line that says how many are tried and why, and in how many runs at most each edit has its turn."""
        counts = f"{len(self.changed)} changed, {len(self.waiting)} waiting, {len(self.later)} left for later"
        if not self.later:
            return counts
        oldest, total = entries[self.later[0]].day, sum(it.seconds for it in entries.values())
        least = 60 * minutes * lanes * SHARE
        turns = f", each has its turn within {math.ceil(total / least)} runs that are kept" if least else ""
        return f"{counts}, the oldest tried on {oldest}{turns}"


def in_turn(digests: Dict[str, str], entries: Dict[str, Entry]) -> List[str]:
    """Returns edits that have an entry, the longest-waiting first.

    Those of one day go crate by crate, since a crate's edits are tried together, in an order that changes with any source.
    """
    seed = digest_of(f"{name} {digest}".encode() for name, digest in sorted(digests.items()))

    def place(name: str) -> tuple:
        crate = name.partition("/")[0]
        return entries[name].day, digest_of([seed.encode(), crate.encode()]), name

    return sorted((it for it in digests if it in entries), key=place)


def chosen(digests: Dict[str, str], entries: Dict[str, Entry], lanes: int, minutes: float = MINUTES) -> Choice:
    """Returns which edits to try: all whose digest is not that of their entry, and then waiting ones until the time is used.

    The time is the minutes of each lane by the seconds of the entries. Waiting edits have a third of it at least.
    """
    changed = [it for it in digests if it not in entries or entries[it].digest != digests[it]]
    budget = 60 * minutes * lanes
    used = min(sum(entries[it].seconds if it in entries else SECONDS for it in changed), budget * (1 - SHARE))
    known, waiting, later = set(changed), [], []
    for name in in_turn(digests, entries):
        if name in known:
            continue
        if used < budget and not later:
            used += entries[name].seconds
            waiting.append(name)
        else:
            later.append(name)
    return Choice(changed, waiting, later)
