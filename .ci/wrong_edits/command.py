"""The command: which edits it tries, how many crates side by side, what it prints, and what it keeps in the ledger."""
import os
import re
import resource
import sys
import time
from concurrent.futures import ThreadPoolExecutor, as_completed
from pathlib import Path
from typing import Any, Callable, Dict, List, Optional, Tuple

from wrong_edits import choice, kit, ledger
from wrong_edits.edits import edits_of
from wrong_edits.trying import Tried, try_edits
from wrong_edits.verdicts import Verdict

# The memory that one check is given, in bytes: the most that one was seen to take is below it.
NEED = 2_500_000_000
ROOT = Path(__file__).resolve().parents[2]
LEDGER = ".ci/wrong_edits/ledger.txt"


def free_memory() -> int:
    """Returns the free memory in bytes, or 0 where the system does not say."""
    try:
        text = Path("/proc/meminfo").read_text(encoding="utf-8")
    except OSError:
        return 0
    found = re.search(r"MemAvailable:\s+(\d+)", text)
    return 1024 * int(found[1]) if found else 0


def lanes() -> int:
    """Returns how many crates are worked on at a time: RT_JOBS where it is a number, else one a processor, as many as memory holds."""
    given = os.environ.get("RT_JOBS", "")
    if given.isdigit() and int(given):
        return int(given)
    return max(1, min(len(os.sched_getaffinity(0)), free_memory() // NEED))


def minutes() -> float:
    """Returns the minutes that a run is to take: WRONG_MINUTES where it is there, else what choice.py says."""
    given = os.environ.get("WRONG_MINUTES", "")
    if given and not re.fullmatch(r"\d+(\.\d+)?", given):
        raise OSError(f"WRONG_MINUTES is {given}, which is no number")
    return float(given) if given else choice.MINUTES


def files_of(crates: List[Any]) -> Dict[str, Path]:
    """Returns the files of all edits by `CRATE/NAME.edit`."""
    return {f"{it.name}/{file.name}": file for it in crates for file in edits_of(Path(it.folder))[0]}


def wanted_of(digests: Dict[str, str], kept: Dict[str, ledger.Entry], names: List[str]) -> Tuple[List[str], str]:
    """Returns the edits to try, with a line that says why: those of the named crates, all by WRONG=all, or a choice by the ledger."""
    if names:
        wanted = [it for it in digests if it.partition("/")[0] in names]
        return wanted, f"{len(wanted)} of the named crates"
    if os.environ.get("WRONG") == "all":
        return list(digests), "all of them"
    found = choice.chosen(digests, kept, lanes(), minutes())
    return [*found.changed, *found.waiting], found.reason(kept, lanes(), minutes())


class Record:
    """The ledger's file during a run, and the digests of all edits as they were when it began."""

    def __init__(self, file: Path, digests: Dict[str, str]) -> None:
        self.file, self.digests = file, digests

    def keep(self, crate: str, tried: List[Tried]) -> None:
        """Rewrites the lines of a crate's edits that were tried, as of today."""
        day = time.strftime("%Y-%m-%d", time.gmtime())
        names = {f"{crate}/{it.edit}": it for it in tried}
        refused = {name: ledger.Entry(self.digests[name], it.seconds, day) for name, it in names.items() if it.verdict.refused}
        ledger.renew(self.file, self.digests, names, refused)


def try_crate(crate: Any, files: List[Path]) -> List[Tried]:
    """Tries edits of a crate, or says of each that it could not be tried."""
    try:
        if kit.build_below(crate):
            return try_edits(crate, files)
        why = "a library that the crate stands on is not proved"
    except (OSError, SystemExit) as error:
        why = f"the check could not be run ({error})"
    return [Tried(it.name, Verdict(False, f"NOT TRIED: {why}"), 0.0) for it in files]


def show(crate: str, tried: List[Tried]) -> int:
    """Prints a line for each edit of a crate and returns how many were refused."""
    for it in tried:
        print(f"wrong: {crate}/{it.edit}: {it.verdict.why} ({it.seconds:.0f} s)", flush=True)
    return sum(it.verdict.refused for it in tried)


def stray(crates: List[Any], root: Path) -> List[str]:
    """Returns what stands in the crates' folders wrong/ and is no edit."""
    return [str(file.relative_to(root)) for it in crates for file in edits_of(Path(it.folder))[1]]


def try_crates(work: List[Tuple[Any, List[Path]]], record: Optional[Record]) -> int:
    """Tries the edits of crates side by side, shows and records what came of those of each, and returns how many were refused."""
    passed = 0
    with ThreadPoolExecutor(lanes()) as pool:
        running = {pool.submit(try_crate, crate, files): crate.name for crate, files in work}
        try:
            for done in as_completed(running):
                if record:
                    record.keep(running[done], done.result())
                passed += show(running[done], done.result())
        except BaseException:
            pool.shutdown(wait=False, cancel_futures=True)
            raise
    return passed


def run(root: Path, names: List[str], keeps: bool = False) -> int:
    """Tries the edits, prints what came of each and the count, and returns the status: 0 where each was refused."""
    crates = kit.crates(root)
    unknown = sorted(set(names) - {it.name for it in crates})
    if unknown:
        raise OSError(f"no crate is named {unknown[0]}")
    files, bad, began = files_of(crates), stray(crates, root), time.monotonic()
    for path in bad:
        print(f"wrong: {path}: BAD EDIT: an edit stands right in wrong/, named of letters, digits, _, - and ., and ends in .edit")
    digests, book = choice.digests_of(files), root / LEDGER
    kept = {name: it for name, it in ledger.read(book).items() if name in files}
    wanted, why = wanted_of(digests, kept, names)
    print(f"wrong: {len(wanted)} of {len(files)} edits: {why}", flush=True)
    work = work_of(crates, [(it, files[it]) for it in wanted], lambda it: kept[it].seconds if it in kept else choice.SECONDS)
    passed, total = try_crates(work, Record(book, digests) if keeps else None), len(bad) + len(wanted)
    used = resource.getrusage(resource.RUSAGE_CHILDREN)
    seconds = f"{time.monotonic() - began:.0f} s, {used.ru_utime + used.ru_stime:.0f} s of a processor"
    print(f"wrong: {total} edits of {len(work)} crates in {seconds}")
    print(f"{passed} passed, {total - passed} failed")
    return 0 if passed == total else 1


def work_of(crates: List[Any], wanted: List[Tuple[str, Path]], seconds: Callable[[str], float]) -> List[Tuple[Any, List[Path]]]:
    """Returns the crates with the files of their edits to try, those first that are thought to take longest."""
    files: Dict[str, List[Path]] = {}
    takes: Dict[str, float] = {}
    for name, file in wanted:
        crate = name.partition("/")[0]
        files.setdefault(crate, []).append(file)
        takes[crate] = takes.get(crate, 0.0) + seconds(name)
    work = [(it, sorted(files[it.name])) for it in crates if it.name in files]
    return sorted(work, key=lambda it: -takes[it[0].name])


def main(words: List[str]) -> int:
    """Runs the command over the repository that this file is in."""
    keeps, names = "--keep" in words, [it for it in words if it != "--keep"]
    if any(it.startswith("-") for it in names):
        print("usage: .ci/wrong [--keep] [NAME..], with WRONG=all for all edits, WRONG_MINUTES=N for the minutes that a choice of them "
              "is to take, and RT_JOBS=N for N checks at a time", file=sys.stderr)
        return 2
    try:
        return run(ROOT, names, keeps)
    except (OSError, SystemExit) as error:
        print(f"wrong: no edit was tried: {error}", file=sys.stderr)
        print("0 passed, 1 failed")
        return 2
