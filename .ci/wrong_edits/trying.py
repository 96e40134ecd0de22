"""Tries the edits of one crate: those of different functions' bodies together in one check, and the rest one by one."""
import os
import shutil
import tempfile
from itertools import chain
from pathlib import Path
from typing import Any, Dict, List, NamedTuple, Tuple

from wrong_edits import kit
from wrong_edits.edits import BadEdit, Edit, applied, is_of_bodies, places_of, read_edit
from wrong_edits.verdicts import Verdict, verdict_of, verdict_on_bodies


class Tried(NamedTuple):
    """An edit with its verdict, and the seconds of a processor that it took: of its share of a common check, and of a check of its own."""

    edit: str
    verdict: Verdict
    seconds: float


def read_edits(crate: Any, files: List[Path]) -> Tuple[List[Edit], List[Tried]]:
    """Returns the edits of these files, and those that cannot be applied with the reason."""
    good, bad = [], []
    for file in files:
        try:
            edit = read_edit(file.name, file.read_text(encoding="utf-8", errors="replace"))
            applied(edit, Path(crate.folder))
            good.append(edit)
        except BadEdit as error:
            bad.append(Tried(file.name, Verdict(False, f"BAD EDIT: {error}"), 0.0))
    return good, bad


def over_each_other(edits: List[Edit], crate: Path) -> Dict[str, str]:
    """Returns the texts of the files that all the edits change, none where one writes what another one replaces."""
    texts: Dict[str, str] = {}
    try:
        for edit in edits:
            texts = applied(edit, crate, texts)
    except BadEdit:
        return {}
    return texts


def rounds_of(places: Dict[str, List[str]]) -> List[List[str]]:
    """Returns the edits in rounds, no two of which change one function. The value of an edit is the functions that it changes."""
    rounds: List[Tuple[List[str], set]] = []
    for name, functions in places.items():
        fitting = next((it for it in rounds if not it[1] & set(functions)), None)
        if fitting is None:
            fitting = ([], set())
            rounds.append(fitting)
        fitting[0].append(name)
        fitting[1].update(functions)
    return [names for names, _ in rounds]


class Bench:
    """Where the edits of one crate are tried: the crate, and a folder with what its checks have proved so far."""

    def __init__(self, crate: Any, kept: str) -> None:
        self.crate, self.kept, self.folder = crate, kept, Path(crate.folder)

    def check(self, texts: Dict[str, str], only: List[str]) -> kit.Checked:
        """Returns what came of a check of a copy of the crate with these texts in place of its own."""
        with tempfile.TemporaryDirectory(prefix="wrong-edit-") as room:
            for part in kit.library().PARTS:
                if (self.folder / part).is_dir():
                    shutil.copytree(self.folder / part, f"{room}/{part}")
            for path, text in texts.items():
                Path(room, path).write_text(text, encoding="utf-8")
            return kit.check(self.crate, room, self.kept, only)

    def alone(self, edit: Edit) -> Tried:
        """Tries an edit by itself: over the paths that it names, else over the functions that it changes, else over the whole crate."""
        texts = applied(edit, self.folder)
        places = places_of(edit, self.folder) or []
        status, said, seconds = self.check(texts, edit.only or places)
        if edit.only or not is_of_bodies(edit, self.folder):
            verdict = verdict_of(status, said, texts)
        else:
            verdict = verdict_on_bodies(status, said, texts, self.crate.name, places, [])
        return Tried(edit.name, verdict, seconds)

    def together(self, edits: List[Edit]) -> List[Tried]:
        """Tries edits of different functions' bodies in one check, and by itself each one of which this check does not tell."""
        texts = over_each_other(edits, self.folder)
        places = {it.name: places_of(it, self.folder) or [] for it in edits}
        everywhere = list(chain(*places.values()))
        status, said, seconds = self.check(texts, everywhere) if texts else (2, "", 0.0)
        tried = []
        for edit in edits:
            verdict = verdict_on_bodies(status, said, texts, self.crate.name, places[edit.name], everywhere)
            more = 0.0
            if not verdict.refused:
                _, verdict, more = self.alone(edit)
            tried.append(Tried(edit.name, verdict, seconds / len(edits) + more))
        return tried

    def try_all(self, edits: List[Edit]) -> List[Tried]:
        """Tries these edits of the crate, all of which can be applied."""
        beside = {it.name: it for it in edits if not it.only and is_of_bodies(it, self.folder)}
        rounds = rounds_of({name: places_of(it, self.folder) or [] for name, it in beside.items()})
        tried = [self.alone(it) for it in edits if it.name not in beside]
        for names in rounds:
            tried += self.together([beside[it] for it in names]) if len(names) > 1 else [self.alone(beside[names[0]])]
        return tried


def try_edits(crate: Any, files: List[Path]) -> List[Tried]:
    """Returns what came of each of the crate's edits in these files, over what earlier checks of the crate here have kept."""
    edits, tried = read_edits(crate, files)
    if not edits:
        return tried
    with tempfile.TemporaryDirectory(prefix="wrong-kept-") as room:
        own = f"{crate.folder}/out/incremental"
        kept = f"{room}/kept"
        if os.path.isdir(own):
            shutil.copytree(own, kept)
        return tried + Bench(crate, kept).try_all(edits)
