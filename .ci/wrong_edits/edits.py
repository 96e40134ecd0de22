"""Files of edits: what each changes, and what rattle has to check to refuse it."""
import os
import re
from pathlib import Path
from typing import Dict, List, NamedTuple, Optional, Tuple

from wrong_edits.places import in_body, paths_at

NAME = re.compile(r"[A-Za-z0-9_-][A-Za-z0-9_.-]*\.edit")
PARTS = ("src/", "specs/", "proofs/")


class BadEdit(Exception):
    """An edit that cannot be applied, with the reason."""


class Edit(NamedTuple):
    """An edit of a crate: its file name, its pairs of a file with an old and a new text, and the paths that it says to check."""

    name: str
    pairs: List[Tuple[str, str, str]]
    only: List[str]


def edits_of(crate: Path) -> Tuple[List[Path], List[Path]]:
    """Returns the edits in a crate's folder wrong/, and what stands there and is none."""
    found = sorted(it for it in (crate / "wrong").rglob("*") if not it.is_dir())
    good = [it for it in found if it.parent == crate / "wrong" and NAME.fullmatch(it.name)]
    return good, [it for it in found if it not in good and it.suffix != ".md"]


def read_edit(name: str, text: str) -> Edit:
    """Returns the edit that the text states by its lines `file:`, `old:`, `new:` and `only:`, or raises BadEdit."""
    path, old, pairs, only = "", "", [], []
    for line in text.split("\n"):
        word, _, rest = line.partition(":")
        rest = rest[1:] if rest.startswith(" ") else rest
        if word == "file":
            path = rest.strip()
            if os.path.normpath(path) != path or not path.startswith(PARTS):
                raise BadEdit("a 'file:' line names no file below src/, specs/ or proofs/")
        elif word == "only":
            only.append(rest.strip())
        elif word == "old":
            old = rest
        elif word == "new":
            if not path or not old:
                raise BadEdit("a 'new:' line stands before any 'file:' or 'old:' line")
            pairs.append((path, old, rest))
            old = ""
    if not pairs or old:
        raise BadEdit("it has no 'old:' and 'new:' pair, or an 'old:' line without its 'new:'")
    return Edit(name, pairs, only)


def applied(edit: Edit, crate: Path, texts: Optional[Dict[str, str]] = None) -> Dict[str, str]:
    """Returns the texts of the files that the edit changes, by their path in the crate, beside those of edits before it.

    Raises BadEdit where a file is not there or an old text does not stand in it exactly once.
    """
    made = dict(texts or {})
    for path, old, new in edit.pairs:
        try:
            text = made[path] if path in made else (crate / path).read_text(encoding="utf-8")
        except (OSError, UnicodeDecodeError) as error:
            raise BadEdit(f"there is no file {path}") from error
        if text.count(old) != 1:
            raise BadEdit(f"an 'old:' text is in {path} {text.count(old)} times, and not once")
        made[path] = text.replace(old, new)
    return made


def line_of(text: str, old: str) -> int:
    """Returns the line, from 0, at which the first word of an old text stands."""
    return text[:text.find(old) + len(old) - len(old.lstrip())].count("\n")


def places_of(edit: Edit, crate: Path) -> Optional[List[str]]:
    """Returns the functions that the edit changes, with those in a cycle with them, or None where it changes anything else too."""
    found: List[str] = []
    for path, old, _ in edit.pairs:
        if not path.startswith("src/"):
            return None
        text = (crate / path).read_text(encoding="utf-8")
        places = paths_at(path, text, line_of(text, old)) if old in text else []
        if not places:
            return None
        found += places
    return list(dict.fromkeys(found))


def is_of_bodies(edit: Edit, crate: Path) -> bool:
    """Returns whether the edit changes bodies of functions alone, so that all others keep what is stated of them."""
    for path, old, _ in edit.pairs:
        text = (crate / path).read_text(encoding="utf-8") if path.startswith("src/") else ""
        if old not in text or not in_body(text, line_of(text, old)):
            return False
    return True
