"""The small file beside a joined journal, JOURNAL.farm: in how many parts it is trained, and how often each worker was refused.

The name of the run is kept too: by it a worker finds its copy of the journal again where the coordinator was begun anew.
"""
from __future__ import annotations

import json
import os
from pathlib import Path
from typing import Dict, Optional

from .errors import FarmError
from .journals import DEVICE_FAILED
from .new_files import in_the_place_of

FORM = 1
MOST_REFUSALS = 3


class Plan:
    """What a training keeps of itself beside its journal. It is written as a whole, under another name first."""

    def __init__(self, journal: Path, problem: bytes) -> None:
        self._path = journal.with_name(f"{journal.name}.farm")
        self._problem = problem.hex()
        self.parts: Optional[int] = None
        self.refusals: Dict[str, int] = {}
        self.run = os.urandom(8).hex()
        self._is_other = False
        self._read()

    def _read(self) -> None:
        """Takes what is kept, where it is of this problem and can be read. Keeps in mind where it is no plan: somebody else's file is not written over."""
        try:
            kept = json.loads(self._path.read_bytes())
            if kept["form"] == FORM and kept["problem"] == self._problem:
                self.parts, self.run = None if kept["parts"] is None else int(kept["parts"]), str(kept["run"])
                self.refusals = {str(name): int(count) for name, count in kept["refusals"].items()}
        except FileNotFoundError:
            pass
        except (OSError, ValueError, KeyError, TypeError, AttributeError, RecursionError):
            self._is_other = True
            self.parts, self.refusals = None, {}

    def refuse(self, name: str) -> int:
        """Counts a refusal of a worker, and keeps it; how many it has."""
        self.refusals[name] = self.refusals.get(name, 0) + 1
        self.write()
        return self.refusals[name]

    def is_out(self, name: str) -> bool:
        """Whether a worker is not asked any more."""
        return self.refusals.get(name, 0) >= MOST_REFUSALS

    def write(self) -> None:
        """Writes the plan; a kill at any moment leaves the one before, or this one. FarmError (status 10) where its name is another file's."""
        kept = {"form": FORM, "problem": self._problem, "parts": self.parts, "run": self.run, "refusals": self.refusals}
        if self._is_other or self._path.is_symlink():
            raise FarmError(f"{self._path} is no file of this command, which keeps there what it needs to go on: give it another name", DEVICE_FAILED)
        with in_the_place_of(self._path) as file:
            file.write(json.dumps(kept, sort_keys=True).encode("utf-8") + b"\n")
