"""Where the script `hydroplan`, the programs and the table of words stand: in the clone that this package is a part of, or in the package."""
from __future__ import annotations

from pathlib import Path

_PACKAGE = Path(__file__).resolve().parent
_INSTALLED = _PACKAGE / "program"
# the top of the clone; of an installed package the folder in it that holds what belongs to the program
TOP = _INSTALLED if _INSTALLED.is_dir() else _PACKAGE.parents[1]
# an installed package lies among others, with which no other interpreter may run
IS_CLONE = TOP != _INSTALLED
