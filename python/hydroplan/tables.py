"""pandas and numpy, asked for where a table or an array is."""
from __future__ import annotations

import importlib
from typing import Any

from .errors import MissingPackage


def package(name: str) -> Any:
    """The package `pandas` or `numpy`, or MissingPackage with the name of Debian's package."""
    try:
        return importlib.import_module(name)
    except ImportError as fault:
        raise MissingPackage(f"{name} is needed for this: Debian has it as python3-{name} ({fault})") from None
