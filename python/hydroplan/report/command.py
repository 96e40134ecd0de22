"""The command `report`: a folder of results to a page."""
from __future__ import annotations

import argparse
import sys
from pathlib import Path
from typing import Optional, Sequence

from hydroplan.errors import HydroplanError

from . import write
from .folder import shown_name

DESCRIPTION = """Writes report.html into a folder of results that `study` left: one page of pictures and tables, without a network. It says of
each number whether it is certified or only estimated."""


def parser() -> argparse.ArgumentParser:
    """What the command line may say."""
    top = argparse.ArgumentParser(prog="report", description=DESCRIPTION)
    top.add_argument("results", type=Path, metavar="RESULTS", help="the folder, with summary.json")
    return top


def main(words: Optional[Sequence[str]] = None) -> int:
    """The status: 0 with the path of the page on standard output, or 1 with a line on standard error."""
    chosen = parser().parse_args(words)
    try:
        print(shown_name(str(write(chosen.results))))
        return 0
    except (HydroplanError, OSError) as fault:
        print(shown_name(f"report: {fault}"), file=sys.stderr)
    return 1
