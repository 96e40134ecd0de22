"""The blocks of docs/use/INFLOWS.md: Python in one namespace, commands by their function, and texts that have what the block before printed."""
from __future__ import annotations

import contextlib
import io
import re
import shlex
import shutil
from pathlib import Path
from typing import Dict, List

from inflow_support import TOP, TWO_STATIONS
from hydroplan.inflows.command import main

PAGE = TOP / "docs" / "use" / "INFLOWS.md"
BLOCK = re.compile(r"```(python|text|sh)\n(.*?)```\n", re.DOTALL)
COMMAND = ["python3", "-m", "hydroplan.inflows"]


def run_blocks(text: str) -> str:
    """The page with what its blocks print. `record.csv` and what the blocks write come to be in the folder at hand."""
    shutil.copy(TWO_STATIONS, "record.csv")
    names: Dict[str, object] = {"__name__": "page"}
    renewed: List[str] = []
    printed, end = "", 0
    for block in BLOCK.finditer(text):
        kind, own = block.groups()
        renewed.append(text[end:block.start()] + (f"```text\n{printed}```\n" if kind == "text" else block.group()))
        end = block.end()
        if kind == "sh":
            _commands(own)
        printed = _printed(own, text.count("\n", 0, block.start(2)), names) if kind == "python" else ""
    return "".join([*renewed, text[end:]])


def _printed(block: str, line: int, names: Dict[str, object]) -> str:
    with contextlib.redirect_stdout(io.StringIO()) as out:
        exec(compile("\n" * line + block, "docs/use/INFLOWS.md", "exec"), names)
    return out.getvalue()


def _commands(block: str) -> None:
    """Runs the commands of a block; each ends with 0 and leaves the files that it names."""
    for words in map(shlex.split, block.splitlines()):
        with contextlib.redirect_stdout(io.StringIO()):
            status = main(words[3:])
        missing = [word for word in words if word.endswith((".csv", ".json", ".png")) and not Path(word).exists()]
        if words[:3] != COMMAND or status or missing:
            raise AssertionError(f"{' '.join(words)}: status {status}, not there: {missing}")
