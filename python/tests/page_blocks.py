"""The optima of examples/README.md, and the blocks of docs/use/MODELS.md.

Blocks of Python are run in one namespace, and blocks of text have what the block before them printed.
"""
from __future__ import annotations

import contextlib
import io
import re
from fractions import Fraction
from typing import Dict, Tuple

from model_support import TOP

PAGE = TOP / "docs" / "use" / "MODELS.md"
OPTIMUM = re.compile(r"^\| `(\w+)\.json` \| [^|]* \| [^|]* \| (-?[0-9.,]+)", re.MULTILINE)
BLOCK = re.compile(r"```(python|text)\n(.*?)```\n", re.DOTALL)


def optima() -> Dict[str, Fraction]:
    """The optima of the examples, which examples/README.md has from outside the program, to six places."""
    found = OPTIMUM.findall((TOP / "examples" / "README.md").read_text(encoding="utf-8"))
    return {name: Fraction(number.replace(",", "").rstrip(".")) for name, number in found}


def run_blocks(text: str) -> Tuple[str, Dict[str, object]]:
    """The page with what its blocks print, and the names that they leave. Files come to be in the folder at hand."""
    names: Dict[str, object] = {"__name__": "page"}
    renewed, printed, end = [], "", 0
    for block in BLOCK.finditer(text):
        renewed.append(text[end:block.start()])
        end = block.end()
        if block.group(1) == "text":
            renewed.append(f"```text\n{printed}```\n")
            continue
        renewed.append(block.group())
        line = text.count("\n", 0, block.start(2))
        with contextlib.redirect_stdout(io.StringIO()) as out:
            exec(compile("\n" * line + block.group(2), "docs/use/MODELS.md", "exec"), names)
        printed = out.getvalue()
    return "".join([*renewed, text[end:]]), names
