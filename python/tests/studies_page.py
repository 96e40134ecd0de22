"""The page docs/use/STUDIES.md: its study is written to a folder, its commands and its Python are run, and blocks of text have what they print."""
from __future__ import annotations

import contextlib
import io
import re
import shlex
from pathlib import Path
from typing import Dict

from model_support import TOP
from hydroplan.study import main

PAGE = TOP / "docs" / "use" / "STUDIES.md"
BLOCK = re.compile(r"```(toml|sh|python|text)\n(.*?)```\n", re.DOTALL)
COMMAND = ["./hydroplan", "study"]


def run_page(text: str) -> str:
    """The page with what its blocks print. The study is written into the folder `plan` of the folder at hand."""
    names: Dict[str, object] = {"__name__": "page"}
    renewed, printed, end = [], "", 0
    for block in BLOCK.finditer(text):
        renewed.append(text[end:block.start()])
        end = block.end()
        if block.group(1) == "text":
            renewed.append(f"```text\n{printed}```\n")
            continue
        renewed.append(block.group())
        with contextlib.redirect_stdout(io.StringIO()) as out, contextlib.redirect_stderr(io.StringIO()):
            _run(block.group(1), block.group(2), names)
        printed = out.getvalue()
    return "".join([*renewed, text[end:]])


def _run(kind: str, content: str, names: Dict[str, object]) -> None:
    if kind == "toml":
        Path("plan").mkdir(exist_ok=True)
        Path("plan/study.toml").write_text(content, encoding="utf-8")
    elif kind == "python":
        exec(compile(content, "docs/use/STUDIES.md", "exec"), names)
    else:
        words = shlex.split(content)
        assert words[:2] == COMMAND, words
        assert main(words[2:]) == 0, words
