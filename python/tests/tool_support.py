"""What the tests share: documents from texts, and the command line without standard streams."""
from __future__ import annotations

import io
from contextlib import redirect_stderr, redirect_stdout
from pathlib import Path
from typing import Callable, Sequence
from unittest import mock

from model_support import TOP as REPOSITORY
from hydroplan.tools.located_json import Cursor, parse

DATA = Path(__file__).parent / "data"
EXAMPLES = REPOSITORY / "examples"
S = 1 << 24


def cursor(text: str) -> Cursor:
    """The value of a text."""
    document = parse(text.encode("utf-8"))
    return Cursor(document, document.root)


def run(main: Callable, *words: object, typed: str = "") -> tuple[int, str, str]:
    """The status of a command, and what it wrote on standard output and standard error."""
    out, err = io.StringIO(), io.StringIO()
    with redirect_stdout(out), redirect_stderr(err), mock.patch("sys.stdin", io.StringIO(typed)):
        status = main([str(word) for word in words])
    return status, out.getvalue(), err.getvalue()


def lines(text: str) -> Sequence[str]:
    """The lines of a text."""
    return text.splitlines()
